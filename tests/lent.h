/* Strings that are lent to the library between canaries, for the tests in C that answer lines (lines.h): tests/templates.c and tests/desk-calls.c. What is
 * empty is null on every other line. Byte i of a lent output is 29 i + 11 before the call. */
#include "lines.h"

/* Bytes between canaries, which start at a place of their own, so that no alignment is taken for granted. */
struct room {
    uint8_t bytes[LONGEST / 2 + 2 * MARGIN], copy[LONGEST / 2];
    uint8_t *at;
    size_t length;
};

static void lend(struct room *room, size_t length) {
    size_t shift = line_number % 8, i;
    if (length > LONGEST / 2) fail("too long");
    room->at = room->bytes + MARGIN - shift;
    room->length = length;
    memset(room->bytes, CANARY, MARGIN);
    for (i = 0; i < length; i++) room->at[i] = (uint8_t)(29 * i + 11);
    memset(room->at + length, CANARY, MARGIN);
    memcpy(room->copy, room->at, length);
    if (length == 0 && line_number % 2 == 0) room->at = NULL;
}

static void give(struct room *room, const char *word) {
    lend(room, length_of(word));
    read_bytes(word, room->copy, room->length);
    if (room->length > 0) memcpy(room->at, room->copy, room->length);
}

static void canaries(const struct room *room) {
    size_t i, from = MARGIN - line_number % 8;
    for (i = 0; i < from; i++)
        if (room->bytes[i] != CANARY) fail("a byte ahead of a string was written");
    for (i = 0; i < MARGIN; i++)
        if (room->bytes[from + room->length + i] != CANARY) fail("a byte after a string was written");
}

static int as_it_was(const struct room *room) { return room->length == 0 || memcmp(room->at, room->copy, room->length) == 0; }

static void given_back(const struct room *room) {
    canaries(room);
    if (!as_it_was(room)) fail("an input was written");
}

static void put_digits(const uint8_t *at, size_t length) {
    static char signs[LONGEST];
    size_t i;
    for (i = 0; i < length; i++) {
        signs[2 * i] = "0123456789abcdef"[at[i] >> 4];
        signs[2 * i + 1] = "0123456789abcdef"[at[i] & 15];
    }
    fwrite(signs, 1, 2 * length, stdout);
}

static void word(const uint8_t *at, size_t length) {
    putchar(' ');
    if (length == 0) putchar('-');
    put_digits(at, length);
}

/* What an output holds after the call, `=` where it is as it was. */
static void after(const struct room *room) {
    canaries(room);
    if (as_it_was(room)) fputs(" =", stdout);
    else word(room->at, room->length);
}
