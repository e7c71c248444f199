/* Answers calls of the functions for the issuer's desk, one a line of standard input, through the library: second/src/desk_calls.rs has the form of a
 * line and of an answer. The table goes on from call to call, and is lent at another address each time. Every lent string lies between canaries, and
 * inputs are compared with a copy (lent.h). */
#include "box.h"

#define PROGRAM "desk-calls-test"
#include "lent.h"

enum { LARGEST_TABLE = 2 * BOX_DESK_TABLE, INPUTS = 4 };

/* The table between calls. */
static uint8_t kept[LARGEST_TABLE];
static size_t kept_length;

static struct room table, pan, inputs[INPUTS], output;

/* A string as pointer and length. */
#define S(room) (room).at, (room).length

static uint8_t byte_of(const char *word) { return (uint8_t)number_of(word); }

/* LENGTH BYTES */
static void new_table(char **words) {
    kept_length = number_of(words[1]);
    if (kept_length > LARGEST_TABLE || length_of(words[2]) > kept_length) fail("too long for a table");
    memset(kept, 0, kept_length);
    read_bytes(words[2], kept, length_of(words[2]));
}

static void lend_table(void) {
    lend(&table, kept_length);
    memcpy(table.copy, kept, kept_length);
    if (kept_length > 0) memcpy(table.at, kept, kept_length);
}

/* The entries that the call changed; the table goes on with them. */
static void table_after(void) {
    size_t at;
    int changed = 0;
    canaries(&table);
    for (at = 0; at < kept_length; at += BOX_DESK_ENTRY) {
        size_t left = kept_length - at, length = left < BOX_DESK_ENTRY ? left : BOX_DESK_ENTRY;
        if (memcmp(table.at + at, kept + at, length) == 0) continue;
        printf("%c%x:", changed++ ? ',' : ' ', (unsigned)(at / BOX_DESK_ENTRY));
        put_digits(table.at + at, length);
        memcpy(kept + at, table.at + at, length);
    }
    if (!changed) fputs(" =", stdout);
}

/* The number and the table, and that the first inputs are as they were. */
static void answer(uint8_t number, size_t count) {
    size_t i;
    printf("%u", number);
    table_after();
    given_back(&pan);
    for (i = 0; i < count; i++) given_back(&inputs[i]);
}

/* PAN SEQUENCE ISSUER DIGITS DATA ARQC CSU ARPC */
static void checking(char **words) {
    give(&inputs[0], words[3]);
    give(&inputs[1], words[5]);
    give(&inputs[2], words[6]);
    give(&inputs[3], words[7]);
    lend(&output, number_of(words[8]));
    answer(box_desk_check(S(table), S(inputs[0]), byte_of(words[4]), S(pan), byte_of(words[2]), S(inputs[1]), S(inputs[2]), S(inputs[3]), S(output)), 4);
    after(&output);
}

/* PAN SEQUENCE SMI SMC DIGITS INSTRUCTION CRYPTOGRAM PIN BUFFER PLACE */
static void wrapping(char **words) {
    give(&inputs[0], words[3]);
    give(&inputs[1], words[4]);
    give(&inputs[2], words[7]);
    give(&inputs[3], words[8]);
    lend(&output, number_of(words[9]));
    answer(box_desk_wrap(S(table), S(inputs[0]), S(inputs[1]), byte_of(words[5]), S(pan), byte_of(words[2]), byte_of(words[6]), S(inputs[2]), S(inputs[3]),
                         S(output), (size_t)number_of(words[10])),
           4);
    after(&output);
}

int main(void) {
    char *words[WORDS];
    size_t count;
    while ((count = next_line(words)) > 0) {
        if (count < 3) fail("too few words");
        if (strcmp(words[0], "table") == 0) {
            new_table(words);
            continue;
        }
        lend_table();
        give(&pan, words[1]);
        if (count == 3 && strcmp(words[0], "add") == 0) answer(box_desk_add(S(table), S(pan), byte_of(words[2])), 0);
        else if (count == 3 && strcmp(words[0], "forget") == 0) answer(box_desk_forget(S(table), S(pan), byte_of(words[2])), 0);
        else if (count == 9 && strcmp(words[0], "check") == 0) checking(words);
        else if (count == 11 && strcmp(words[0], "wrap") == 0) wrapping(words);
        else fail("no call of the desk");
        putchar('\n');
    }
    if (line_number == 0) fail("no lines");
    return fflush(stdout) == 0 ? 0 : 1;
}
