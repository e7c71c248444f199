/* Makes the calls that it reads on standard input, one a line, and compares the number and every lent byte with what the line says. Each string
 * lies between canaries, and an input is compared with a copy.
 *    NAME NUMBER WORDS...   a word for each argument: digits for a string, - for an empty one, null for none; digits for a number;
 *                           two for a lent output, before and after the call
 * Each line of hash, hmac and box_code whose key and output have their lengths is also made in parts: begun, fed and ended over a lent state, cut
 * at random, once with the word `all`, else 34 times.
 * It ends with a table of how often each number came of each function, and how many cuttings were made. With the word `all` a number that
 * box.h names and that never came is a failure. */
#include "box.h"

#define PROGRAM "calls-test"
#include "lines.h"

enum { ARGUMENTS = 6, NUMBERS = BOX_REFUSALS_END, CUTTINGS = 34 };

/* A string between canaries, with the bytes that it must hold after the call; or a number. */
struct argument {
    uint8_t *room, *at, *after;
    size_t length;
    uint64_t number;
};

/* A string as pointer and length, a lent one too. */
#define S(i) a[i].at, a[i].length
#define BYTE(i) ((uint8_t)a[i].number)
#define COUNTER(i) ((uint16_t)a[i].number)

static uint8_t encipher(struct argument *a) { return box_encipher(S(0), S(1), S(2)); }
static uint8_t decipher(struct argument *a) { return box_decipher(S(0), S(1), S(2)); }
static uint8_t code(struct argument *a) { return box_code(S(0), S(1), S(2)); }
static uint8_t derive(struct argument *a) { return box_derive(S(0), S(1), S(2)); }
static uint8_t card_key(struct argument *a) { return box_card_key(S(0), S(1), BYTE(2), S(3)); }
static uint8_t card_key_packed(struct argument *a) { return box_card_key_packed(S(0), S(1), BYTE(2), S(3)); }
static uint8_t card_keys(struct argument *a) { return box_card_keys(S(0), S(1), S(2)); }
static uint8_t session_key(struct argument *a) { return box_session_key(S(0), COUNTER(1), S(2)); }
static uint8_t script_key(struct argument *a) { return box_script_key(S(0), S(1), S(2)); }
static uint8_t counter_key(struct argument *a) { return box_counter_key(S(0), S(1)); }
static uint8_t idn(struct argument *a) { return box_idn(S(0), COUNTER(1), S(2)); }
static uint8_t write_pin(struct argument *a) { return box_write_pin(S(0), S(1)); }
static uint8_t read_pin(struct argument *a) { return box_read_pin(S(0), S(1)); }
static uint8_t cryptogram(struct argument *a) { return box_cryptogram(S(0), BYTE(1), COUNTER(2), S(3), S(4)); }
static uint8_t arpc(struct argument *a) { return box_arpc(S(0), S(1), S(2), S(3)); }
static uint8_t wrap(struct argument *a) { return box_wrap(S(0), S(1), BYTE(2), S(3), S(4), (size_t)a[5].number); }
static uint8_t open_message(struct argument *a) { return box_open(S(0), S(1), S(2), S(3)); }

/* s: a string, o: a lent output, n: a number. */
struct function {
    const char *name, *takes;
    int refusals[3];
    uint8_t (*call)(struct argument *);
};

static const struct function functions[] = {
    {"box_encipher", "sso", {1}, encipher},
    {"box_decipher", "sso", {1}, decipher},
    {"box_code", "sso", {1}, code},
    {"box_derive", "sso", {1}, derive},
    {"box_card_key", "ssno", {1, 2}, card_key},
    {"box_card_key_packed", "ssno", {1, 2}, card_key_packed},
    {"box_card_keys", "sso", {1, 2}, card_keys},
    {"box_session_key", "sno", {1}, session_key},
    {"box_script_key", "sso", {1}, script_key},
    {"box_counter_key", "so", {1}, counter_key},
    {"box_idn", "sno", {1}, idn},
    {"box_write_pin", "so", {1, 12}, write_pin},
    {"box_read_pin", "so", {1, 9}, read_pin},
    {"box_cryptogram", "snnso", {1}, cryptogram},
    {"box_arpc", "ssso", {1}, arpc},
    {"box_wrap", "ssnson", {1, 3}, wrap},
    {"box_open", "ssso", {1, 4, 8}, open_message},
};

enum { FUNCTIONS = sizeof functions / sizeof functions[0] };

static unsigned long counts[FUNCTIONS][NUMBERS];
static unsigned long calls, cuttings, parts;

static const struct function *find(const char *name) {
    size_t i;
    for (i = 0; i < FUNCTIONS; i++)
        if (strcmp(functions[i].name, name) == 0) return &functions[i];
    return NULL;
}

/* What takes parts, by the name of the line that says the answer to the whole. */
struct form {
    const char *name;
    size_t state, out;
    uint8_t (*begin)(const uint8_t *, size_t, uint8_t *, size_t);
    uint8_t (*feed)(uint8_t *, size_t, const uint8_t *, size_t);
    uint8_t (*end)(const uint8_t *, size_t, uint8_t *, size_t);
};

static uint8_t hash_begin(const uint8_t *key, size_t key_length, uint8_t *state, size_t length) {
    (void)key;
    (void)key_length;
    return box_hash_begin(state, length);
}

static const struct form forms[] = {
    {"hash", BOX_HASH_STATE, 32, hash_begin, box_hash_feed, box_hash_end},
    {"hmac", BOX_HMAC_STATE, 32, box_hmac_begin, box_hmac_feed, box_hmac_end},
    {"box_code", BOX_CODE_STATE, 4, box_code_begin, box_code_feed, box_code_end},
};

static const struct form *form_of(const char *name) {
    size_t i;
    for (i = 0; i < sizeof forms / sizeof forms[0]; i++)
        if (strcmp(forms[i].name, name) == 0) return &forms[i];
    return NULL;
}

static uint32_t any(void) {
    static uint64_t seed = 20171219;
    seed = seed * 6364136223846793005u + 1442695040888963407u;
    return (uint32_t)(seed >> 33);
}

/* The string of a word. It starts at a place of its own in its room, so that no alignment is taken for granted. */
static struct argument lend(const char *word, const char *after) {
    struct argument a = {NULL, NULL, NULL, 0, 0};
    size_t shift = line_number % 8;
    if (strcmp(word, "null") == 0) return a;
    a.length = length_of(word);
    if (length_of(after) != a.length) fail("lengths before and after differ");
    a.room = malloc(a.length + 2 * MARGIN);
    a.after = malloc(a.length + 1);
    if (a.room == NULL || a.after == NULL) fail("no memory");
    memset(a.room, CANARY, a.length + 2 * MARGIN);
    a.at = a.room + MARGIN - shift;
    read_bytes(word, a.at, a.length);
    read_bytes(after, a.after, a.length);
    return a;
}

static struct argument count_of(const char *word) {
    struct argument a = {NULL, NULL, NULL, 0, 0};
    a.number = number_of(word);
    return a;
}

/* The canaries stand and the string holds what it must; its room is given back. */
static void back(struct argument *a, const char *name) {
    const uint8_t *sign;
    if (a->room == NULL) return;
    for (sign = a->room; sign < a->room + a->length + 2 * MARGIN; sign++)
        if ((sign < a->at || sign >= a->at + a->length) && *sign != CANARY) fail("a byte beside a string was written");
    if (memcmp(a->at, a->after, a->length) != 0) {
        printf("calls-test: %s left other bytes\n", name);
        fail("bytes differ");
    }
    free(a->room);
    free(a->after);
}

static void make(const struct function *f, char **words, size_t count) {
    struct argument a[ARGUMENTS];
    size_t i, next = 2, arguments = strlen(f->takes);
    unsigned long wanted = strtoul(words[1], NULL, 10);
    uint8_t got;
    if (count != 2 + arguments + 1) fail("wrong number of words");
    for (i = 0; i < arguments; i++) {
        char *word = words[next++];
        if (f->takes[i] == 'n') a[i] = count_of(word);
        else a[i] = lend(word, f->takes[i] == 'o' ? words[next++] : word);
    }
    got = f->call(a);
    if (got != wanted || got >= NUMBERS) {
        printf("calls-test: %s returned %u, not %lu\n", f->name, got, wanted);
        fail("number differs");
    }
    for (i = 0; i < arguments; i++)
        if (f->takes[i] != 'n') back(&a[i], f->name);
    counts[f - functions][got]++;
    calls++;
}

/* Bytes between canaries, which hold anything. */
static uint8_t *room_for(uint8_t *room, size_t length) {
    size_t i;
    memset(room, CANARY, length + 2 * MARGIN);
    for (i = 0; i < length; i++) room[MARGIN + i] = (uint8_t)any();
    return room + MARGIN;
}

static void canaries(const uint8_t *room, size_t length) {
    size_t i;
    for (i = 0; i < MARGIN; i++)
        if (room[i] != CANARY || room[MARGIN + length + i] != CANARY) fail("a byte beside a state or an answer was written");
}

/* The message of a line, begun, fed with parts of any length and ended: the number and the bytes are those of the whole. */
static void cut(const struct form *f, const uint8_t *key, size_t key_length, const uint8_t *text, size_t length, uint8_t number, const uint8_t *wanted) {
    static uint8_t room[BOX_HMAC_STATE + 2 * MARGIN], answer[32 + 2 * MARGIN], copy[BOX_HMAC_STATE], before[32];
    uint8_t *state = room_for(room, f->state), *out = room_for(answer, f->out);
    size_t done = 0, most = 1 + any() % (length + 1);
    if (f->begin(key, key_length, state, f->state) != 0) fail("not begun");
    while (done < length || any() % 4 == 0) {
        size_t part = any() % 5 == 0 ? 0 : any() % (most + 1);
        if (part > length - done) part = length - done;
        if (f->feed(state, f->state, text + done, part) != 0) fail("a part was refused");
        done += part;
        parts++;
    }
    memcpy(copy, state, f->state);
    memcpy(before, out, f->out);
    if (f->end(state, f->state, out, f->out) != number) fail("another number in parts");
    if (memcmp(out, number == 0 ? wanted : before, f->out) != 0) fail("another answer in parts");
    if (memcmp(state, copy, f->state) != 0) fail("an end changed its state");
    canaries(room, f->state);
    canaries(answer, f->out);
    cuttings++;
}

/* NAME NUMBER [KEY] TEXT BEFORE AFTER, made in parts where the key begins. */
static void make_in_parts(const struct form *f, char **words, size_t count, int times) {
    size_t keyed = f->begin != hash_begin;
    uint8_t number = (uint8_t)strtoul(words[1], NULL, 10);
    struct argument key = {NULL, NULL, NULL, 0, 0}, text, out;
    if (count != 5 + keyed) fail("wrong number of words");
    text = lend(words[2 + keyed], words[2 + keyed]);
    out = lend(words[4 + keyed], words[4 + keyed]);
    if (keyed) key = lend(words[2], words[2]);
    if (out.length == f->out && (!keyed || key.length == 32))
        while (times-- > 0) cut(f, key.at, key.length, text.at, text.length, number, out.at);
    back(&text, f->name);
    back(&out, f->name);
    back(&key, f->name);
}

static int named(const struct function *f, int number) {
    return number == 0 || f->refusals[0] == number || f->refusals[1] == number || f->refusals[2] == number;
}

static int came(size_t i) {
    size_t number;
    for (number = 0; number < NUMBERS; number++)
        if (counts[i][number] > 0) return 1;
    return 0;
}

/* Whether some function gives a number: the columns of the table. */
static int column(int number) {
    size_t i;
    for (i = 0; i < FUNCTIONS; i++)
        if (named(&functions[i], number)) return 1;
    return 0;
}

/* The table, of the functions that were called or of all; returns how many numbers that box.h names never came. */
static int report(int all) {
    size_t i;
    int number, missing = 0;
    printf("%-20s", "");
    for (number = 0; number < NUMBERS; number++)
        if (column(number)) printf("%6d", number);
    printf("\n");
    for (i = 0; i < FUNCTIONS; i++) {
        if (!all && !came(i)) continue;
        printf("%-20s", functions[i].name);
        for (number = 0; number < NUMBERS; number++) {
            unsigned long count = counts[i][number];
            if (!column(number)) continue;
            if (count > 0) printf("%6lu", count);
            else printf("%6s", all && named(&functions[i], number) ? "NONE" : "");
            missing += count == 0 && named(&functions[i], number);
        }
        printf("\n");
    }
    printf("%lu calls as computed", calls);
    printf(", %lu cuttings in %lu parts\n", cuttings, parts);
    return missing;
}

int main(int argc, char **argv) {
    char *words[WORDS];
    size_t count;
    int all = argc == 2 && strcmp(argv[1], "all") == 0;
    int missing;
    while ((count = next_line(words)) > 0) {
        const struct function *f;
        const struct form *form;
        if (count < 3) fail("too few words");
        f = find(words[0]);
        form = form_of(words[0]);
        if (f == NULL && form == NULL) fail("no such function");
        if (f != NULL) make(f, words, count);
        if (form != NULL) make_in_parts(form, words, count, all ? 1 : CUTTINGS);
    }
    missing = report(all);
    if (calls + cuttings == 0 || (all && missing > 0)) fail("a number never came");
    return 0;
}
