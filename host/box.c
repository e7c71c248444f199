/* box: the desk's work from a command line, over the library of include/box.h.
 *
 *     box COMMAND WORDS..        box --help
 *
 * Bytes are written and read in hexadecimal, PINs and card numbers in decimal. The answer goes to standard output, one value a line, and
 * the exit status is 0; a refusal goes to standard error by number and in words, and the status is 1. Words of a command line can be seen by
 * others on the machine: for rehearsals and tests, not for the keys of real cards.
 */
#define PROGRAM "box"
enum { MISUSED = 1, FAILED = 1 };
#include "words.h"

#include <stdlib.h>

/* The longest message: 255 data bytes and 9 more. A card of a list: the count of its digits, nineteen places, the sequence number. */
enum { MESSAGE = 264, KEY = 32, PLACES = 19, CARD = PLACES + 2 };

static const char help[] =
    "box: keys, codes and scripts of the Mir scheme\n"
    "\n"
    "  box card-key ISSUER-KEY CARD-NUMBER [SEQUENCE]     the card's master key\n"
    "  box card-key-packed ISSUER-KEY CARD-NUMBER [SEQUENCE]\n"
    "                                                     the same, card digits as packed decimal\n"
    "  box card-keys ISSUER-KEY <LIST                     the master keys of many cards, as card-key gives each, a line for a line;\n"
    "                                                     a line of the list: CARD-NUMBER, or CARD-NUMBER, a blank and two digits\n"
    "  box session-keys MK-AC MK-SMI MK-SMC COUNTER CRYPTOGRAM\n"
    "                                                     the keys of one transaction: AC, counter key, SMI, SMC\n"
    "  box change-pin SK-SMI SK-SMC PIN                   the script that sets a PIN: its header, then its message\n"
    "  box block SK-SMI                                   the script that blocks the card\n"
    "  box unblock SK-SMI                                 the script that unblocks it\n"
    "  box wrap SK-SMI HEADER TAG DATA                    the script of any other command: its header, then its message;\n"
    "                                                     tag 87 or 81, up to 255 bytes of data\n"
    "  box open SK-SMI HEADER MESSAGE                     a script message opened: its tag, then its data\n"
    "  box arpc SK-AC CRYPTOGRAM CSU                      the issuer's answer to a cryptogram\n"
    "  box idn IDN-KEY COUNTER LENGTH                     an ICC dynamic number of 2 to 8 bytes\n"
    "  box templates [BYTES]                              script templates taken apart, an object a line: tag, level, place and length,\n"
    "                                                     the identifier's bytes, and the command in words, or its bytes where it is\n"
    "                                                     none of ours; without BYTES those of standard input, one line of digits\n"
    "\n"
    "Keys (64 digits), headers, tags, data, cryptograms, messages, CSUs and templates are hexadecimal; card numbers, PINs, sequence numbers and\n"
    "lengths are decimal; a transaction counter is four hexadecimal digits.\n";

static int counter_of(const char *word, uint16_t *counter) {
    struct bytes b;
    if (hexadecimal(word, &b)) return 1;
    if (b.length != 2) return refused(BOX_INPUT);
    *counter = (uint16_t)(b.at[0] * 256 + b.at[1]);
    return 0;
}

static int card_key(char **word, int words, int packed) {
    struct bytes issuer, pan;
    uint8_t key[32], sequence = 0, r;
    if (hexadecimal(word[0], &issuer) || decimal(word[1], &pan)) return 1;
    if (words > 2 && number(word[2], &sequence)) return 1;
    r = packed ? box_card_key_packed(issuer.at, issuer.length, pan.at, pan.length, sequence, key, sizeof key)
               : box_card_key(issuer.at, issuer.length, pan.at, pan.length, sequence, key, sizeof key);
    if (r != 0) return refused(r);
    print(NULL, key, sizeof key);
    return 0;
}

/* Cards as box_card_keys takes them, and the keys that it gives. */
struct list {
    uint8_t *cards, *keys;
    size_t count, room;
};

/* The line of a list, from 1 on, is told; what stands in it is not. */
static int refused_at(size_t line, unsigned number) {
    fprintf(stderr, "box: line %lu: refusal %u: %s\n", (unsigned long)line, number, box_words(number));
    return 1;
}

static int misused_at(size_t line) {
    fprintf(stderr, "box: line %lu: neither a card number nor a card number, a blank and two digits\n", (unsigned long)line);
    return 1;
}

/* Room for one card more. */
static int longer(struct list *list) {
    uint8_t *cards;
    size_t room = list->room == 0 ? 1024 : list->room * 2;
    if (list->count < list->room) return 0;
    cards = room > SIZE_MAX / KEY ? NULL : realloc(list->cards, room * CARD);
    if (cards == NULL) return failed("more cards than there is memory for");
    list->cards = cards;
    list->room = room;
    return 0;
}

/* Decimal digits up to the first other sign, which is left in *sign: how many, the first of them in their places, and their number up to 1,000. */
static size_t digits(int *sign, uint8_t *places, size_t room, unsigned *value) {
    size_t n = 0;
    for (*value = 0; (*sign = getchar()) >= '0' && *sign <= '9'; n++) {
        unsigned d = (unsigned)(*sign - '0');
        if (n < room) places[n] = (uint8_t)d;
        if (*value < 1000) *value = *value * 10 + d;
    }
    return n;
}

/* One line. What is no card by its number of digits, or by a sequence number above 99, is the library's to refuse: it is given a count or a number
 * that no card has. */
static int one_card(struct list *list, int *sign) {
    uint8_t *card;
    unsigned value;
    size_t n;
    if (longer(list)) return 1;
    card = list->cards + list->count * CARD;
    memset(card, 0, CARD);
    n = digits(sign, card + 1, PLACES, &value);
    if (n == 0) return misused_at(list->count + 1);
    card[0] = n > PLACES ? PLACES + 1 : (uint8_t)n;
    if (*sign == ' ') {
        n = digits(sign, NULL, 0, &value);
        if (n != 2 && value < 100) return misused_at(list->count + 1);
        card[CARD - 1] = value < 100 ? (uint8_t)value : 255;
    }
    if (*sign != '\n' && *sign != EOF) return misused_at(list->count + 1);
    list->count++;
    return 0;
}

/* The cards of standard input, a line each; a last line without its line feed counts unless it is empty. */
static int cards_of(struct list *list) {
    int sign;
    while ((sign = getchar()) != EOF) {
        ungetc(sign, stdin);
        if (one_card(list, &sign)) return 1;
        if (sign == EOF) break;
    }
    return ferror(stdin) ? failed("the list cannot be read") : 0;
}

/* The library refuses a list whole; the first line that it refuses by itself is the reason. */
static int keys_of(const struct bytes *issuer, struct list *list) {
    size_t i;
    uint8_t r;
    list->keys = malloc(list->count * KEY + 1);
    if (list->keys == NULL) return failed("more cards than there is memory for");
    r = box_card_keys(issuer->at, issuer->length, list->cards, list->count * CARD, list->keys, list->count * KEY);
    for (i = 0; r == BOX_CARD_NUMBER && i < list->count; i++)
        if (box_card_keys(issuer->at, issuer->length, list->cards + i * CARD, CARD, list->keys, KEY) == r) return refused_at(i + 1, r);
    if (r != 0) return refused(r);
    for (i = 0; i < list->count; i++) print(NULL, list->keys + i * KEY, KEY);
    return 0;
}

/* All or nothing: no key is printed where a line is refused. */
static int card_keys(char **word) {
    struct bytes issuer;
    struct list list = {NULL, NULL, 0, 0};
    int status;
    if (hexadecimal(word[0], &issuer)) return 1;
    status = cards_of(&list);
    if (status == 0) status = keys_of(&issuer, &list);
    free(list.cards);
    free(list.keys);
    return status;
}

static int session_keys(char **word) {
    struct bytes ac, smi, smc, cryptogram;
    uint8_t sk_ac[32], counters[32], sk_smi[32], sk_smc[32], r;
    uint16_t counter;
    if (hexadecimal(word[0], &ac) || hexadecimal(word[1], &smi) || hexadecimal(word[2], &smc)) return 1;
    if (counter_of(word[3], &counter) || hexadecimal(word[4], &cryptogram)) return 1;
    r = box_session_key(ac.at, ac.length, counter, sk_ac, sizeof sk_ac);
    if (r == 0) r = box_counter_key(sk_ac, sizeof sk_ac, counters, sizeof counters);
    if (r == 0) r = box_script_key(smi.at, smi.length, cryptogram.at, cryptogram.length, sk_smi, sizeof sk_smi);
    if (r == 0) r = box_script_key(smc.at, smc.length, cryptogram.at, cryptogram.length, sk_smc, sizeof sk_smc);
    if (r != 0) return refused(r);
    print("SK-AC", sk_ac, sizeof sk_ac);
    print("SK-counters", counters, sizeof counters);
    print("SK-SMI", sk_smi, sizeof sk_smi);
    print("SK-SMC", sk_smc, sizeof sk_smc);
    return 0;
}

/* Prints the header and the message that data are wrapped in; its size is that of the data and 8, or 9 where their length takes two bytes. */
static int wrapped(const struct bytes *smi, const uint8_t *header, size_t header_length, uint8_t tag, const uint8_t *data, size_t length) {
    uint8_t message[MESSAGE], r;
    r = box_wrap(smi->at, smi->length, header, header_length, tag, data, length, message, sizeof message, 0);
    if (r != 0) return refused(r);
    print("header", header, header_length);
    print("message", message, length + (length < 128 ? 8 : 9));
    return 0;
}

/* A command of the card. */
static int script(const char *key, uint8_t instruction, uint8_t p2, uint8_t tag, const uint8_t *data, size_t length) {
    struct bytes smi;
    uint8_t header[4];
    header[0] = 0x84;
    header[1] = instruction;
    header[2] = 0x00;
    header[3] = p2;
    if (hexadecimal(key, &smi)) return 1;
    return wrapped(&smi, header, sizeof header, tag, data, length);
}

static int wrap(char **word) {
    struct bytes smi, header, tag, data;
    if (hexadecimal(word[0], &smi) || hexadecimal(word[1], &header) || hexadecimal(word[2], &tag) || hexadecimal(word[3], &data)) return 1;
    if (tag.length != 1) return refused(BOX_INPUT);
    return wrapped(&smi, header.at, header.length, tag.at[0], data.at, data.length);
}

static int change_pin(char **word) {
    struct bytes smi, smc, pin;
    uint8_t block[8], enciphered[8], r;
    if (hexadecimal(word[0], &smi) || hexadecimal(word[1], &smc) || decimal(word[2], &pin)) return 1;
    if (smi.length != 32 || smc.length != 32) return refused(BOX_INPUT);
    r = box_write_pin(pin.at, pin.length, block, sizeof block);
    if (r == 0) r = box_encipher(smc.at, smc.length, block, sizeof block, enciphered, sizeof enciphered);
    if (r != 0) return refused(r);
    return script(word[0], 0x24, 0x02, 0x87, enciphered, sizeof enciphered);
}

static int open_message(char **word) {
    struct bytes smi, header, message;
    uint8_t found[3], r;
    if (hexadecimal(word[0], &smi) || hexadecimal(word[1], &header) || hexadecimal(word[2], &message)) return 1;
    r = box_open(smi.at, smi.length, header.at, header.length, message.at, message.length, found, sizeof found);
    if (r != 0) return refused(r);
    print("tag", found, 1);
    print("data", message.at + found[1], found[2]);
    return 0;
}

static int arpc(char **word) {
    struct bytes key, cryptogram, csu;
    uint8_t answer[8], r;
    if (hexadecimal(word[0], &key) || hexadecimal(word[1], &cryptogram) || hexadecimal(word[2], &csu)) return 1;
    r = box_arpc(key.at, key.length, cryptogram.at, cryptogram.length, csu.at, csu.length, answer, sizeof answer);
    if (r != 0) return refused(r);
    print(NULL, answer, sizeof answer);
    return 0;
}

static int idn(char **word) {
    struct bytes key;
    uint8_t answer[8], length, r;
    uint16_t counter;
    if (hexadecimal(word[0], &key) || counter_of(word[1], &counter) || number(word[2], &length)) return 1;
    if (length > sizeof answer) return refused(BOX_INPUT);
    r = box_idn(key.at, key.length, counter, answer, length);
    if (r != 0) return refused(r);
    print(NULL, answer, length);
    return 0;
}

/* What box_read_templates says of one object. */
struct object {
    unsigned tag, level;
    size_t length, place;
};

static struct object object_of(const uint8_t *bytes) {
    struct object o;
    o.tag = bytes[0] * 256u + bytes[1];
    o.level = bytes[2] * 256u + bytes[3];
    o.length = bytes[4] * 256u + bytes[5];
    o.place = ((size_t)bytes[6] << 24) + ((size_t)bytes[7] << 16) + bytes[8] * 256u + bytes[9];
    return o;
}

enum { OUTER = 0xe1, COMMAND = 0x86, IDENTIFIER = 0x9f18, LEVELS = 4 };

/* The commands of the card: header, and what its message begins with; four bytes of code come after 8e 04. */
static const struct {
    const char *words;
    uint8_t header[4], tag, length;
} commands[] = {
    {"PIN change", {0x84, 0x24, 0x00, 0x02}, 0x87, 8},
    {"block", {0x84, 0x1e, 0x00, 0x00}, 0x81, 0},
    {"unblock", {0x84, 0x18, 0x00, 0x00}, 0x81, 0},
};

/* The command that 86 holds, if it is one of these: header, the number of bytes after it, and the message. */
static const char *command_of(const uint8_t *data, size_t length) {
    size_t i;
    for (i = 0; i < sizeof commands / sizeof commands[0]; i++) {
        size_t n = commands[i].length;
        if (length == n + 13 && memcmp(data, commands[i].header, 4) == 0 && data[4] == n + 8 && data[5] == commands[i].tag && data[6] == n &&
            data[7 + n] == 0x8e && data[8 + n] == 4)
            return commands[i].words;
    }
    return NULL;
}

static void print_object(const struct object *o, const uint8_t *input) {
    const uint8_t *data = input + o->place;
    printf("%*s%02x level %u place %lu length %lu", 2 * (int)(o->level - 1), "", o->tag, o->level, (unsigned long)o->place, (unsigned long)o->length);
    if (o->tag == IDENTIFIER) {
        print(" identifier", data, o->length);
    } else if (o->tag != COMMAND || o->length == 0) {
        putchar('\n');
    } else if (command_of(data, o->length) != NULL) {
        printf(" %s,", command_of(data, o->length));
        print(" message", data + 5, o->length - 5);
    } else {
        print(" command", data, o->length);
    }
}

/* A template that is open, or the input: its tag (0), its end, and how many objects stand in it. */
struct holder {
    unsigned tag;
    size_t end, held;
};

/* The tag of the bytes from a place up to an end, 0 where there is none, and the place after it. */
static unsigned tag_at(const uint8_t *input, size_t *place, size_t end) {
    size_t at = *place;
    if (at == end || (input[at] == 0x9f && end - at == 1)) return 0;
    *place += input[at] == 0x9f ? 2 : 1;
    return input[at] == 0x9f ? 0x9f00u + input[at + 1] : input[at];
}

/* The holder of the object at a place, all before which are good: the templates from the top down to it, of which the number is returned. */
static unsigned holders_of(const uint8_t *input, size_t length, size_t place, struct holder *holders) {
    unsigned open = 0;
    size_t at = 0;
    holders[0].tag = 0;
    holders[0].end = length;
    holders[0].held = 0;
    for (;;) {
        unsigned tag;
        size_t n;
        while (open > 0 && holders[open].end == at) open--;
        if (at >= place || open == LEVELS) return open;
        tag = tag_at(input, &at, length);
        n = input[at++];
        if (n == 0x81) n = input[at++];
        holders[open].held++;
        if (tag == COMMAND || tag == IDENTIFIER) {
            at += n;
        } else {
            open++;
            holders[open].tag = tag;
            holders[open].end = at + n;
            holders[open].held = 0;
        }
    }
}

static int is_template(unsigned tag) { return tag == 0x71 || tag == 0x72 || tag == OUTER; }

/* Why the object at a place is bad. */
static void print_reason(const uint8_t *input, size_t length, size_t place) {
    struct holder holders[LEVELS + 1], *h = &holders[holders_of(input, length, place, holders)];
    size_t at = place, n;
    unsigned tag = tag_at(input, &at, h->end);
    int script = h->tag == 0x71 || h->tag == 0x72;
    const char *whole = h->tag == 0 ? "the input" : "its holder";
    if (length == 0) fputs("there is no byte", stderr);
    else if (at == place) fputs("9f is the first byte of a tag, and the second is missing", stderr);
    else if (!is_template(tag) && tag != COMMAND && tag != IDENTIFIER) fprintf(stderr, "tag %02x is none of 71, 72, e1, 86, 9f18", tag);
    else if (script && tag == IDENTIFIER && h->held > 0) fputs("tag 9f18 is not the first in its template", stderr);
    else if (script == is_template(tag) && h->tag == 0) fprintf(stderr, "tag %02x may not stand at the top", tag);
    else if (script == is_template(tag)) fprintf(stderr, "tag %02x may not stand in %02x", tag, h->tag);
    else if (at == h->end || (input[at] == 0x81 && h->end - at == 1)) fprintf(stderr, "%s ends ahead of its length", whole);
    else if (input[at] >= 0x80 && (input[at] != 0x81 || input[at + 1] < 0x80)) fputs("its length is in another form than 00 to 7f or 81 80 to 81 ff", stderr);
    else {
        n = input[at] == 0x81 ? input[at + 1] : input[at];
        at += input[at] == 0x81 ? 2 : 1;
        if (tag == IDENTIFIER && n != 4) fprintf(stderr, "an identifier has 4 bytes, and here are %lu", (unsigned long)n);
        else fprintf(stderr, "it would end at %lu, and %s ends at %lu", (unsigned long)(at + n), whole, (unsigned long)h->end);
    }
}

static int refused_templates(unsigned number, const uint8_t *input, size_t length) {
    uint8_t place[BOX_TEMPLATE_PLACE];
    unsigned long at;
    if (box_templates_fault(input, length, place, sizeof place) != 0) return refused(number);
    at = ((unsigned long)place[0] << 24) + ((unsigned long)place[1] << 16) + place[2] * 256u + place[3];
    fprintf(stderr, "box: byte %lu: refusal %u: %s", at, number, box_words(number));
    if (number == BOX_BAD_OBJECT) {
        fputs(" (", stderr);
        print_reason(input, length, (size_t)at);
        fputs(")", stderr);
    }
    fputs("\n", stderr);
    return 1;
}

static int templates_of(const uint8_t *input, size_t length) {
    uint8_t objects[BOX_TEMPLATE_OBJECTS], r;
    size_t i;
    r = box_read_templates(input, length, objects, sizeof objects);
    if (r != 0) return refused_templates(r, input, length);
    for (i = 0; i < sizeof objects; i += BOX_TEMPLATE_OBJECT) {
        struct object o = object_of(objects + i);
        if (o.tag != 0) print_object(&o, input);
    }
    return 0;
}

/* The signs of standard input, without a line feed at the end; null where they cannot be had. */
static char *all_signs(size_t *n) {
    size_t room = 65536;
    char *signs = malloc(room), *more;
    *n = 0;
    while (signs != NULL && (*n += fread(signs + *n, 1, room - *n, stdin)) == room) {
        more = room > SIZE_MAX / 2 ? NULL : realloc(signs, room *= 2);
        if (more == NULL) free(signs);
        signs = more;
    }
    if (signs != NULL && ferror(stdin)) {
        free(signs);
        return NULL;
    }
    if (signs != NULL && *n > 0 && signs[*n - 1] == '\n') --*n;
    return signs;
}

/* The bytes of a word, or of standard input. They take the place of their digits. */
static int templates(char **word, int words) {
    size_t n;
    char *signs;
    const char *why;
    int status;
    if (words == 0) signs = all_signs(&n);
    else if ((signs = malloc((n = strlen(word[0])) + 1)) != NULL) memcpy(signs, word[0], n);
    if (signs == NULL) return failed("the templates cannot be read");
    why = pairs(signs, n, (uint8_t *)signs);
    status = why == NULL ? templates_of((uint8_t *)signs, n / 2) : misused(why);
    free(signs);
    return status;
}

static int run(int argc, char **argv) {
    const char *command = argc > 1 ? argv[1] : "--help";
    char **word = argv + 2;
    int words = argc - 2;
    if (!strcmp(command, "--help") || !strcmp(command, "help")) {
        fputs(help, stdout);
        return 0;
    }
    if (!strcmp(command, "card-key") && (words == 2 || words == 3)) return card_key(word, words, 0);
    if (!strcmp(command, "card-key-packed") && (words == 2 || words == 3)) return card_key(word, words, 1);
    if (!strcmp(command, "card-keys") && words == 1) return card_keys(word);
    if (!strcmp(command, "session-keys") && words == 5) return session_keys(word);
    if (!strcmp(command, "change-pin") && words == 3) return change_pin(word);
    if (!strcmp(command, "block") && words == 1) return script(word[0], 0x1e, 0x00, 0x81, NULL, 0);
    if (!strcmp(command, "unblock") && words == 1) return script(word[0], 0x18, 0x00, 0x81, NULL, 0);
    if (!strcmp(command, "wrap") && words == 4) return wrap(word);
    if (!strcmp(command, "open") && words == 3) return open_message(word);
    if (!strcmp(command, "arpc") && words == 3) return arpc(word);
    if (!strcmp(command, "idn") && words == 3) return idn(word);
    if (!strcmp(command, "templates") && words <= 1) return templates(word, words);
    return misused("no such command, or not its number of words");
}

int main(int argc, char **argv) { return ended(run(argc, argv)); }
