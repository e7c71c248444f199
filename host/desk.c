/* desk: the issuer's desk from a command line, over the library of include/box.h.
 *
 *     desk --table FILE [--keys FILE] COMMAND WORDS..        desk --help
 *
 * The table, which cards are held and the last counter of each, is a file that is replaced in one step: a kill at any moment leaves the table of
 * before or the one after, and what was accepted is printed only when it is on the disk. Keys come from a file and a PIN from standard input, since
 * words of a command line can be seen by others on the machine.
 */
#define _POSIX_C_SOURCE 200809L
#define PROGRAM "desk"
enum { MISUSED = 2, FAILED = 3 };
#include "words.h"

#include <errno.h>
#include <fcntl.h>
#include <libgen.h>
#include <signal.h>
#include <stdlib.h>
#include <sys/stat.h>
#include <termios.h>
#include <unistd.h>

static const char help[] =
    "desk: the issuer's desk, which holds up to 64 cards, each with its last transaction counter\n"
    "\n"
    "  desk --table FILE new                              makes a table without a card; a file that is there is not overwritten\n"
    "  desk --table FILE add CARD [SEQUENCE]              holds a card, which has no last counter\n"
    "  desk --table FILE forget CARD [SEQUENCE]           holds it no longer; added again, it has no last counter\n"
    "  desk --table FILE list                             the cards, a line each: card number, sequence number, last counter or 'none'\n"
    "  desk --table FILE --keys FILE check CARD [SEQUENCE] DATA ARQC CSU\n"
    "                                                     checks an ARQC of 65 bytes of data and the counter in them, which has to be above\n"
    "                                                     the card's last one; keeps that counter, and prints the ARPC for the CSU\n"
    "  desk --table FILE --keys FILE wrap CARD [SEQUENCE] CRYPTOGRAM pin|block|unblock\n"
    "                                                     a script under the cryptogram of its transaction: its header, then its message;\n"
    "                                                     for pin the new PIN is a line of standard input, and is not shown where it is typed\n"
    "\n"
    "Card numbers, sequence numbers (none is 00) and PINs are decimal, the rest is hexadecimal.\n"
    "The file of keys may be read by its owner alone. It has four lines, in any order, besides empty ones and those that begin with #:\n"
    "  ac KEY, smi KEY, smc KEY                           the issuer's master keys for cryptograms, SMI and SMC, 64 digits each\n"
    "  digits pairs, or digits packed                     how the issuer's host takes card digits\n"
    "Beside the table stand FILE.lock, which is never removed, and now and then FILE.part, what a killed run left: the next one takes it over.\n"
    "An accepted counter is not accepted again, also where its answer was lost. A table put back from a copy knows no later counter than the copy.\n"
    "Status: 0 accepted, 1 refused (number and words on standard error), 2 misused, 3 a file, input or output failed or is damaged.\n";

/* The table's file: what it is and its version, highest byte first, then the library's table, then the hash of all before it. */
static const char head[] = "box desk table\0\1";
enum { VERSION = 14, HEAD = sizeof head - 1, HASH = 32, IMAGE = HEAD + BOX_DESK_TABLE + HASH };

/* An entry of the table (box.h). */
enum { HELD, DIGITS, PLACES, SEQUENCE = PLACES + 19, COUNTED, COUNTER };

enum { KEY = 32, KEYS_FILE = 4096 };

struct desk {
    const char *table, *keys;
    char *part, *lock;
    int locked;
    struct stat was;
    uint8_t image[IMAGE + 1]; /* a byte more, to see a file that is too long */
};

struct keys {
    uint8_t ac[KEY], smi[KEY], smc[KEY], digits;
    unsigned seen;
};

struct card {
    struct bytes number;
    uint8_t sequence;
};

/* By volatile, so that the compiler does not leave it out. */
static void clear(void *at, size_t n) {
    volatile uint8_t *byte = at;
    while (n-- > 0) *byte++ = 0;
}

static int failed_at(const char *file, const char *why) {
    fprintf(stderr, PROGRAM ": %s: %s\n", file, why);
    return FAILED;
}

/* A call of the system failed, for the reason in errno. */
static int failed_to(const char *what, const char *file) {
    fprintf(stderr, PROGRAM ": %s: cannot %s: %s\n", file, what, strerror(errno));
    return FAILED;
}

/* Up to so many bytes; fewer where the file ends, and -1 where it fails. */
static ssize_t read_up_to(int fd, void *to, size_t room) {
    size_t n = 0;
    while (n < room) {
        ssize_t got = read(fd, (uint8_t *)to + n, room - n);
        if (got == 0) break;
        if (got < 0 && errno != EINTR) return -1;
        if (got > 0) n += (size_t)got;
    }
    return (ssize_t)n;
}

static int write_all(int fd, const uint8_t *from, size_t n) {
    while (n > 0) {
        ssize_t put = write(fd, from, n);
        if (put < 0 && errno != EINTR) return -1;
        if (put > 0) from += put, n -= (size_t)put;
    }
    return 0;
}

/* The keys */

/* What one line says, if it says something. */
static const char *key_line(struct keys *keys, const char *line, size_t n) {
    static const char *const names[] = {"ac ", "smi ", "smc "}, *const ways[] = {"digits pairs", "digits packed"};
    uint8_t *const places[] = {keys->ac, keys->smi, keys->smc};
    unsigned i, said = 0;
    for (i = 0; i < 3; i++) {
        size_t name = strlen(names[i]);
        if (n == name + 2 * KEY && memcmp(line, names[i], name) == 0 && pairs(line + name, 2 * KEY, places[i]) == NULL) said = 1u << i;
    }
    for (i = 0; i < 2; i++)
        if (n == strlen(ways[i]) && memcmp(line, ways[i], n) == 0) {
            keys->digits = i == 0 ? BOX_DESK_PAIRS : BOX_DESK_PACKED;
            said = 8;
        }
    if (said == 0) return "expected 'ac', 'smi' or 'smc' and 64 hexadecimal digits, or 'digits pairs' or 'digits packed', with one blank between";
    if (keys->seen & said) return "says once more what a line before it says";
    keys->seen |= said;
    return NULL;
}

/* A line that cannot be read is told by its number alone: it may hold a key. */
static int key_lines(const char *file, const char *text, size_t n, struct keys *keys) {
    static const char *const lines[] = {"there is no line 'ac'", "there is no line 'smi'", "there is no line 'smc'", "there is no line 'digits'"};
    unsigned line = 0, i;
    while (n > 0) {
        const char *end = memchr(text, '\n', n), *why;
        size_t length = end == NULL ? n : (size_t)(end - text);
        line++;
        why = length == 0 || text[0] == '#' ? NULL : key_line(keys, text, length);
        if (why != NULL) {
            fprintf(stderr, PROGRAM ": %s: line %u: %s\n", file, line, why);
            return FAILED;
        }
        length += end != NULL;
        text += length;
        n -= length;
    }
    for (i = 0; i < 4; i++)
        if (!(keys->seen & 1u << i)) return failed_at(file, lines[i]);
    return 0;
}

/* Whether the open file is one that nobody but the user of this program can read or has written. */
static int is_private(const char *file, int fd) {
    struct stat s;
    if (fstat(fd, &s) != 0) return failed_to("look at it", file);
    if (!S_ISREG(s.st_mode)) return failed_at(file, "is not a regular file");
    if (s.st_uid != geteuid()) return failed_at(file, "has another owner than the user of this program");
    if ((s.st_mode & 077) == 0) return 0;
    fprintf(stderr, PROGRAM ": %s: others than its owner may read or change it, by its mode %03o: chmod 600\n", file, (unsigned)(s.st_mode & 0777));
    return FAILED;
}

static int keys_of(const struct desk *desk, struct keys *keys) {
    char text[KEYS_FILE + 1];
    ssize_t n;
    int fd = open(desk->keys, O_RDONLY | O_NONBLOCK | O_CLOEXEC), status;
    if (fd < 0) return failed_to("open it", desk->keys);
    memset(keys, 0, sizeof *keys);
    status = is_private(desk->keys, fd);
    if (status == 0) {
        n = read_up_to(fd, text, sizeof text);
        if (n < 0) status = failed_to("read it", desk->keys);
        else if (n > KEYS_FILE) status = failed_at(desk->keys, "has more than 4096 bytes");
        else status = key_lines(desk->keys, text, (size_t)n, keys);
        clear(text, sizeof text);
    }
    close(fd);
    if (status != 0) clear(keys, sizeof *keys);
    return status;
}

/* The table's file */

/* The table's name with an ending. */
static char *beside(const char *table, const char *ending) {
    char *name = malloc(strlen(table) + strlen(ending) + 1);
    if (name != NULL) strcat(strcpy(name, table), ending);
    return name;
}

static uint8_t hash_of(const uint8_t *at, size_t n, uint8_t *hash) {
    uint8_t state[BOX_HASH_STATE], r;
    r = box_hash_begin(state, sizeof state);
    if (r == 0) r = box_hash_feed(state, sizeof state, at, n);
    return r == 0 ? box_hash_end(state, sizeof state, hash, HASH) : r;
}

static uint8_t *entry(struct desk *desk, unsigned i) { return desk->image + HEAD + i * BOX_DESK_ENTRY; }

/* Why an entry is of no card and not free. */
static const char *entry_fault(const uint8_t *e) {
    unsigned i;
    if (e[HELD] == 0) return NULL;
    if (e[HELD] > 1 || e[COUNTED] > 1) return "has a mark that is neither 0 nor 1";
    if (e[DIGITS] < 12 || e[DIGITS] > 19) return "has a card number that is not of 12 to 19 digits";
    for (i = 0; i < 19; i++)
        if (e[PLACES + i] > (i < e[DIGITS] ? 9 : 0)) return "has a digit above 9, or one after its last";
    return e[SEQUENCE] > 99 ? "has a sequence number above 99" : NULL;
}

static int same_card(const uint8_t *a, const uint8_t *b) { return a[HELD] && b[HELD] && memcmp(a + DIGITS, b + DIGITS, COUNTED - DIGITS) == 0; }

static int entries_sound(struct desk *desk) {
    unsigned i, j;
    for (i = 0; i < BOX_DESK_CARDS; i++) {
        const char *why = entry_fault(entry(desk, i));
        for (j = 0; why == NULL && j < i; j++)
            if (same_card(entry(desk, i), entry(desk, j))) why = "has a card that an entry before it has";
        if (why == NULL) continue;
        fprintf(stderr, PROGRAM ": %s: damaged: entry %u %s\n", desk->table, i + 1, why);
        return FAILED;
    }
    return 0;
}

/* What was read is a table, whole and as it was written. */
static int image_sound(struct desk *desk, size_t n) {
    uint8_t hash[HASH];
    if (n >= HEAD && memcmp(desk->image, head, VERSION) != 0) return failed_at(desk->table, "is no table of a desk: it begins otherwise");
    if (n >= HEAD && memcmp(desk->image, head, HEAD) != 0) return failed_at(desk->table, "is a table of another version than 1");
    if (n != IMAGE) {
        fprintf(stderr, PROGRAM ": %s: damaged: a table has %d bytes, and here are %s%lu\n", desk->table, (int)IMAGE, n > IMAGE ? "at least " : "",
                (unsigned long)n);
        return FAILED;
    }
    if (hash_of(desk->image, IMAGE - HASH, hash) != 0 || memcmp(hash, desk->image + IMAGE - HASH, HASH) != 0)
        return failed_at(desk->table, "damaged: its hash differs");
    return entries_sound(desk);
}

/* The lock is held on a file of its own, which is not replaced: alone for a change, with others for a look. */
static int lock(struct desk *desk, int alone) {
    struct flock whole;
    desk->locked = open(desk->lock, (alone ? O_RDWR : O_RDONLY) | O_CREAT | O_NOFOLLOW | O_CLOEXEC, 0600);
    if (desk->locked < 0) return failed_to("open it", desk->lock);
    memset(&whole, 0, sizeof whole);
    whole.l_type = alone ? F_WRLCK : F_RDLCK;
    whole.l_whence = SEEK_SET;
    while (fcntl(desk->locked, F_SETLKW, &whole) != 0)
        if (errno != EINTR) return failed_to("lock it", desk->lock);
    return 0;
}

static void unlock(struct desk *desk) { close(desk->locked); }

/* A link is not followed: replacing the table would put a file in the link's place, and leave two tables. Nothing is made beside what is none. */
static int is_file(struct desk *desk) {
    if (lstat(desk->table, &desk->was) != 0)
        return errno == ENOENT ? failed_at(desk->table, "is not there; 'desk --table FILE new' makes a table") : failed_to("look at it", desk->table);
    if (S_ISLNK(desk->was.st_mode)) return failed_at(desk->table, "is a symbolic link: name the file itself");
    return S_ISREG(desk->was.st_mode) ? 0 : failed_at(desk->table, "is not a regular file");
}

static int read_image(struct desk *desk) {
    ssize_t n;
    int fd = open(desk->table, O_RDONLY | O_NOFOLLOW | O_NONBLOCK | O_CLOEXEC), status;
    if (fd < 0) return failed_to("open it", desk->table);
    if (fstat(fd, &desk->was) != 0) status = failed_to("look at it", desk->table);
    else if (!S_ISREG(desk->was.st_mode)) status = failed_at(desk->table, "is not a regular file");
    else if ((n = read_up_to(fd, desk->image, sizeof desk->image)) < 0) status = failed_to("read it", desk->table);
    else status = image_sound(desk, (size_t)n);
    close(fd);
    return status;
}

static int take_table(struct desk *desk, int alone) {
    int status = is_file(desk);
    if (status == 0) status = lock(desk, alone);
    return status == 0 ? read_image(desk) : status;
}

/* The owner and mode of the table before, where there was one. */
static int like_before(const struct desk *desk, int fd) {
    struct stat s;
    if (desk->was.st_mode == 0) return 0;
    if (fstat(fd, &s) != 0) return -1;
    if ((s.st_uid != desk->was.st_uid || s.st_gid != desk->was.st_gid) && fchown(fd, desk->was.st_uid, desk->was.st_gid) != 0) return -1;
    return fchmod(fd, desk->was.st_mode & 0777);
}

/* The image in a file beside the table, and on the disk. What a killed run left under its name is removed. */
static int write_part(const struct desk *desk) {
    int fd, status = 0;
    if (unlink(desk->part) != 0 && errno != ENOENT) return failed_to("remove it", desk->part);
    fd = open(desk->part, O_WRONLY | O_CREAT | O_EXCL | O_CLOEXEC, 0600);
    if (fd < 0) return failed_to("make it", desk->part);
    if (write_all(fd, desk->image, IMAGE) != 0) status = failed_to("write it", desk->part);
    else if (like_before(desk, fd) != 0) status = failed_to("give it the owner and mode of the table", desk->part);
    else if (fsync(fd) != 0) status = failed_to("bring it to the disk", desk->part);
    if (close(fd) != 0 && status == 0) status = failed_to("close it", desk->part);
    return status;
}

/* The directory's entries on the disk. */
static int sync_directory(const struct desk *desk) {
    char *copy = beside(desk->table, ""), *name;
    int fd, status = 0;
    if (copy == NULL) return failed("no memory");
    name = dirname(copy);
    fd = open(name, O_RDONLY | O_DIRECTORY | O_CLOEXEC);
    if (fd < 0) status = failed_to("open it", name);
    else if (fsync(fd) != 0) status = failed_to("bring it to the disk", name);
    if (fd >= 0) close(fd);
    free(copy);
    return status;
}

/* A new table comes under its name only where nothing has that name. */
static int name_part(const struct desk *desk, int fresh) {
    if (!fresh) return rename(desk->part, desk->table) == 0 ? 0 : failed_to("replace it", desk->table);
    if (link(desk->part, desk->table) != 0) return failed_to("make it", desk->table);
    return unlink(desk->part) == 0 ? 0 : failed_to("remove it", desk->part);
}

/* The image is the table from now on, and on the disk, before anything is said of it. The lock is held alone, and let go here. */
static int keep_table(struct desk *desk, int fresh) {
    int status;
    memcpy(desk->image, head, HEAD);
    if (hash_of(desk->image, IMAGE - HASH, desk->image + IMAGE - HASH) != 0) return failed("the library has no hash of the table");
    status = write_part(desk);
    if (status == 0) status = name_part(desk, fresh);
    if (status != 0) unlink(desk->part);
    if (status == 0) status = sync_directory(desk);
    unlock(desk);
    return status;
}

/* What was accepted is kept, and said. */
static int accept(struct desk *desk, int fresh) {
    int status = keep_table(desk, fresh);
    if (status == 0) printf("%s\n", box_words(BOX_ACCEPTED));
    return status;
}

/* The commands */

/* One byte a digit; another sign is one that the library refuses in its order, as it does the first number of digits that is too great. */
static void add_digit(struct bytes *digits, char sign) {
    if (digits->length < sizeof digits->at) digits->at[digits->length++] = sign >= '0' && sign <= '9' ? (uint8_t)(sign - '0') : 255;
}

static int card_of(char **word, int with_sequence, struct card *card) {
    const char *sign;
    card->number.length = 0;
    card->sequence = 0;
    for (sign = word[0]; *sign != '\0'; sign++) add_digit(&card->number, *sign);
    return with_sequence ? number(word[1], &card->sequence) : 0;
}

static int new_table(struct desk *desk, char **word, int words) {
    struct stat s;
    int status;
    (void)word, (void)words;
    if (lstat(desk->table, &s) == 0) return failed_at(desk->table, "is there already, and is not overwritten");
    status = lock(desk, 1);
    memset(desk->image, 0, sizeof desk->image);
    return status == 0 ? accept(desk, 1) : status;
}

/* A change of which cards are held. */
typedef uint8_t change(uint8_t *table, size_t table_length, const uint8_t *pan, size_t pan_length, uint8_t sequence);

static int changed(struct desk *desk, char **word, int words, change *by) {
    struct card card;
    uint8_t r;
    int status = card_of(word, words == 2, &card);
    if (status == 0) status = take_table(desk, 1);
    if (status != 0) return status;
    r = by(entry(desk, 0), BOX_DESK_TABLE, card.number.at, card.number.length, card.sequence);
    return r == 0 ? accept(desk, 0) : refused(r);
}

static int add(struct desk *desk, char **word, int words) { return changed(desk, word, words, box_desk_add); }

static int forget(struct desk *desk, char **word, int words) { return changed(desk, word, words, box_desk_forget); }

static int list(struct desk *desk, char **word, int words) {
    int status = take_table(desk, 0);
    unsigned i, j;
    (void)word, (void)words;
    if (status != 0) return status;
    unlock(desk);
    for (i = 0; i < BOX_DESK_CARDS; i++) {
        const uint8_t *e = entry(desk, i);
        if (!e[HELD]) continue;
        for (j = 0; j < e[DIGITS]; j++) putchar('0' + e[PLACES + j]);
        printf(" %02u ", e[SEQUENCE]);
        if (e[COUNTED]) printf("%02x%02x\n", e[COUNTER], e[COUNTER + 1]);
        else puts("none");
    }
    return 0;
}

static int check(struct desk *desk, char **word, int words) {
    struct card card;
    struct keys keys;
    struct bytes data, arqc, csu;
    uint8_t arpc[8], r;
    int status = card_of(word, words == 5, &card);
    word += words - 3;
    if (status != 0 || hexadecimal(word[0], &data) || hexadecimal(word[1], &arqc) || hexadecimal(word[2], &csu)) return MISUSED;
    status = keys_of(desk, &keys);
    if (status != 0) return status;
    status = take_table(desk, 1);
    r = status != 0 ? 0 : box_desk_check(entry(desk, 0), BOX_DESK_TABLE, keys.ac, KEY, keys.digits, card.number.at, card.number.length, card.sequence,
                                         data.at, data.length, arqc.at, arqc.length, csu.at, csu.length, arpc, sizeof arpc);
    clear(&keys, sizeof keys);
    if (r != 0) return refused(r);
    if (status == 0) status = keep_table(desk, 0);
    if (status == 0) print("arpc", arpc, sizeof arpc);
    return status;
}

/* One line of standard input. It is read sign by sign: no buffer but this one has it. */
static int pin_line(struct bytes *pin) {
    ssize_t n;
    char sign = 0;
    pin->length = 0;
    while ((n = read_up_to(STDIN_FILENO, &sign, 1)) == 1 && sign != '\n' && pin->length < sizeof pin->at) add_digit(pin, sign);
    if (n < 0) return failed_to("read the PIN", "standard input");
    return n == 0 && pin->length == 0 ? failed_at("standard input", "has no line with a PIN") : 0;
}

/* Typed at a terminal, it is asked for and not shown. A key that would stop the program is a sign like others meanwhile, so that what is typed later is
 * shown again in any case. */
static int pin_of(struct bytes *pin) {
    struct termios shown, hidden;
    int status;
    if (tcgetattr(STDIN_FILENO, &shown) != 0) return pin_line(pin);
    hidden = shown;
    hidden.c_lflag &= ~(tcflag_t)(ECHO | ISIG);
    if (tcsetattr(STDIN_FILENO, TCSAFLUSH, &hidden) != 0) return failed_to("hide the PIN", "standard input");
    fputs("PIN: ", stderr);
    status = pin_line(pin);
    fputs("\n", stderr);
    if (tcsetattr(STDIN_FILENO, TCSAFLUSH, &shown) != 0) return failed_to("show again what is typed", "standard input");
    return status;
}

static int wrapped(struct desk *desk, const struct card *card, uint8_t instruction, const struct bytes *cryptogram, const struct bytes *pin) {
    struct keys keys;
    uint8_t script[20], r;
    size_t n = instruction == BOX_DESK_PIN ? 20 : 12;
    int status = keys_of(desk, &keys);
    if (status != 0) return status;
    status = take_table(desk, 0);
    r = status != 0 ? 0 : box_desk_wrap(entry(desk, 0), BOX_DESK_TABLE, keys.smi, KEY, keys.smc, KEY, keys.digits, card->number.at, card->number.length,
                                        card->sequence, instruction, cryptogram->at, cryptogram->length, pin->at, pin->length, script, n, 0);
    clear(&keys, sizeof keys);
    if (r != 0) return refused(r);
    if (status != 0) return status;
    unlock(desk);
    print("header", script, 4);
    print("message", script + 4, n - 4);
    return 0;
}

static int wrap(struct desk *desk, char **word, int words) {
    static const struct {
        const char *name;
        uint8_t instruction;
    } scripts[] = {{"pin", BOX_DESK_PIN}, {"block", BOX_DESK_BLOCK}, {"unblock", BOX_DESK_UNBLOCK}};
    struct card card;
    struct bytes cryptogram, pin;
    size_t i = 0;
    int status = card_of(word, words == 4, &card);
    word += words - 2;
    if (status != 0 || hexadecimal(word[0], &cryptogram)) return MISUSED;
    while (i < 3 && strcmp(word[1], scripts[i].name) != 0) i++;
    if (i == 3) return misused("the script is none of pin, block and unblock");
    pin.length = 0;
    if (scripts[i].instruction == BOX_DESK_PIN) status = pin_of(&pin);
    if (status == 0) status = wrapped(desk, &card, scripts[i].instruction, &cryptogram, &pin);
    clear(&pin, sizeof pin);
    return status;
}

static const struct {
    const char *name;
    int least, most, keys;
    int (*run)(struct desk *desk, char **word, int words);
} commands[] = {
    {"new", 0, 0, 0, new_table},
    {"add", 1, 2, 0, add},
    {"forget", 1, 2, 0, forget},
    {"list", 0, 0, 0, list},
    {"check", 4, 5, 1, check},
    {"wrap", 3, 4, 1, wrap},
};

static int on_table(struct desk *desk, int (*run)(struct desk *, char **, int), char **word, int words) {
    int status;
    desk->part = beside(desk->table, ".part");
    desk->lock = beside(desk->table, ".lock");
    status = desk->part == NULL || desk->lock == NULL ? failed("no memory") : run(desk, word, words);
    free(desk->part);
    free(desk->lock);
    return status;
}

static int run(int argc, char **argv) {
    static struct desk desk;
    int at = 1, words;
    size_t i = 0;
    if (argc == 1 || !strcmp(argv[1], "--help") || !strcmp(argv[1], "help")) {
        fputs(help, stdout);
        return 0;
    }
    for (; at + 1 < argc && argv[at][0] == '-'; at += 2) {
        const char **file = !strcmp(argv[at], "--table") ? &desk.table : !strcmp(argv[at], "--keys") ? &desk.keys : NULL;
        if (file == NULL || *file != NULL) return misused("--table FILE and --keys FILE stand ahead of the command, each once");
        *file = argv[at + 1];
    }
    words = argc - at - 1;
    while (i < sizeof commands / sizeof commands[0] && (words < 0 || strcmp(argv[at], commands[i].name) != 0)) i++;
    if (i == sizeof commands / sizeof commands[0] || words < commands[i].least || words > commands[i].most)
        return misused("no such command, or not its number of words");
    if (desk.table == NULL) return misused("no --table FILE");
    if (commands[i].keys && desk.keys == NULL) return misused("no --keys FILE, which this command needs");
    return on_table(&desk, commands[i].run, argv + at + 1, words);
}

/* Descriptors 0 to 2 are taken, so that no file of ours becomes one of them and is printed into. */
static int standard_streams(void) {
    int closed = fcntl(STDOUT_FILENO, F_GETFD) < 0, fd;
    do fd = open("/dev/null", O_RDWR);
    while (fd >= 0 && fd <= STDERR_FILENO);
    if (fd < 0) return failed_to("open it", "/dev/null");
    close(fd);
    return closed ? failed("standard output is closed") : 0;
}

/* A reader that is gone is output that failed, and is said so. */
int main(int argc, char **argv) {
    int status = standard_streams();
    signal(SIGPIPE, SIG_IGN);
    return status == 0 ? ended(run(argc, argv)) : status;
}
