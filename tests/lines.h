/* Lines of words for the tests in C: what tests/calls.c, tests/templates.c and tests/desk-calls.c read on standard input. The including file names itself in
 * PROGRAM. */
#include <stdint.h>
#include <stdio.h>
#include <stdlib.h>
#include <string.h>

enum { CANARY = 0xc5, MARGIN = 24, WORDS = 12, LONGEST = 1 << 20 };

static unsigned long line_number;

static void fail(const char *what) {
    printf(PROGRAM ": FAILED in line %lu: %s\n", line_number, what);
    exit(1);
}

static unsigned digit(char sign) {
    if (sign >= '0' && sign <= '9') return (unsigned)(sign - '0');
    if (sign >= 'a' && sign <= 'f') return (unsigned)(sign - 'a') + 10;
    fail("not a digit");
    return 0;
}

static void read_bytes(const char *word, uint8_t *to, size_t length) {
    size_t i;
    for (i = 0; i < length; i++) to[i] = (uint8_t)(digit(word[2 * i]) << 4 | digit(word[2 * i + 1]));
}

static size_t length_of(const char *word) {
    size_t signs = strlen(word);
    if (strcmp(word, "-") == 0) return 0;
    if (signs % 2 != 0) fail("odd number of digits");
    return signs / 2;
}

static uint64_t number_of(const char *word) {
    uint64_t number = 0;
    for (; *word != '\0'; word++) number = number << 4 | digit(*word);
    return number;
}

static size_t split(char *line, char **words) {
    size_t count = 0;
    char *word;
    for (word = strtok(line, " \n"); word != NULL; word = strtok(NULL, " \n")) {
        if (count == WORDS) fail("too many words");
        words[count++] = word;
    }
    return count;
}

/* The next line and its words; none at the end. */
static size_t next_line(char **words) {
    static char line[LONGEST];
    size_t count;
    if (fgets(line, sizeof line, stdin) == NULL) return 0;
    line_number++;
    if (strchr(line, '\n') == NULL) fail("line too long or torn");
    count = split(line, words);
    if (count == 0) fail("a line without words");
    return count;
}
