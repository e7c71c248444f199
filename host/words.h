/* What the programs of this folder share: words of a command line as bytes, answers in lines, refusals in words. The including file names itself in
 * PROGRAM, and in MISUSED and FAILED the exit status for words that cannot be read and for input or output that failed. */
#ifndef WORDS_H
#define WORDS_H

#include "box.h"

#include <stdio.h>
#include <string.h>

enum { REFUSED = 1 };

static int refused(unsigned number) {
    fprintf(stderr, PROGRAM ": refusal %u: %s\n", number, box_words(number));
    return REFUSED;
}

/* The word itself is not repeated: it may be a key or a PIN. */
static int misused(const char *why) {
    fprintf(stderr, PROGRAM ": %s (" PROGRAM " --help lists the commands)\n", why);
    return MISUSED;
}

static int failed(const char *why) {
    fprintf(stderr, PROGRAM ": %s\n", why);
    return FAILED;
}

static int digit(char c) {
    if (c >= '0' && c <= '9') return c - '0';
    if (c >= 'a' && c <= 'f') return c - 'a' + 10;
    if (c >= 'A' && c <= 'F') return c - 'A' + 10;
    return -1;
}

/* A word as bytes, from pairs of hexadecimal digits. */
struct bytes {
    uint8_t at[512];
    size_t length;
};

/* The bytes that n digits write, for which there is room; else what they are not. */
static const char *pairs(const char *digits, size_t n, uint8_t *at) {
    size_t i;
    if (n % 2 != 0) return "not pairs of hexadecimal digits";
    for (i = 0; i < n / 2; i++) {
        int high = digit(digits[2 * i]), low = digit(digits[2 * i + 1]);
        if (high < 0 || low < 0) return "not hexadecimal";
        at[i] = (uint8_t)(high * 16 + low);
    }
    return NULL;
}

static int hexadecimal(const char *word, struct bytes *b) {
    const char *why;
    b->length = strlen(word) / 2;
    if (b->length > sizeof b->at) return misused("a word of more than 1,024 digits");
    why = pairs(word, strlen(word), b->at);
    return why == NULL ? 0 : misused(why);
}

/* A word as one byte a decimal digit. */
static int decimal(const char *word, struct bytes *b) {
    size_t n = strlen(word), i;
    if (n > sizeof b->at) return misused("a word of more than 512 digits");
    for (i = 0; i < n; i++) {
        if (word[i] < '0' || word[i] > '9') return misused("not decimal digits");
        b->at[i] = (uint8_t)(word[i] - '0');
    }
    b->length = n;
    return 0;
}

/* A small decimal number, of up to three digits; a greater one counts as 255, which no call takes. */
static int number(const char *word, uint8_t *n) {
    struct bytes b;
    unsigned value = 0;
    size_t i;
    if (decimal(word, &b)) return MISUSED;
    if (b.length == 0) return misused("not a number");
    for (i = 0; i < b.length && value < 1000; i++) value = value * 10 + b.at[i];
    *n = value > 255 ? 255 : (uint8_t)value;
    return 0;
}

static void print(const char *name, const uint8_t *at, size_t length) {
    size_t i;
    if (name != NULL) printf("%s ", name);
    for (i = 0; i < length; i++) printf("%02x", at[i]);
    putchar('\n');
}

/* The status to end with: an answer that did not get out is none. */
static int ended(int status) {
    if (fflush(stdout) == 0 && !ferror(stdout)) return status;
    return failed("the answer cannot be written");
}

#endif
