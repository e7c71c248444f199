/* What is measured: each row is one operation, done by the proved code and by its peers on the same inputs. */
#ifndef ROWS_H
#define ROWS_H

#include <stddef.h>
#include <stdint.h>

enum { BOX, GCRYPT, NETTLE, DOERS };
enum { TURNS = 16, KEPT = 256, CARDS = 10000, LARGEST_OUT = 32 * CARDS };

struct input {
    const uint8_t *key, *text;
    size_t length;
};

typedef void (*doer)(const struct input *in, uint8_t *out);

struct row {
    const char *name, *counted;
    size_t length; /* of the text */
    size_t out_length;
    size_t times;   /* operations in one call */
    doer by[DOERS]; /* null: it has no such operation */
};

extern const struct row rows[];
extern const size_t row_count;

/* The box beside itself: in parts, and in the place of a peer what it is held to. */
extern const struct row pairs[];
extern const size_t pair_count;

/* Makes the inputs and the peers' handles. */
void rows_start(void);

/* Input number turn, below TURNS, of a row. */
struct input row_input(const struct row *row, size_t turn);

#endif
