/* Times the rows and writes the table.  bench [SAMPLES]
 * Before a row is timed, every peer must give the bytes that the proved code gives, on every input. Then the peers take turns, sample by
 * sample, and the median is kept. A sample's clock is the thread's processor time: what other programs take is not counted. */
#define _POSIX_C_SOURCE 200809L
#include "rows.h"

#include <stdio.h>
#include <stdlib.h>
#include <string.h>
#include <time.h>

enum { MOST_SAMPLES = 10000, SAMPLE_NS = 500000 };

static double samples[DOERS][MOST_SAMPLES];
static uint8_t out[LARGEST_OUT];
static double widest; /* the largest distance of quartiles, over the median */

static double now(void) {
    struct timespec t;
    clock_gettime(CLOCK_THREAD_CPUTIME_ID, &t);
    return 1e9 * (double)t.tv_sec + (double)t.tv_nsec;
}

/* Whether every peer gives the bytes of the proved code. */
static int agree(const struct row *row) {
    static uint8_t expected[LARGEST_OUT];
    for (size_t turn = 0; turn < TURNS; turn++) {
        struct input in = row_input(row, turn);
        row->by[BOX](&in, expected);
        for (int d = GCRYPT; d < DOERS; d++) {
            if (row->by[d] == NULL) continue;
            memset(out, 0, row->out_length);
            row->by[d](&in, out);
            if (memcmp(out, expected, row->out_length) != 0) return 0;
        }
    }
    return 1;
}

/* Nanoseconds for so many calls. */
static double time_calls(const struct row *row, int d, size_t calls) {
    struct input in[TURNS];
    for (size_t turn = 0; turn < TURNS; turn++) in[turn] = row_input(row, turn);
    double from = now();
    for (size_t i = 0; i < calls; i++) row->by[d](&in[i % TURNS], out);
    return now() - from;
}

/* How many calls take as long as a sample has to. */
static size_t calls_in_sample(const struct row *row, int d) {
    size_t calls = 1;
    while (time_calls(row, d, calls) < SAMPLE_NS) calls *= 2;
    return calls;
}

static int ascending(const void *a, const void *b) {
    double x = *(const double *)a, y = *(const double *)b;
    return (x > y) - (x < y);
}

/* The samples of each doer, in turns; who goes first changes. */
static void sample(const struct row *row, int count) {
    size_t calls[DOERS];
    for (int d = 0; d < DOERS; d++) calls[d] = row->by[d] == NULL ? 0 : calls_in_sample(row, d);
    for (int i = 0; i < count; i++)
        for (int k = 0; k < DOERS; k++) {
            int d = (i + k) % DOERS;
            if (calls[d] > 0) samples[d][i] = time_calls(row, d, calls[d]) / (double)(calls[d] * row->times);
        }
}

static double median(int d, int count) {
    double *s = samples[d];
    qsort(s, (size_t)count, sizeof *s, ascending);
    double middle = s[count / 2], spread = (s[count * 3 / 4] - s[count / 4]) / middle;
    if (spread > widest) widest = spread;
    return middle;
}

static void table_row(const struct row *row, int count) {
    double ns[DOERS] = {0}, fastest = 0;
    sample(row, count);
    for (int d = 0; d < DOERS; d++) {
        if (row->by[d] == NULL) continue;
        ns[d] = median(d, count);
        if (d != BOX && (fastest == 0 || ns[d] < fastest)) fastest = ns[d];
    }
    printf("| %s | %s | %.0f | %.0f |", row->name, row->counted, 1e9 / ns[BOX], ns[BOX]);
    for (int d = GCRYPT; d < DOERS; d++) row->by[d] == NULL ? printf(" - |") : printf(" %.0f |", ns[d]);
    printf(" %.2f |\n", ns[BOX] / fastest);
    fflush(stdout);
}

static void pair_row(const struct row *row, int count) {
    sample(row, count);
    double fed = median(BOX, count), other = median(GCRYPT, count);
    printf("| %s | %s | %.1f | %.1f | %.3f |\n", row->name, row->counted, fed, other, fed / other);
    fflush(stdout);
}

static void must_agree(const struct row *row, size_t n) {
    for (size_t i = 0; i < n; i++)
        if (!agree(&row[i])) {
            fprintf(stderr, "bench: FAILED: %s: the answers differ\n", row[i].name);
            exit(1);
        }
}

int main(int argc, char **argv) {
    int count = argc > 1 ? atoi(argv[1]) : 1001;
    if (count < 1 || count > MOST_SAMPLES) {
        fprintf(stderr, "bench: 1 to %d samples\n", MOST_SAMPLES);
        return 2;
    }
    rows_start();
    must_agree(rows, row_count);
    must_agree(pairs, pair_count);
    printf("| Operation | Counted | box, a second | box, ns | libgcrypt, ns | nettle, ns | box to the fastest peer, in time |\n");
    printf("|---|---|--:|--:|--:|--:|--:|\n");
    for (size_t i = 0; i < row_count; i++) table_row(&rows[i], count);
    printf("\n| In parts, by the library for C | Counted | in parts, ns | beside it, ns | ratio |\n|---|---|--:|--:|--:|\n");
    for (size_t i = 0; i < pair_count; i++) pair_row(&pairs[i], count);
    printf("\nEach cell is the median of %d samples of at least %.1f ms; the middle half of a cell's samples spans at most %.0f percent of it.\n", count,
           SAMPLE_NS / 1e6, 100 * widest);
    return 0;
}
