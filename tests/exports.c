/* Feeds every exported function right and wrong lengths, null with length 0, places past the end and random bytes, and checks its number and every
 * lent byte: each string lies between canaries, inputs are compared with a copy, and an output stays as it was on every refusal. */
#include "box.h"

#include <stdio.h>
#include <stdlib.h>
#include <string.h>

enum { CANARY = 0xc5, MARGIN = 16, ROUNDS = 4000 };

static unsigned long calls, accepted;
static uint64_t seed = 20171219;

static uint32_t any(void) {
    seed = seed * 6364136223846793005u + 1442695040888963407u;
    return (uint32_t)(seed >> 33);
}

static void fail(const char *what) {
    printf("exports-test: FAILED: %s (call %lu)\n", what, calls);
    exit(1);
}

/* A string between canaries, and a copy of it. */
struct lent {
    uint8_t *room, *at, *copy;
    size_t length;
};

static struct lent lend(size_t length) {
    struct lent s;
    size_t i;
    s.length = length;
    s.room = malloc(length + 2 * MARGIN);
    s.copy = malloc(length + 1);
    if (s.room == NULL || s.copy == NULL) fail("no memory");
    memset(s.room, CANARY, length + 2 * MARGIN);
    for (i = 0; i < length; i++) s.room[MARGIN + i] = (uint8_t)any();
    memcpy(s.copy, s.room + MARGIN, length);
    s.at = length == 0 ? NULL : s.room + MARGIN;
    return s;
}

static void keep(struct lent *s) { memcpy(s->copy, s->room + MARGIN, s->length); }

/* The canaries stand, and outside of [from, to) the string is its copy. */
static void back(struct lent s, size_t from, size_t to, const char *name) {
    size_t i;
    for (i = 0; i < MARGIN; i++)
        if (s.room[i] != CANARY || s.room[MARGIN + s.length + i] != CANARY) fail(name);
    for (i = 0; i < s.length; i++)
        if ((i < from || i >= to) && s.room[MARGIN + i] != s.copy[i]) fail(name);
    free(s.room);
    free(s.copy);
}

/* Mostly the right length, else one near it or far off. */
static size_t length_near(size_t right) {
    switch (any() % 8) {
    case 0: return 0;
    case 1: return right + 1;
    case 2: return right == 0 ? 1 : right - 1;
    case 3: return any() % 300;
    default: return right;
    }
}

static void expect(uint8_t got, uint8_t wanted, const char *name) {
    calls++;
    if (got == 0) accepted++;
    if (got != wanted) {
        printf("exports-test: %s returned %u, not %u\n", name, got, wanted);
        fail(name);
    }
}

typedef uint8_t two(const uint8_t *, size_t, const uint8_t *, size_t, uint8_t *, size_t);

/* A key of 32 and one string more; `whole`: any number of whole blocks but none. */
static void of_two(two *f, size_t right, int whole, size_t out_right, const char *name) {
    struct lent a = lend(length_near(32)), b = lend(whole ? (any() % 2 ? 8 * (any() % 40) : any() % 70) : length_near(right)), o = lend(length_near(out_right));
    int ok = a.length == 32 && o.length == out_right && (whole ? b.length > 0 && b.length % 8 == 0 : b.length == right);
    uint8_t r = f(a.at, a.length, b.at, b.length, o.at, o.length);
    expect(r, ok ? 0 : 1, name);
    back(a, 0, 0, name);
    back(b, 0, 0, name);
    back(o, 0, r == 0 ? o.length : 0, name);
}

typedef uint8_t card(const uint8_t *, size_t, const uint8_t *, size_t, uint8_t, uint8_t *, size_t);

static void of_card(card *f, const char *name) {
    struct lent a = lend(length_near(32)), b = lend(any() % 2 ? 12 + any() % 8 : any() % 24), o = lend(length_near(32));
    uint8_t sequence = any() % 2 ? (uint8_t)(any() % 100) : (uint8_t)any(), r, wanted = 0;
    size_t i;
    for (i = 0; i < b.length; i++) b.room[MARGIN + i] %= any() % 40 == 0 ? 12 : 10;
    keep(&b);
    for (i = 0; i < b.length; i++)
        if (b.copy[i] > 9) wanted = 2;
    if (b.length < 12 || b.length > 19 || sequence > 99) wanted = 2;
    if (a.length != 32 || o.length != 32) wanted = 1;
    r = f(a.at, a.length, b.at, b.length, sequence, o.at, o.length);
    expect(r, wanted, name);
    back(a, 0, 0, name);
    back(b, 0, 0, name);
    back(o, 0, r == 0 ? o.length : 0, name);
}

/* Many cards: each key is that of box_card_key; one wrong card, or a wrong length, and nothing is written. */
static void of_cards(void) {
    size_t count = any() % 5, i, j;
    static const int off[] = {-32, -21, -1, 1, 21, 32}; /* from the right length */
    size_t cards = 21 * count + (any() % 12 == 0 ? (size_t)off[any() % 6] : 0), keys = 32 * count + (any() % 12 == 0 ? (size_t)off[any() % 6] : 0);
    struct lent a = lend(length_near(32)), b = lend(cards > 200 ? 0 : cards), o = lend(keys > 300 ? 0 : keys);
    uint8_t r, wanted = 0, key[32];
    count = b.length / 21;
    for (i = 0; i < count; i++) {
        uint8_t *card = b.room + MARGIN + 21 * i;
        card[0] = any() % 20 == 0 ? (uint8_t)any() : (uint8_t)(12 + any() % 8);
        for (j = 1; j < 20; j++)
            if (j <= card[0]) card[j] %= any() % 300 == 0 ? 12 : 10;
        if (any() % 10 != 0) card[20] %= 100;
        for (j = 1; j < 20; j++)
            if (j <= card[0] && card[j] > 9) wanted = 2;
        if (card[0] < 12 || card[0] > 19 || card[20] > 99) wanted = 2;
    }
    keep(&b);
    if (a.length != 32 || b.length % 21 != 0 || o.length != 32 * count) wanted = 1;
    r = box_card_keys(a.at, a.length, b.at, b.length, o.at, o.length);
    expect(r, wanted, "box_card_keys");
    for (i = 0; r == 0 && i < count; i++) {
        const uint8_t *card = b.at + 21 * i;
        expect(box_card_key(a.at, 32, card + 1, card[0], card[20], key, 32), 0, "box_card_key");
        if (memcmp(o.at + 32 * i, key, 32) != 0) fail("box_card_keys: not the card's key");
    }
    back(a, 0, 0, "box_card_keys");
    back(b, 0, 0, "box_card_keys");
    back(o, 0, r == 0 ? o.length : 0, "box_card_keys");
}

static void of_keys(void) {
    struct lent a = lend(length_near(32)), o = lend(length_near(32)), p = lend(length_near(4));
    uint16_t counter = (uint16_t)any();
    uint8_t r = box_session_key(a.at, a.length, counter, o.at, o.length);
    expect(r, a.length == 32 && o.length == 32 ? 0 : 1, "box_session_key");
    back(o, 0, r == 0 ? o.length : 0, "box_session_key");
    o = lend(length_near(32));
    r = box_counter_key(a.at, a.length, o.at, o.length);
    expect(r, a.length == 32 && o.length == 32 ? 0 : 1, "box_counter_key");
    back(o, 0, r == 0 ? o.length : 0, "box_counter_key");
    r = box_idn(a.at, a.length, counter, p.at, p.length);
    expect(r, a.length == 32 && p.length >= 2 && p.length <= 8 ? 0 : 1, "box_idn");
    back(p, 0, r == 0 ? p.length : 0, "box_idn");
    back(a, 0, 0, "box_idn");
}

static void of_pin(void) {
    struct lent a = lend(any() % 2 ? 4 + any() % 9 : any() % 16), o = lend(length_near(8)), q = lend(length_near(13)), n = lend(length_near(8));
    uint8_t r, s, wanted = 0;
    size_t i;
    for (i = 0; i < a.length; i++) a.room[MARGIN + i] %= any() % 30 == 0 ? 12 : 10;
    keep(&a);
    for (i = 0; i < a.length; i++)
        if (a.copy[i] > 9) wanted = 12;
    if (a.length < 4 || a.length > 12) wanted = 12;
    if (o.length != 8) wanted = 1;
    r = box_write_pin(a.at, a.length, o.at, o.length);
    expect(r, wanted, "box_write_pin");
    if (r == 0) {
        s = box_read_pin(o.at, o.length, q.at, q.length);
        expect(s, q.length == 13 ? 0 : 1, "box_read_pin");
        if (s == 0) {
            if (q.at[0] != a.length || memcmp(q.at + 1, a.at, a.length) != 0) fail("box_read_pin: digits");
            for (i = 1 + a.length; i < 13; i++)
                if (q.at[i] != 0) fail("box_read_pin: places");
        }
    } else {
        s = 1;
    }
    back(q, 0, r == 0 && s == 0 ? q.length : 0, "box_read_pin");
    back(a, 0, 0, "box_write_pin");
    back(o, 0, r == 0 ? o.length : 0, "box_write_pin");
    /* random bytes are hardly ever a PIN block: the first half-byte is made wrong */
    q = lend(length_near(13));
    if (n.length > 0) n.at[0] = (uint8_t)(n.at[0] % 16 + 16);
    keep(&n);
    r = box_read_pin(n.at, n.length, q.at, q.length);
    expect(r, n.length == 8 && q.length == 13 ? 9 : 1, "box_read_pin");
    back(q, 0, 0, "box_read_pin");
    back(n, 0, 0, "box_read_pin");
}

static void of_cryptogram(void) {
    static const uint8_t kinds[3] = {0x80, 0x40, 0x00};
    struct lent a = lend(length_near(32)), d = lend(length_near(65)), o = lend(length_near(8)), c = lend(length_near(8)), u = lend(length_near(4));
    uint8_t kind = any() % 2 ? kinds[any() % 3] : (uint8_t)any(), r = box_cryptogram(a.at, a.length, kind, (uint16_t)any(), d.at, d.length, o.at, o.length);
    expect(r, a.length == 32 && d.length == 65 && o.length == 8 && (kind == 0x80 || kind == 0x40 || kind == 0x00) ? 0 : 1, "box_cryptogram");
    if (r == 0 && memcmp(o.at, o.at + 4, 4) != 0) fail("box_cryptogram: not written twice");
    back(o, 0, r == 0 ? o.length : 0, "box_cryptogram");
    back(d, 0, 0, "box_cryptogram");
    o = lend(length_near(8));
    r = box_arpc(a.at, a.length, c.at, c.length, u.at, u.length, o.at, o.length);
    expect(r, a.length == 32 && c.length == 8 && u.length == 4 && o.length == 8 ? 0 : 1, "box_arpc");
    back(o, 0, r == 0 ? o.length : 0, "box_arpc");
    back(a, 0, 0, "box_arpc");
    back(c, 0, 0, "box_arpc");
    back(u, 0, 0, "box_arpc");
}

static void of_message(void) {
    static const uint8_t tags[4] = {0x87, 0x81, 0x87, 0x82};
    static const size_t edges[11] = {0, 1, 126, 127, 128, 129, 254, 255, 256, 257, 300};
    struct lent k = lend(length_near(32)), h = lend(length_near(4)), d = lend(any() % 3 ? any() % 256 : edges[any() % 11]), f = lend(length_near(3)), b;
    uint8_t tag = tags[any() % 4], r, s = 1, wanted = 0;
    size_t from = d.length < 128 ? 2 : 3, size = from + d.length + 6, place = any() % 40;
    b = lend(any() % 3 ? place + size + any() % 40 : any() % 600);
    switch (any() % 5) {
    case 0: place = (size_t)0 - any() % 3; break;
    case 1: place = any() % (b.length + 3); break;
    case 2: place = b.length < size ? 0 : b.length - size + any() % 2; break;
    default: break;
    }
    if (b.length < place || b.length - place < size) wanted = 3;
    if (k.length != 32 || h.length != 4 || d.length > 255 || tag == 0x82) wanted = 1;
    r = box_wrap(k.at, k.length, h.at, h.length, tag, d.at, d.length, b.at, b.length, place);
    expect(r, wanted, "box_wrap");
    if (r == 0) {
        uint8_t *m = b.at + place;
        s = box_open(k.at, k.length, h.at, h.length, m, size, f.at, f.length);
        expect(s, f.length == 3 ? 0 : 1, "box_open");
        if (s == 0 && (f.at[0] != tag || f.at[1] != from || f.at[2] != d.length || (d.length > 0 && memcmp(m + f.at[1], d.at, d.length) != 0))) fail("box_open: found");
        {
            struct lent g = lend(length_near(3));
            size_t at = any() % 3 ? any() % size : any() % from;
            int shape = at < from || at == size - 6 || at == size - 5;
            expect(box_open(k.at, k.length, h.at, h.length, m, any() % size, g.at, g.length), g.length != 3 ? 1 : 4, "box_open of a part");
            if (b.length - place > size) expect(box_open(k.at, k.length, h.at, h.length, m, b.length - place, g.at, g.length), g.length != 3 ? 1 : 4, "box_open of more");
            /* one bit changed: the code differs, or the shape is wrong */
            m[at] ^= (uint8_t)(1u << any() % 8);
            expect(box_open(k.at, k.length, h.at, h.length, m, size, g.at, g.length), g.length != 3 ? 1 : shape ? 4 : 8, "box_open of a changed message");
            back(g, 0, 0, "box_open");
        }
    } else {
        uint8_t t = box_open(k.at, k.length, h.at, h.length, b.at, b.length < 3 ? b.length : 3, f.at, f.length);
        expect(t, k.length == 32 && h.length == 4 && f.length == 3 ? 4 : 1, "box_open of a short message");
    }
    back(b, r == 0 ? place : 0, r == 0 ? place + size : 0, "box_wrap");
    back(f, 0, s == 0 ? f.length : 0, "box_open");
    back(k, 0, 0, "box_wrap");
    back(h, 0, 0, "box_wrap");
    back(d, 0, 0, "box_wrap");
}

/* Random bytes, and messages whose tag, length, end or code is off, to the opener. */
static void of_opening(void) {
    static const uint8_t firsts[6] = {0x81, 0x87, 0x81, 0x87, 0x80, 0x8e};
    static const uint8_t lengths[7] = {0x00, 0x08, 0x7f, 0x80, 0x81, 0x82, 0xff};
    struct lent k = lend(32), h = lend(4), m = lend(any() % 300), f = lend(length_near(3));
    size_t n = m.length, place, L;
    uint8_t wanted = 4;
    if (n > 0 && any() % 4 != 0) m.at[0] = firsts[any() % 6];
    if (n > 1 && any() % 4 != 0) m.at[1] = any() % 2 && n >= 8 ? (uint8_t)(n - 8) : lengths[any() % 7];
    if (n > 2 && any() % 2 != 0) {
        m.at[1] = 0x81;
        m.at[2] = any() % 2 && n >= 9 ? (uint8_t)(n - 9) : lengths[any() % 7];
    }
    place = n > 2 && m.at[1] == 0x81 ? 3 : 2;
    L = n >= place ? m.at[place - 1] : 0;
    if (n > place + L + 1 && any() % 4 != 0) {
        m.at[place + L] = 0x8e;
        m.at[place + L + 1] = any() % 4 == 0 ? 0x05 : 0x04;
    }
    keep(&m);
    /* a good shape with a code of random bytes is 8 */
    if (n == place + L + 6 && (place == 2 ? L <= 127 : L >= 128) && (m.at[0] == 0x81 || m.at[0] == 0x87) && m.at[n - 6] == 0x8e && m.at[n - 5] == 0x04) wanted = 8;
    if (f.length != 3) wanted = 1;
    expect(box_open(k.at, k.length, h.at, h.length, m.at, m.length, f.at, f.length), wanted, "box_open of random bytes");
    back(k, 0, 0, "box_open");
    back(h, 0, 0, "box_open");
    back(m, 0, 0, "box_open");
    back(f, 0, 0, "box_open");
}

/* Writes the code at a message's end: that of the header, 80 and three 00, the message before its code, 80, and zeros, 272 bytes. */
static void seal(struct lent k, struct lent h, struct lent m) {
    uint8_t string[272] = {0};
    memcpy(string, h.at, 4);
    string[4] = 0x80;
    memcpy(string + 8, m.at, m.length - 4);
    string[8 + m.length - 4] = 0x80;
    expect(box_code(k.at, 32, string, sizeof string, m.at + m.length - 4, 4), 0, "box_code");
}

/* Every length in fields of one, two and three bytes, with a size, an end and a code that fit: one form of each is read, and wrapping writes that
 * one. With 256 bytes after it, which a size of one byte would not show, it is not read. */
static void of_forms(void) {
    static const uint8_t before[5][2] = {{0}, {0x81}, {0x80}, {0x82}, {0x82, 0x00}};
    static const size_t sizes[5] = {0, 1, 1, 1, 2};
    size_t L, form;
    for (L = 0; L <= 255; L++)
        for (form = 0; form < 5; form++) {
            size_t place = 2 + sizes[form];
            struct lent k = lend(32), h = lend(4), m = lend(place + L + 6), b = lend(m.length), w = lend(m.length + 256), f = lend(3);
            uint8_t tag = any() % 2 ? 0x87 : 0x81, wanted = form == (L < 128 ? 0 : 1) ? 0 : 4;
            m.at[0] = tag;
            memcpy(m.at + 1, before[form], sizes[form]);
            m.at[place - 1] = (uint8_t)L;
            /* 81 80 would be the length 128 */
            if (form == 0 && L == 0x81) m.at[2] = 0x7f;
            m.at[place + L] = 0x8e;
            m.at[place + L + 1] = 0x04;
            seal(k, h, m);
            keep(&m);
            memcpy(w.at, m.at, m.length);
            keep(&w);
            expect(box_open(k.at, 32, h.at, 4, w.at, w.length, f.at, 3), 4, "box_open of 256 bytes more");
            expect(box_open(k.at, 32, h.at, 4, m.at, m.length, f.at, 3), wanted, "box_open of a form");
            if (wanted == 0) {
                if (f.at[0] != tag || f.at[1] != place || f.at[2] != L) fail("box_open of a form: found");
                expect(box_wrap(k.at, 32, h.at, 4, tag, m.at + place, L, b.at, b.length, 0), 0, "box_wrap of what was opened");
                if (memcmp(b.at, m.at, m.length) != 0) fail("box_wrap of what was opened");
            }
            back(k, 0, 0, "box_open of a form");
            back(h, 0, 0, "box_open of a form");
            back(m, 0, 0, "box_open of a form");
            back(w, 0, 0, "box_open of 256 bytes more");
            back(b, 0, wanted == 0 ? b.length : 0, "box_wrap of what was opened");
            back(f, 0, wanted == 0 ? 3 : 0, "box_open of a form");
        }
}

/* PIN blocks with one half-byte of any value: read exactly when the format is right, and written back to the same bytes. */
static void of_pin_blocks(void) {
    uint8_t half[16], block[8], found[13], again[8], n = (uint8_t)(any() % 16), wanted = 0, r;
    int i;
    half[0] = any() % 8 ? 2 : (uint8_t)(any() % 16);
    half[1] = n;
    for (i = 2; i < 16; i++) half[i] = i < 2 + n ? (uint8_t)(any() % 10) : 15;
    if (any() % 2) half[2 + any() % 14] = (uint8_t)(any() % 16);
    if (half[0] != 2 || n < 4 || n > 12) wanted = 9;
    for (i = 2; i < 16; i++)
        if (i < 2 + n ? half[i] > 9 : half[i] != 15) wanted = 9;
    for (i = 0; i < 8; i++) block[i] = (uint8_t)(half[2 * i] * 16 + half[2 * i + 1]);
    r = box_read_pin(block, sizeof block, found, sizeof found);
    expect(r, wanted, "box_read_pin of a block");
    if (r == 0) {
        expect(box_write_pin(found + 1, found[0], again, sizeof again), 0, "box_write_pin of what was read");
        if (memcmp(again, block, sizeof block) != 0) fail("box_write_pin of what was read");
    }
}

/* The card key with each pair of the sixteen digits as one byte in a base: two of sequence number, before them up to fourteen of card number, and
 * zeros where it has fewer. */
static void of_digits(const uint8_t *key, unsigned base, const uint8_t *pan, size_t n, uint8_t sequence, uint8_t *out) {
    uint8_t digit[16] = {0}, seed[8];
    size_t i;
    digit[14] = sequence / 10;
    digit[15] = sequence % 10;
    for (i = 0; i < 14 && i < n; i++) digit[13 - i] = pan[n - 1 - i];
    for (i = 0; i < 8; i++) seed[i] = (uint8_t)(base * digit[2 * i] + digit[2 * i + 1]);
    expect(box_derive(key, 32, seed, 8, out, 32), 0, "box_derive");
}

/* Answers that are made of one another: an output that was left as it was would differ. */
static void of_values(void) {
    struct lent k = lend(32), b = lend(8), d = lend(65), c = lend(4);
    uint8_t x[8], y[8], u[32], v[32], w[32], string[72] = {0}, code[4], seed8[8] = {0}, sequence = (uint8_t)(any() % 100);
    uint8_t pan[19];
    uint16_t counter = (uint16_t)any();
    size_t i, n;
    expect(box_encipher(k.at, 32, b.at, 8, x, 8), 0, "box_encipher");
    expect(box_decipher(k.at, 32, x, 8, y, 8), 0, "box_decipher");
    if (memcmp(y, b.at, 8) != 0) fail("box_decipher of box_encipher");
    seed8[0] = (uint8_t)(counter >> 8);
    seed8[1] = (uint8_t)counter;
    expect(box_encipher(k.at, 32, seed8, 8, x, 8), 0, "box_encipher");
    memset(y, 0, 8);
    i = 2 + any() % 7;
    expect(box_idn(k.at, 32, counter, y, i), 0, "box_idn");
    if (memcmp(x, y, i) != 0) fail("box_idn: not the enciphered counter");
    seed8[2] = 0xf0;
    expect(box_session_key(k.at, 32, counter, u, 32), 0, "box_session_key");
    expect(box_derive(k.at, 32, seed8, 8, v, 32), 0, "box_derive");
    if (memcmp(u, v, 32) != 0) fail("box_session_key: not the derived one");
    expect(box_script_key(k.at, 32, b.at, 8, u, 32), 0, "box_script_key");
    expect(box_derive(k.at, 32, b.at, 8, v, 32), 0, "box_derive");
    if (memcmp(u, v, 32) != 0) fail("box_script_key: not the derived one");
    n = 12 + any() % 8;
    for (i = 0; i < n; i++) pan[i] = (uint8_t)(any() % 10);
    pan[n - 1] = 1 + pan[n - 1] % 9;
    pan[n - 2] = 1 + pan[n - 2] % 9;
    expect(box_card_key(k.at, 32, pan, n, sequence, u, 32), 0, "box_card_key");
    expect(box_card_key_packed(k.at, 32, pan, n, sequence, v, 32), 0, "box_card_key_packed");
    if (memcmp(u, v, 32) == 0) fail("the two readings of the card digits give one key");
    of_digits(k.at, 10, pan, n, sequence, w);
    if (memcmp(u, w, 32) != 0) fail("box_card_key: not the key of the pairs' numbers");
    of_digits(k.at, 16, pan, n, sequence, w);
    if (memcmp(v, w, 32) != 0) fail("box_card_key_packed: not the key of the packed digits");
    memcpy(string, d.at, 65);
    string[31] = (uint8_t)(counter >> 8);
    string[32] = (uint8_t)counter;
    string[36] = (uint8_t)(0xa0 + string[36] % 16);
    string[65] = 0x80;
    expect(box_code(k.at, 32, string, 72, code, 4), 0, "box_code");
    expect(box_cryptogram(k.at, 32, 0x80, counter, d.at, 65, x, 8), 0, "box_cryptogram");
    if (memcmp(x, code, 4) != 0 || memcmp(x + 4, code, 4) != 0) fail("box_cryptogram: not the code, twice");
    memset(string, 0, sizeof string);
    memcpy(string, x, 8);
    memcpy(string + 8, c.at, 4);
    string[16] = 0x80;
    expect(box_code(k.at, 32, string, 72, code, 4), 0, "box_code");
    expect(box_arpc(k.at, 32, x, 8, c.at, 4, y, 8), 0, "box_arpc");
    if (memcmp(y, code, 4) != 0 || memcmp(y + 4, code, 4) != 0) fail("box_arpc: not the code, twice");
    back(k, 0, 0, "values");
    back(b, 0, 0, "values");
    back(d, 0, 0, "values");
    back(c, 0, 0, "values");
}

typedef uint8_t feeding(uint8_t *, size_t, const uint8_t *, size_t);
typedef uint8_t ending(const uint8_t *, size_t, uint8_t *, size_t);

/* A state of any bytes, whose total stands anywhere or just below the limit, fed and ended: total is where it has its total, whole whether it is a code, which
 * wants whole blocks. */
static void of_state(feeding *feed, ending *end, size_t size, size_t total, size_t out_right, int whole, const char *name) {
    struct lent s = lend(length_near(size)), m = lend(any() % 200), o = lend(length_near(out_right));
    uint64_t fed = 0;
    int fits, i;
    if (s.length == size) {
        if (any() % 2 == 0) memset(s.at + total, 0xff, 4);
        if (any() % 2 == 0) s.at[total] = (uint8_t)any();
        keep(&s);
        for (i = 3; i >= 0; i--) fed = fed << 8 | s.at[total + (size_t)i];
    }
    fits = s.length == size && fed + m.length <= UINT32_MAX;
    expect(feed(s.at, s.length, m.at, m.length), fits ? 0 : 1, name);
    if (fits) {
        fed += m.length;
        for (i = 0; i < 4; i++)
            if (s.at[total + (size_t)i] != (uint8_t)(fed >> (8 * i))) fail("a total not counted");
        keep(&s);
    }
    fits = s.length == size && o.length == out_right && (!whole || (fed >= 8 && s.at[total - 1] % 8 == 0));
    expect(end(s.at, s.length, o.at, o.length), fits ? 0 : 1, name);
    back(s, 0, 0, name);
    back(m, 0, 0, name);
    back(o, 0, fits ? out_right : 0, name);
}

/* Begun over any bytes, under a key of any length; where it is refused the state stays. */
static void of_begun(two *begin, size_t size, const char *name) {
    struct lent k = lend(length_near(32)), s = lend(length_near(size));
    int fits = k.length == 32 && s.length == size;
    expect(begin(k.at, k.length, NULL, 0, s.at, s.length), fits ? 0 : 1, name);
    back(k, 0, 0, name);
    back(s, 0, fits ? size : 0, name);
}

static uint8_t hmac_begin(const uint8_t *k, size_t n, const uint8_t *none, size_t zero, uint8_t *s, size_t length) {
    (void)none;
    (void)zero;
    return box_hmac_begin(k, n, s, length);
}

static uint8_t code_begin(const uint8_t *k, size_t n, const uint8_t *none, size_t zero, uint8_t *s, size_t length) {
    (void)none;
    (void)zero;
    return box_code_begin(k, n, s, length);
}

static void of_parts(void) {
    struct lent s = lend(length_near(BOX_HASH_STATE));
    int fits = s.length == BOX_HASH_STATE;
    expect(box_hash_begin(s.at, s.length), fits ? 0 : 1, "box_hash_begin");
    back(s, 0, fits ? BOX_HASH_STATE : 0, "box_hash_begin");
    of_begun(hmac_begin, BOX_HMAC_STATE, "box_hmac_begin");
    of_begun(code_begin, BOX_CODE_STATE, "box_code_begin");
    of_state(box_hash_feed, box_hash_end, BOX_HASH_STATE, 257, 32, 0, "box_hash_feed, box_hash_end");
    of_state(box_hmac_feed, box_hmac_end, BOX_HMAC_STATE, 257, 32, 0, "box_hmac_feed, box_hmac_end");
    of_state(box_code_feed, box_code_end, BOX_CODE_STATE, 49, 4, 1, "box_code_feed, box_code_end");
}

/* A string of these bytes. */
static struct lent lend_bytes(const uint8_t *bytes, size_t length) {
    struct lent s = lend(length);
    if (length > 0) memcpy(s.at, bytes, length);
    keep(&s);
    return s;
}

/* Templates that are read, or the number and the place of their first fault; with wrong lengths of the outputs too. What was read is written again. */
static void of_reading(const uint8_t *bytes, size_t length, uint8_t wanted, uint8_t at, const uint8_t *objects, size_t count) {
    struct lent i = lend_bytes(bytes, length), o = lend(length_near(BOX_TEMPLATE_OBJECTS)), p = lend(length_near(BOX_TEMPLATE_PLACE)), b, s;
    int fits = o.length == BOX_TEMPLATE_OBJECTS, placed = p.length == BOX_TEMPLATE_PLACE && wanted != 0;
    size_t j;
    expect(box_read_templates(i.at, i.length, o.at, o.length), fits ? wanted : 1, "box_read_templates");
    expect(box_templates_fault(i.at, i.length, p.at, p.length), placed ? 0 : 1, "box_templates_fault");
    if (placed && (p.at[0] != 0 || p.at[1] != 0 || p.at[2] != 0 || p.at[3] != at)) fail("box_templates_fault: place");
    if (fits && wanted == 0) {
        if (memcmp(o.at, objects, count * BOX_TEMPLATE_OBJECT) != 0) fail("box_read_templates: objects");
        for (j = count * BOX_TEMPLATE_OBJECT; j < o.length; j++)
            if (o.at[j] != 0) fail("box_read_templates: zeros");
        b = lend(length + 2);
        s = lend(BOX_TEMPLATE_SIZE);
        expect(box_write_templates(o.at, count * BOX_TEMPLATE_OBJECT, i.at, i.length, b.at, b.length, 1, s.at, s.length), 0, "box_write_templates");
        if (memcmp(b.at + 1, bytes, length) != 0) fail("box_write_templates of what was read");
        if (s.at[0] != 0 || s.at[1] != 0 || s.at[2] != length / 256 || s.at[3] != length % 256) fail("box_write_templates: size");
        back(b, 1, 1 + length, "box_write_templates");
        back(s, 0, s.length, "box_write_templates");
    }
    back(i, 0, 0, "box_read_templates");
    back(o, 0, fits && wanted == 0 ? o.length : 0, "box_read_templates");
    back(p, 0, placed ? p.length : 0, "box_templates_fault");
}

/* One object, or objects, refused by the writer: nothing is written. */
static void of_refusing(const uint8_t *bytes, size_t length, size_t source, size_t buffer, size_t place, size_t size, uint8_t wanted) {
    struct lent o = lend_bytes(bytes, length), d = lend(source), b = lend(buffer), s = lend(size);
    expect(box_write_templates(o.at, o.length, d.at, d.length, b.at, b.length, place, s.at, s.length), wanted, "box_write_templates");
    back(o, 0, 0, "box_write_templates");
    back(d, 0, 0, "box_write_templates");
    back(b, 0, 0, "box_write_templates");
    back(s, 0, 0, "box_write_templates");
}

/* tests/templates compares many more with the second program. */
static void of_templates(void) {
    static const uint8_t tree[] = {0xe1, 0x10, 0x71, 0x0c, 0x9f, 0x18, 4, 1, 2, 3, 4, 0x86, 1, 0xaa, 0x86, 0, 0x72, 0, 0x72, 0};
    static const uint8_t objects[7][BOX_TEMPLATE_OBJECT] = {
        {0, 0xe1, 0, 1, 0, 16, 0, 0, 0, 2},  {0, 0x71, 0, 2, 0, 12, 0, 0, 0, 4},  {0x9f, 0x18, 0, 3, 0, 4, 0, 0, 0, 7},
        {0, 0x86, 0, 3, 0, 1, 0, 0, 0, 13}, {0, 0x86, 0, 3, 0, 0, 0, 0, 0, 16}, {0, 0x72, 0, 2, 0, 0, 0, 0, 0, 18},
        {0, 0x72, 0, 1, 0, 0, 0, 0, 0, 20},
    };
    static const uint8_t deep[] = {0xe1, 8, 0xe1, 6, 0xe1, 4, 0x71, 2, 0x86, 0}, two[] = {0x71, 9, 0x86, 0, 0x9f, 0x18, 4, 1, 2, 3, 4};
    static const size_t edges[8] = {0, 1, 126, 127, 128, 129, 251, 252};
    uint8_t long_one[258], object[2][BOX_TEMPLATE_OBJECT] = {{0, 0x72, 0, 1, 0}, {0, 0x86, 0, 2, 0}}, empties[66];
    size_t i;
    of_reading(tree, sizeof tree, 0, 0, objects[0], 7);
    of_reading(tree, sizeof tree - 1, 16, 18, NULL, 0);
    of_reading(NULL, 0, 16, 0, NULL, 0);
    of_reading(deep, sizeof deep, 17, 8, NULL, 0);
    of_reading(two, sizeof two, 16, 4, NULL, 0);
    for (i = 0; i < 66; i++) empties[i] = i % 2 == 0 ? 0x71 : 0;
    of_reading(empties, 66, 18, 64, NULL, 0);
    /* a command of each edge length in a template that just holds it */
    for (i = 0; i < 8; i++) {
        size_t n = edges[i], inside = n + (n < 128 ? 2 : 3), at = 0;
        memset(long_one, 0x5a, sizeof long_one);
        long_one[at++] = 0x72;
        if (inside >= 128) long_one[at++] = 0x81;
        long_one[at++] = (uint8_t)inside;
        object[0][5] = (uint8_t)inside;
        object[0][9] = (uint8_t)at;
        long_one[at++] = 0x86;
        if (n >= 128) long_one[at++] = 0x81;
        long_one[at++] = (uint8_t)n;
        object[1][5] = (uint8_t)n;
        object[1][9] = (uint8_t)at;
        of_reading(long_one, at + n, 0, 0, object[0], 2);
        /* one byte less for the template: the command ends past it; or its length is 81 7f */
        long_one[at - (n < 128 ? 3 : 4)]--;
        of_reading(long_one, at + n, 16, inside == 128 ? 0 : (uint8_t)(at - (n < 128 ? 2 : 3)), NULL, 0);
    }
    of_refusing(NULL, 0, 0, 8, 0, BOX_TEMPLATE_SIZE, 16);
    of_refusing(object[0], 19, 300, 300, 0, BOX_TEMPLATE_SIZE, 1);
    of_refusing(object[0], 20, 300, 300, 0, BOX_TEMPLATE_SIZE - 1, 1);
    of_refusing(object[0], 20, 300, 258, 1, BOX_TEMPLATE_SIZE, 3);
    of_refusing(object[0], 20, 300, 300, 300, BOX_TEMPLATE_SIZE, 3);
    of_refusing(object[0], 20, 300, 300, (size_t)0 - 1, BOX_TEMPLATE_SIZE, 3);
    of_refusing(object[0], 20, 257, 300, 0, BOX_TEMPLATE_SIZE, 1);
    object[1][5] = 253;
    of_refusing(object[0], 20, 300, 300, 0, BOX_TEMPLATE_SIZE, 16);
    object[1][4] = 1;
    object[1][5] = 0;
    of_refusing(object[0], 20, 300, 300, 0, BOX_TEMPLATE_SIZE, 1);
}

/* A string of values below a number: digits of a card number, or the zeros of a table without a card. */
static struct lent lend_values(size_t length, uint8_t below) {
    struct lent s = lend(length);
    size_t i;
    for (i = 0; i < length; i++) s.at[i] %= below;
    keep(&s);
    return s;
}

/* The desk's calls with lengths near the right ones on a table without a card: 1, or the card is not held. */
static void of_desk_lengths(void) {
    struct lent t = lend_values(length_near(BOX_DESK_TABLE), 1), n = lend_values(12 + any() % 8, 10), k = lend(length_near(32)), s = lend(length_near(32));
    struct lent d = lend(length_near(65)), q = lend(length_near(8)), c = lend(length_near(4)), a = lend(length_near(8)), p = lend(any() % 14);
    struct lent b = lend(any() % 30);
    static const uint8_t commands[4] = {BOX_DESK_PIN, BOX_DESK_BLOCK, BOX_DESK_UNBLOCK, 0x84};
    uint8_t sequence = (uint8_t)(any() % 100), digits = (uint8_t)(any() % 9 == 0 ? any() : any() % 2), command = commands[any() % 4];
    int table = t.length == BOX_DESK_TABLE, keys = table && k.length == 32 && digits <= BOX_DESK_PACKED && q.length == 8;
    int checked = keys && d.length == 65 && c.length == 4 && a.length == 8, wrapped = keys && s.length == 32 && command != 0x84;
    size_t i;
    expect(box_desk_check(t.at, t.length, k.at, k.length, digits, n.at, n.length, sequence, d.at, d.length, q.at, q.length, c.at, c.length, a.at, a.length),
           checked ? 19 : 1, "box_desk_check");
    expect(box_desk_wrap(t.at, t.length, k.at, k.length, s.at, s.length, digits, n.at, n.length, sequence, command, q.at, q.length, p.at, p.length, b.at,
                         b.length, any() % 30),
           wrapped ? 19 : 1, "box_desk_wrap");
    expect(box_desk_forget(t.at, t.length, n.at, n.length, sequence), table ? 19 : 1, "box_desk_forget");
    expect(box_desk_add(t.at, t.length, n.at, n.length, (uint8_t)(sequence + 100)), table ? 2 : 1, "box_desk_add");
    {
        struct lent all[] = {t, n, k, s, d, q, c, a, p, b};
        for (i = 0; i < sizeof all / sizeof all[0]; i++) back(all[i], 0, 0, "the desk, refusing");
    }
}

/* A card that is held: ARPC and script are what the functions beneath make of the same keys. tests/desk-calls compares many more calls with the second
 * program. */
static void of_desk(void) {
    struct lent t = lend_values(BOX_DESK_TABLE, 1), n = lend_values(12 + any() % 8, 10), k = lend(32), s = lend(32), d = lend(65), q = lend(8), c = lend(4);
    struct lent a = lend(8), p = lend_values(7, 10), b = lend(31);
    card *key = any() % 2 == 0 ? box_card_key : box_card_key_packed;
    uint8_t sequence = (uint8_t)(any() % 100), digits = key == box_card_key ? BOX_DESK_PAIRS : BOX_DESK_PACKED;
    uint8_t master[32], session[32], arpc[8], block[8], data[8], header[4] = {0x84, BOX_DESK_PIN, 0x00, 0x02}, message[16];
    uint16_t counter = (uint16_t)(d.at[31] << 8 | d.at[32]);
    size_t i;
    key(k.at, 32, n.at, n.length, sequence, master, 32);
    box_session_key(master, 32, counter, session, 32);
    box_cryptogram(session, 32, 0x80, counter, d.at, 65, q.at, 8);
    box_arpc(session, 32, q.at, 8, c.at, 4, arpc, 8);
    expect(box_desk_add(t.at, t.length, n.at, n.length, sequence), 0, "box_desk_add");
    expect(box_desk_add(t.at, t.length, n.at, n.length, sequence), 20, "box_desk_add");
    /* with a wrong bit, right, and once more */
    for (i = 0; i < 3; i++) {
        static const uint8_t wanted[3] = {22, 0, 23};
        if (i < 2) q.at[7] ^= 1;
        keep(&q);
        expect(box_desk_check(t.at, t.length, k.at, 32, digits, n.at, n.length, sequence, d.at, 65, q.at, 8, c.at, 4, a.at, 8), wanted[i], "box_desk_check");
        if (memcmp(a.at, i == 0 ? a.copy : arpc, 8) != 0) fail("box_desk_check: ARPC");
        if (t.at[22] != (i > 0) || t.at[23] != (i > 0 ? d.at[31] : 0) || t.at[24] != (i > 0 ? d.at[32] : 0)) fail("box_desk_check: counter");
    }
    key(s.at, 32, n.at, n.length, sequence, master, 32);
    box_script_key(master, 32, q.at, 8, session, 32);
    box_write_pin(p.at, p.length, block, 8);
    box_encipher(session, 32, block, 8, data, 8);
    key(k.at, 32, n.at, n.length, sequence, master, 32);
    box_script_key(master, 32, q.at, 8, session, 32);
    box_wrap(session, 32, header, 4, 0x87, data, 8, message, 16, 0);
    /* a byte too few, and just enough */
    for (i = 12; i > 10; i--)
        expect(box_desk_wrap(t.at, t.length, k.at, 32, s.at, 32, digits, n.at, n.length, sequence, BOX_DESK_PIN, q.at, 8, p.at, p.length, b.at, b.length, i),
               i == 12 ? 3 : 0, "box_desk_wrap");
    if (memcmp(b.at + 11, header, 4) != 0 || memcmp(b.at + 15, message, 16) != 0) fail("box_desk_wrap: script");
    expect(box_desk_forget(t.at, t.length, n.at, n.length, sequence), 0, "box_desk_forget");
    {
        /* the table too: its one card is forgotten */
        struct lent inputs[] = {t, n, k, s, d, q, c, p};
        for (i = 0; i < sizeof inputs / sizeof inputs[0]; i++) back(inputs[i], 0, 0, "an input of the desk");
    }
    back(a, 0, 8, "box_desk_check");
    back(b, 11, 31, "box_desk_wrap");
}

int main(void) {
    int i;
    of_forms();
    for (i = 0; i < 100; i++) of_templates();
    for (i = 0; i < 400; i++) of_desk_lengths();
    for (i = 0; i < 100; i++) of_desk();
    for (i = 0; i < ROUNDS; i++) {
        of_two(box_encipher, 8, 0, 8, "box_encipher");
        of_two(box_decipher, 8, 0, 8, "box_decipher");
        of_two(box_code, 0, 1, 4, "box_code");
        of_two(box_derive, 8, 0, 32, "box_derive");
        of_two(box_script_key, 8, 0, 32, "box_script_key");
        of_card(box_card_key, "box_card_key");
        of_card(box_card_key_packed, "box_card_key_packed");
        of_cards();
        of_keys();
        of_pin();
        of_cryptogram();
        of_message();
        of_opening();
        of_pin_blocks();
        of_values();
        of_parts();
    }
    printf("%lu calls, %lu accepted, every number and every lent byte as it must be\n", calls, accepted);
    return 0;
}
