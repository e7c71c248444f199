/* Handles of libgcrypt are opened once, as a program that cares for speed does; a key is set in each call where the proved code takes a key
 * in each call, and kept where it keeps one. */
#include "rows.h"

#include <box.h>
#include <gcrypt.h>
#include <nettle/hmac.h>
#include <nettle/streebog.h>
#include <stdio.h>
#include <stdlib.h>
#include <string.h>

void bench_hash(const uint8_t *message, size_t message_length, uint8_t *out, size_t out_length);
void bench_hmac(const uint8_t *key, size_t key_length, const uint8_t *message, size_t message_length, uint8_t *out, size_t out_length);
void bench_derive_kept(const uint8_t *key, size_t key_length, const uint8_t *seeds, size_t seeds_length, uint8_t *out, size_t out_length);

enum { KEY = 32, BLOCK = 8, CODE = 4, HASH = 32, SEED = 8, STRING = 16, DATA = 8, MESSAGE = DATA + 8, STRIDE = 64 };
enum { LARGEST_TEXT = 65536, CODED = 272, ANSWER = 8, CSU = 4, OPENING = 65, STRING_OF_OPENING = 72, CARD = 21, PIN = 4 };

static const char SET_Z[] = "1.2.643.7.1.2.5.1.1";
static const uint8_t HEADER[4] = {0x84, 0x24, 0x00, 0x02};
static const uint8_t TAG = 0x87;

static _Alignas(STRIDE) uint8_t pool[LARGEST_TEXT + TURNS * STRIDE];
static uint8_t keys[TURNS + 1][KEY]; /* a PIN change takes the next one for SMC */
static uint8_t messages[TURNS][MESSAGE];
static uint8_t counters[KEPT * SEED]; /* the seeds of session keys for cryptograms */
static uint8_t day[CARDS * CARD];
static struct {
    uint8_t cryptograms[KEPT * SEED], messages[KEPT][MESSAGE];
} changes[TURNS];

/* A desk with all its room taken, and what is asked of it: a card as box_card_keys takes it, which is what an entry has of it. */
static uint8_t held[BOX_DESK_TABLE], *entries[TURNS];
static struct asked {
    uint8_t card[CARD], data[OPENING], arqc[ANSWER], csu[CSU], pin[PIN];
} asked[TURNS];

static gcry_cipher_hd_t cipher;
static gcry_mac_hd_t imit, hmac;
static gcry_md_hd_t md;

static void must(int holds, const char *what) {
    if (holds) return;
    fprintf(stderr, "bench: %s\n", what);
    exit(1);
}

/* The proved code */

static void box_one_key(const struct input *in, uint8_t *out) {
    must(box_derive(in->key, KEY, in->text, in->length, out, KEY) == 0, "box_derive");
}

static void box_kept_key(const struct input *in, uint8_t *out) {
    bench_derive_kept(in->key, KEY, in->text, in->length, out, KEPT * KEY);
}

static void box_hash(const struct input *in, uint8_t *out) {
    bench_hash(in->text, in->length, out, HASH);
}

static void box_block(const struct input *in, uint8_t *out) {
    must(box_encipher(in->key, KEY, in->text, in->length, out, BLOCK) == 0, "box_encipher");
}

static void box_string(const struct input *in, uint8_t *out) {
    must(box_code(in->key, KEY, in->text, in->length, out, CODE) == 0, "box_code");
}

static void box_message(const struct input *in, uint8_t *out) {
    must(box_wrap(in->key, KEY, HEADER, sizeof HEADER, TAG, in->text, in->length, out, MESSAGE, 0) == 0, "box_wrap");
}

static void box_opened(const struct input *in, uint8_t *out) {
    must(box_open(in->key, KEY, HEADER, sizeof HEADER, in->text, in->length, out, 3) == 0, "box_open");
}

/* In parts: the text at once, after a beginning and before an end. */

static void fed_hash(const struct input *in, uint8_t *out) {
    uint8_t state[BOX_HASH_STATE];
    must(box_hash_begin(state, sizeof state) == 0, "box_hash_begin");
    must(box_hash_feed(state, sizeof state, in->text, in->length) == 0, "box_hash_feed");
    must(box_hash_end(state, sizeof state, out, HASH) == 0, "box_hash_end");
}

static void fed_hmac(const struct input *in, uint8_t *out) {
    uint8_t state[BOX_HMAC_STATE];
    must(box_hmac_begin(in->key, KEY, state, sizeof state) == 0, "box_hmac_begin");
    must(box_hmac_feed(state, sizeof state, in->text, in->length) == 0, "box_hmac_feed");
    must(box_hmac_end(state, sizeof state, out, HASH) == 0, "box_hmac_end");
}

static void whole_hmac(const struct input *in, uint8_t *out) {
    bench_hmac(in->key, KEY, in->text, in->length, out, HASH);
}

static void fed_code(const struct input *in, uint8_t *out) {
    uint8_t state[BOX_CODE_STATE];
    must(box_code_begin(in->key, KEY, state, sizeof state) == 0, "box_code_begin");
    must(box_code_feed(state, sizeof state, in->text, in->length) == 0, "box_code_feed");
    must(box_code_end(state, sizeof state, out, CODE) == 0, "box_code_end");
}

/* States of which nothing was fed, and of which 16 MiB were. */
static struct {
    uint8_t hash[BOX_HASH_STATE], hmac[BOX_HMAC_STATE], code[BOX_CODE_STATE];
} fresh, late;

/* The text byte by byte, after one of them. */
typedef uint8_t feeding(uint8_t *state, size_t state_length, const uint8_t *part, size_t part_length);

static void bytes_of(const struct input *in, const uint8_t *from, size_t size, feeding *feed) {
    uint8_t state[BOX_HMAC_STATE];
    memcpy(state, from, size);
    for (size_t i = 0; i < in->length; i++) must(feed(state, size, in->text + i, 1) == 0, "a byte");
}

#define BY_BYTES(name) \
    static void name##_fresh(const struct input *in, uint8_t *out) { (void)out; bytes_of(in, fresh.name, sizeof fresh.name, box_##name##_feed); } \
    static void name##_late(const struct input *in, uint8_t *out) { (void)out; bytes_of(in, late.name, sizeof late.name, box_##name##_feed); }
BY_BYTES(hash)
BY_BYTES(hmac)
BY_BYTES(code)

static void start_states(void) {
    must(box_hash_begin(fresh.hash, sizeof fresh.hash) == 0, "box_hash_begin");
    must(box_hmac_begin(keys[0], KEY, fresh.hmac, sizeof fresh.hmac) == 0, "box_hmac_begin");
    must(box_code_begin(keys[0], KEY, fresh.code, sizeof fresh.code) == 0, "box_code_begin");
    late = fresh;
    for (size_t i = 0; i < 256; i++) {
        must(box_hash_feed(late.hash, sizeof late.hash, pool, LARGEST_TEXT) == 0, "box_hash_feed");
        must(box_hmac_feed(late.hmac, sizeof late.hmac, pool, LARGEST_TEXT) == 0, "box_hmac_feed");
        must(box_code_feed(late.code, sizeof late.code, pool, LARGEST_TEXT) == 0, "box_code_feed");
    }
}

/* Whole operations, KEPT of them under a master key that is kept. The counter of operation i is i + 1. */

static void box_session(const struct input *in, uint8_t *out) {
    bench_derive_kept(in->key, KEY, counters, sizeof counters, out, KEPT * KEY);
}

static void box_opening(const struct input *in, uint8_t *out) {
    uint8_t session[KEPT * KEY];
    box_session(in, session);
    for (size_t i = 0; i < KEPT; i++)
        must(box_cryptogram(session + i * KEY, KEY, 0x80, (uint16_t)(i + 1), in->text, OPENING, out + i * ANSWER, ANSWER) == 0, "box_cryptogram");
}

static void box_answer(const struct input *in, uint8_t *out) {
    uint8_t session[KEPT * KEY];
    box_session(in, session);
    for (size_t i = 0; i < KEPT; i++)
        must(box_arpc(session + i * KEY, KEY, in->text, ANSWER, in->text + ANSWER, CSU, out + i * ANSWER, ANSWER) == 0, "box_arpc");
}

static void box_change(const struct input *in, uint8_t *out) {
    uint8_t smi[KEPT * KEY], smc[KEPT * KEY], found[3];
    bench_derive_kept(in->key, KEY, in->text, KEPT * SEED, smi, sizeof smi);
    bench_derive_kept(in->key + KEY, KEY, in->text, KEPT * SEED, smc, sizeof smc);
    for (size_t i = 0; i < KEPT; i++) {
        const uint8_t *message = in->text + KEPT * SEED + i * MESSAGE;
        must(box_open(smi + i * KEY, KEY, HEADER, sizeof HEADER, message, MESSAGE, found, sizeof found) == 0, "box_open");
        must(box_decipher(smc + i * KEY, KEY, message + found[1], found[2], out + i * BLOCK, BLOCK) == 0, "box_decipher");
    }
}

/* The desk keeps no key: the card's and the session's are derived in each call. The entry's mark of a last counter is taken back ahead of a check, so that
 * the same counter can be asked again. */
enum { COUNTED = 22, ENTRY_CARD = 1, SCRIPT = 4 + MESSAGE };

static uint8_t *entry_of(const uint8_t *card) {
    uint8_t *entry = held;
    while (!entry[0] || memcmp(entry + ENTRY_CARD, card, CARD) != 0) {
        entry += BOX_DESK_ENTRY;
        must(entry < held + sizeof held, "no such card");
    }
    return entry;
}

/* The card is the first of what is asked. */
static const struct asked *asked_of(const struct input *in) { return (const struct asked *)(const void *)in->text; }

static void box_checked(const struct input *in, uint8_t *out) {
    const struct asked *a = asked_of(in);
    entries[a - asked][COUNTED] = 0;
    must(box_desk_check(held, sizeof held, in->key, KEY, BOX_DESK_PAIRS, a->card + 1, a->card[0], a->card[CARD - 1], a->data, OPENING, a->arqc, ANSWER, a->csu,
                        CSU, out, ANSWER) == 0, "box_desk_check");
}

static void box_scripted(const struct input *in, uint8_t *out) {
    const struct asked *a = asked_of(in);
    must(box_desk_wrap(held, sizeof held, in->key, KEY, in->key + KEY, KEY, BOX_DESK_PAIRS, a->card + 1, a->card[0], a->card[CARD - 1], BOX_DESK_PIN, a->arqc,
                       ANSWER, a->pin, PIN, out, SCRIPT, 0) == 0, "box_desk_wrap");
}

static void box_day(const struct input *in, uint8_t *out) {
    must(box_card_keys(in->key, KEY, in->text, in->length, out, CARDS * KEY) == 0, "box_card_keys");
}

/* The string whose HMAC is the derived key: 01, the label, 00, the seed, 01, 00. */
static void derivation_string(uint8_t string[STRING], const uint8_t *seed) {
    static const uint8_t frame[STRING] = {0x01, 0x21, 0x07, 0x22, 0xe6, 0x00, 0, 0, 0, 0, 0, 0, 0, 0, 0x01, 0x00};
    memcpy(string, frame, STRING);
    memcpy(string + 6, seed, SEED);
}

/* libgcrypt */

static void gcrypt_mac(gcry_mac_hd_t mac, const uint8_t *string, size_t length, uint8_t *out, size_t out_length) {
    size_t written = out_length;
    must(gcry_mac_write(mac, string, length) == 0, "gcry_mac_write");
    must(gcry_mac_read(mac, out, &written) == 0 && written == out_length, "gcry_mac_read");
}

static void gcrypt_derived(const uint8_t *seed, uint8_t *out) {
    uint8_t string[STRING];
    derivation_string(string, seed);
    gcrypt_mac(hmac, string, STRING, out, KEY);
}

static void gcrypt_one_key(const struct input *in, uint8_t *out) {
    must(gcry_mac_setkey(hmac, in->key, KEY) == 0, "gcry_mac_setkey");
    gcrypt_derived(in->text, out);
}

static void gcrypt_kept_key(const struct input *in, uint8_t *out) {
    must(gcry_mac_setkey(hmac, in->key, KEY) == 0, "gcry_mac_setkey");
    for (size_t i = 0; i < KEPT; i++) {
        must(gcry_mac_reset(hmac) == 0, "gcry_mac_reset");
        gcrypt_derived(in->text + i * SEED, out + i * KEY);
    }
}

static void gcrypt_hash(const struct input *in, uint8_t *out) {
    gcry_md_reset(md);
    gcry_md_write(md, in->text, in->length);
    memcpy(out, gcry_md_read(md, GCRY_MD_STRIBOG256), HASH);
}

static void gcrypt_block(const struct input *in, uint8_t *out) {
    must(gcry_cipher_setkey(cipher, in->key, KEY) == 0, "gcry_cipher_setkey");
    must(gcry_cipher_encrypt(cipher, out, BLOCK, in->text, BLOCK) == 0, "gcry_cipher_encrypt");
}

/* A key alone does not clear what was written before, so there is a reset too. */
static void gcrypt_code(const uint8_t *key, const uint8_t *string, size_t length, uint8_t *out) {
    must(gcry_mac_reset(imit) == 0, "gcry_mac_reset");
    must(gcry_mac_setkey(imit, key, KEY) == 0, "gcry_mac_setkey");
    gcrypt_mac(imit, string, length, out, CODE);
}

static void gcrypt_string(const struct input *in, uint8_t *out) {
    gcrypt_code(in->key, in->text, in->length, out);
}

/* A script message in C over libgcrypt's code: the code of what stands before it, behind the header, padded to 272 bytes. */
static void message_code(const uint8_t *key, const uint8_t *body, uint8_t *out) {
    uint8_t string[CODED] = {0};
    memcpy(string, HEADER, sizeof HEADER);
    string[4] = 0x80;
    memcpy(string + 8, body, MESSAGE - CODE);
    string[8 + MESSAGE - CODE] = 0x80;
    gcrypt_code(key, string, CODED, out);
}

static void gcrypt_message(const struct input *in, uint8_t *out) {
    out[0] = TAG;
    out[1] = DATA;
    memcpy(out + 2, in->text, DATA);
    out[2 + DATA] = 0x8e;
    out[3 + DATA] = CODE;
    message_code(in->key, out, out + 4 + DATA);
}

static int shaped(const uint8_t *message) {
    return (message[0] == 0x87 || message[0] == 0x81) && message[1] == DATA && message[2 + DATA] == 0x8e && message[3 + DATA] == CODE;
}

static void gcrypt_opened(const struct input *in, uint8_t *out) {
    uint8_t code[CODE];
    must(in->length == MESSAGE && shaped(in->text), "shape");
    message_code(in->key, in->text, code);
    must(memcmp(code, in->text + MESSAGE - CODE, CODE) == 0, "code");
    out[0] = in->text[0];
    out[1] = 2;
    out[2] = in->text[1];
}

/* The same whole operations in C. The HMAC's key is set once: a reset puts back what the key alone left. */

static void gcrypt_next_key(const uint8_t *seed, uint8_t *out) {
    must(gcry_mac_reset(hmac) == 0, "gcry_mac_reset");
    gcrypt_derived(seed, out);
}

static void gcrypt_code_twice(const uint8_t *key, const uint8_t *string, uint8_t *out) {
    gcrypt_code(key, string, STRING_OF_OPENING, out);
    memcpy(out + CODE, out, CODE);
}

/* KEPT session keys first, then what is made under them, as on the other side. */
static void gcrypt_session(const struct input *in, uint8_t session[KEPT][KEY]) {
    must(gcry_mac_setkey(hmac, in->key, KEY) == 0, "gcry_mac_setkey");
    for (size_t i = 0; i < KEPT; i++) gcrypt_next_key(counters + i * SEED, session[i]);
}

static void gcrypt_opening(const struct input *in, uint8_t *out) {
    static uint8_t session[KEPT][KEY];
    uint8_t string[STRING_OF_OPENING] = {0};
    gcrypt_session(in, session);
    for (size_t i = 0; i < KEPT; i++) {
        memcpy(string, in->text, OPENING);
        string[31] = (uint8_t)((i + 1) >> 8);
        string[32] = (uint8_t)(i + 1);
        string[36] = (uint8_t)(0xa0 + string[36] % 16);
        string[OPENING] = 0x80;
        gcrypt_code_twice(session[i], string, out + i * ANSWER);
    }
}

static void gcrypt_answer(const struct input *in, uint8_t *out) {
    static uint8_t session[KEPT][KEY];
    uint8_t string[STRING_OF_OPENING] = {0};
    gcrypt_session(in, session);
    for (size_t i = 0; i < KEPT; i++) {
        memcpy(string, in->text, ANSWER + CSU);
        string[16] = 0x80;
        gcrypt_code_twice(session[i], string, out + i * ANSWER);
    }
}

/* One kept key after the other. */
static void gcrypt_change(const struct input *in, uint8_t *out) {
    static uint8_t smi[KEPT][KEY], smc[KEPT][KEY];
    must(gcry_mac_setkey(hmac, in->key, KEY) == 0, "gcry_mac_setkey");
    for (size_t i = 0; i < KEPT; i++) gcrypt_next_key(in->text + i * SEED, smi[i]);
    must(gcry_mac_setkey(hmac, in->key + KEY, KEY) == 0, "gcry_mac_setkey");
    for (size_t i = 0; i < KEPT; i++) gcrypt_next_key(in->text + i * SEED, smc[i]);
    for (size_t i = 0; i < KEPT; i++) {
        const uint8_t *message = in->text + KEPT * SEED + i * MESSAGE;
        uint8_t code[CODE];
        must(shaped(message), "shape");
        message_code(smi[i], message, code);
        must(memcmp(code, message + MESSAGE - CODE, CODE) == 0, "code");
        must(gcry_cipher_setkey(cipher, smc[i], KEY) == 0, "gcry_cipher_setkey");
        must(gcry_cipher_decrypt(cipher, out + i * BLOCK, BLOCK, message + 2, BLOCK) == 0, "gcry_cipher_decrypt");
    }
}

/* The seed of a card: the last sixteen digits of card number and sequence number, a byte a pair. */
static void card_seed(const uint8_t *card, uint8_t seed[SEED]) {
    uint8_t digits[32] = {0}, *end = digits + 12 + card[0];
    must(card[0] >= 12 && card[0] <= 19 && card[CARD - 1] <= 99, "card");
    for (size_t i = 1; i <= card[0]; i++) must(card[i] <= 9, "digit");
    memcpy(end - card[0], card + 1, card[0]);
    end[0] = card[CARD - 1] / 10;
    end[1] = card[CARD - 1] % 10;
    for (size_t i = 0; i < SEED; i++) seed[i] = (uint8_t)(10 * end[2 * i - 14] + end[2 * i - 13]);
}

static void gcrypt_day(const struct input *in, uint8_t *out) {
    uint8_t seed[SEED];
    must(gcry_mac_setkey(hmac, in->key, KEY) == 0, "gcry_mac_setkey");
    for (size_t i = 0; i < CARDS; i++) {
        card_seed(in->text + i * CARD, seed);
        gcrypt_next_key(seed, out + i * KEY);
    }
}

/* The desk in C over the same table, each key set up afresh. */

static void gcrypt_fresh(const uint8_t *key, const uint8_t *seed, uint8_t *out) {
    struct input in = {key, seed, SEED};
    gcrypt_one_key(&in, out);
}

static void gcrypt_checked(const struct input *in, uint8_t *out) {
    const struct asked *a = asked_of(in);
    uint8_t *entry = entry_of(a->card), key[KEY], seed[SEED], string[STRING_OF_OPENING] = {0}, arqc[ANSWER];
    const uint8_t session[SEED] = {a->data[31], a->data[32], 0xf0};
    entry[COUNTED] = 0;
    card_seed(a->card, seed);
    gcrypt_fresh(in->key, seed, key);
    gcrypt_fresh(key, session, key);
    memcpy(string, a->data, OPENING);
    string[36] = (uint8_t)(0xa0 + string[36] % 16);
    string[OPENING] = 0x80;
    gcrypt_code_twice(key, string, arqc);
    must(memcmp(arqc, a->arqc, ANSWER) == 0, "ARQC");
    must(!entry[COUNTED] || memcmp(session, entry + COUNTED + 1, 2) > 0, "counter");
    entry[COUNTED] = 1;
    memcpy(entry + COUNTED + 1, session, 2);
    memset(string, 0, sizeof string);
    memcpy(string, arqc, ANSWER);
    memcpy(string + ANSWER, a->csu, CSU);
    string[16] = 0x80;
    gcrypt_code_twice(key, string, out);
}

static void gcrypt_scripted(const struct input *in, uint8_t *out) {
    const struct asked *a = asked_of(in);
    uint8_t smi[KEY], smc[KEY], seed[SEED], block[BLOCK] = {0x20 + PIN, 0, 0, 0xff, 0xff, 0xff, 0xff, 0xff};
    struct input message = {smi, block, DATA};
    entry_of(a->card);
    card_seed(a->card, seed);
    gcrypt_fresh(in->key, seed, smi);
    gcrypt_fresh(in->key + KEY, seed, smc);
    gcrypt_fresh(smi, a->arqc, smi);
    gcrypt_fresh(smc, a->arqc, smc);
    for (size_t i = 0; i < PIN; i++) {
        must(a->pin[i] <= 9, "PIN");
        block[1 + i / 2] = (uint8_t)(block[1 + i / 2] * 16 + a->pin[i]);
    }
    must(gcry_cipher_setkey(cipher, smc, KEY) == 0, "gcry_cipher_setkey");
    must(gcry_cipher_encrypt(cipher, block, BLOCK, NULL, 0) == 0, "gcry_cipher_encrypt");
    memcpy(out, HEADER, sizeof HEADER);
    gcrypt_message(&message, out + sizeof HEADER);
}

/* nettle */

static void nettle_derived(struct hmac_streebog256_ctx *context, const uint8_t *seed, uint8_t *out) {
    uint8_t string[STRING];
    derivation_string(string, seed);
    hmac_streebog256_update(context, STRING, string);
    hmac_streebog256_digest(context, KEY, out);
}

static void nettle_one_key(const struct input *in, uint8_t *out) {
    struct hmac_streebog256_ctx context;
    hmac_streebog256_set_key(&context, KEY, in->key);
    nettle_derived(&context, in->text, out);
}

/* The digest leaves the context as it was after the key. */
static void nettle_kept_key(const struct input *in, uint8_t *out) {
    struct hmac_streebog256_ctx context;
    hmac_streebog256_set_key(&context, KEY, in->key);
    for (size_t i = 0; i < KEPT; i++) nettle_derived(&context, in->text + i * SEED, out + i * KEY);
}

static void nettle_hash(const struct input *in, uint8_t *out) {
    struct streebog256_ctx context;
    streebog256_init(&context);
    streebog256_update(&context, in->length, in->text);
    streebog256_digest(&context, HASH, out);
}

/* The inputs */

static void fill(uint8_t *bytes, size_t length) {
    static uint64_t state = 20171219;
    while (length > 0) {
        state = state * 6364136223846793005u + 1442695040888963407u;
        bytes[--length] = (uint8_t)(state >> 40);
    }
}

static void start_gcrypt(void) {
    must(gcry_check_version(GCRYPT_VERSION) != NULL, "libgcrypt is older than its header");
    gcry_control(GCRYCTL_DISABLE_SECMEM, 0);
    gcry_control(GCRYCTL_INITIALIZATION_FINISHED, 0);
    must(gcry_md_open(&md, GCRY_MD_STRIBOG256, 0) == 0, "gcry_md_open");
    must(gcry_mac_open(&hmac, GCRY_MAC_HMAC_STRIBOG256, 0, NULL) == 0, "gcry_mac_open for HMAC");
    must(gcry_cipher_open(&cipher, GCRY_CIPHER_GOST28147, GCRY_CIPHER_MODE_ECB, 0) == 0, "gcry_cipher_open");
    must(gcry_cipher_ctl(cipher, GCRYCTL_SET_SBOX, (void *)SET_Z, 0) == 0, "substitution of the cipher");
    must(gcry_mac_open(&imit, GCRY_MAC_GOST28147_IMIT, 0, NULL) == 0, "gcry_mac_open");
    must(gcry_mac_ctl(imit, GCRYCTL_SET_SBOX, (void *)SET_Z, 0) == 0, "substitution of the code");
}

static void start_day(void) {
    fill(day, sizeof day);
    for (uint8_t *card = day; card < day + sizeof day; card += CARD) {
        for (size_t i = 1; i < CARD - 1; i++) card[i] %= 10;
        card[0] = (uint8_t)(12 + card[0] % 8);
        card[CARD - 1] %= 100;
    }
}

static void start_desk(size_t turn) {
    struct asked *a = &asked[turn];
    uint8_t key[KEY], session[KEY];
    uint16_t counter;
    fill((uint8_t *)a, sizeof *a);
    memcpy(a->card, day + turn * CARD, CARD);
    memset(a->card + 1 + a->card[0], 0, CARD - 2 - (size_t)a->card[0]);
    for (size_t i = 0; i < PIN; i++) a->pin[i] %= 10;
    counter = (uint16_t)(a->data[31] * 256 + a->data[32]);
    must(box_card_key(keys[turn], KEY, a->card + 1, a->card[0], a->card[CARD - 1], key, KEY) == 0, "box_card_key");
    must(box_session_key(key, KEY, counter, session, KEY) == 0, "box_session_key");
    must(box_cryptogram(session, KEY, 0x80, counter, a->data, OPENING, a->arqc, ANSWER) == 0, "box_cryptogram");
}

/* The cards that are asked for are added last: the others stand before them. */
static void start_table(void) {
    for (size_t i = BOX_DESK_CARDS; i-- > 0;) {
        const uint8_t *card = day + i * CARD;
        must(box_desk_add(held, sizeof held, card + 1, card[0], card[CARD - 1]) == 0, "box_desk_add");
    }
    for (size_t turn = 0; turn < TURNS; turn++) {
        start_desk(turn);
        entries[turn] = entry_of(asked[turn].card);
    }
}

static void start_changes(size_t turn) {
    uint8_t key[KEY], block[BLOCK];
    const uint8_t *pin = pool + turn * STRIDE;
    fill(changes[turn].cryptograms, sizeof changes[turn].cryptograms);
    for (size_t i = 0; i < KEPT; i++) {
        const uint8_t *cryptogram = changes[turn].cryptograms + i * SEED;
        must(box_script_key(keys[turn + 1], KEY, cryptogram, SEED, key, KEY) == 0, "box_script_key");
        must(box_encipher(key, KEY, pin, BLOCK, block, BLOCK) == 0, "box_encipher");
        must(box_script_key(keys[turn], KEY, cryptogram, SEED, key, KEY) == 0, "box_script_key");
        must(box_wrap(key, KEY, HEADER, sizeof HEADER, TAG, block, BLOCK, changes[turn].messages[i], MESSAGE, 0) == 0, "box_wrap");
    }
}

void rows_start(void) {
    start_gcrypt();
    fill(pool, sizeof pool);
    fill(keys[0], sizeof keys);
    start_day();
    for (size_t i = 0; i < KEPT; i++) {
        counters[i * SEED] = (uint8_t)((i + 1) >> 8);
        counters[i * SEED + 1] = (uint8_t)(i + 1);
        counters[i * SEED + 2] = 0xf0;
    }
    for (size_t turn = 0; turn < TURNS; turn++) start_changes(turn);
    for (size_t turn = 0; turn < TURNS; turn++) {
        struct input in = {keys[turn], pool + turn * STRIDE, DATA};
        box_message(&in, messages[turn]);
    }
    start_table();
    start_states();
}

struct input row_input(const struct row *row, size_t turn) {
    struct input in = {keys[turn], pool + turn * STRIDE, row->length};
    if (row->by[BOX] == box_opened) in.text = messages[turn];
    if (row->by[BOX] == box_change) in.text = changes[turn].cryptograms;
    if (row->by[BOX] == box_day) in.text = day;
    if (row->by[BOX] == box_checked || row->by[BOX] == box_scripted) in.text = asked[turn].card;
    return in;
}

#define HASH_OF(n) {"hash of " #n " bytes", "the whole hash", n, HASH, 1, {box_hash, gcrypt_hash, nettle_hash}}
#define WHOLE(name, counted, length, box, gcrypt) {name, counted, length, KEPT * ANSWER, KEPT, {box, gcrypt, NULL}}
#define CODE_OF(n) {"code of " #n " bytes", "key set-up, the code", n, CODE, 1, {box_string, gcrypt_string, NULL}}

const struct row rows[] = {
    {"key derived, fresh key", "key set-up, one HMAC", SEED, KEY, 1, {box_one_key, gcrypt_one_key, nettle_one_key}},
    {"key derived, kept key", "one HMAC; key set-up once in 256", KEPT * SEED, KEPT * KEY, KEPT, {box_kept_key, gcrypt_kept_key, nettle_kept_key}},
    HASH_OF(16),
    HASH_OF(64),
    HASH_OF(1024),
    HASH_OF(8192),
    HASH_OF(65536),
    {"encipher a block", "key set-up, one block", BLOCK, BLOCK, 1, {box_block, gcrypt_block, NULL}},
    CODE_OF(72),
    CODE_OF(272),
    {"wrap 8 bytes", "key set-up, code of 272 bytes, the message", DATA, MESSAGE, 1, {box_message, gcrypt_message, NULL}},
    {"open a message of 8 bytes", "key set-up, shape, code of 272 bytes", MESSAGE, 3, 1, {box_opened, gcrypt_opened, NULL}},
    WHOLE("Open", "session key under a kept key, cryptogram", OPENING, box_opening, gcrypt_opening),
    WHOLE("issuer's answer", "session key under a kept key, ARPC", ANSWER + CSU, box_answer, gcrypt_answer),
    WHOLE("PIN change, checked and deciphered", "two session keys under kept keys, code of 272 bytes, block", sizeof changes[0], box_change, gcrypt_change),
    {"a day's cards, each of 10000", "one set-up; seed and key of each card", sizeof day, CARDS * KEY, CARDS, {box_day, gcrypt_day, NULL}},
    {"desk: ARQC checked, ARPC", "64 cards; two keys under fresh ones, two codes of 72 bytes", CARD, ANSWER, 1, {box_checked, gcrypt_checked, NULL}},
    {"desk: PIN script wrapped", "64 cards; four keys under fresh ones, block, code of 272 bytes", CARD, SCRIPT, 1, {box_scripted, gcrypt_scripted, NULL}},
};

const size_t row_count = sizeof rows / sizeof rows[0];

#define AT_ONCE(name, length, fed, whole) {name " of 65536 bytes", "fed at once; whole", LARGEST_TEXT, length, 1, {fed, whole, NULL}}
#define BYTEWISE(name) {#name ", each of 1024 bytes", "fed one by one after 16 MiB; after none", 1024, 0, 1024, {name##_late, name##_fresh, NULL}}

const struct row pairs[] = {
    AT_ONCE("hash", HASH, fed_hash, box_hash),
    AT_ONCE("HMAC", HASH, fed_hmac, whole_hmac),
    AT_ONCE("code", CODE, fed_code, box_string),
    BYTEWISE(hash),
    BYTEWISE(hmac),
    BYTEWISE(code),
};

const size_t pair_count = sizeof pairs / sizeof pairs[0];
