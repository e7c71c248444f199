/* What libgcrypt says of random inputs, as lines that tests/calls.c and the second program check:  judge SEED ROUNDS
 * Its cipher and code take the substitution set id-tc26-gost-28147-param-Z. Strings for the code have 2 blocks up to 1,024 bytes: libgcrypt adds a
 * zero block to a single one, and past 1,024 bytes other programs change the key. */
#include <gcrypt.h>
#include <stdint.h>
#include <stdio.h>
#include <stdlib.h>

static const char SET_Z[] = "1.2.643.7.1.2.5.1.1";
static uint64_t state;

static void need(gcry_error_t error, const char *what) {
    if (error == 0) return;
    fprintf(stderr, "judge: %s: %s\n", what, gcry_strerror(error));
    exit(2);
}

static uint32_t any(void) {
    state = state * 6364136223846793005u + 1442695040888963407u;
    return (uint32_t)(state >> 33);
}

static void fill(uint8_t *bytes, size_t length) {
    while (length > 0) bytes[--length] = (uint8_t)any();
}

static void word(const uint8_t *bytes, size_t length) {
    size_t i;
    printf(length == 0 ? " -" : " ");
    for (i = 0; i < length; i++) printf("%02x", bytes[i]);
}

/* Name, number 0, the inputs, and the output before (zeros) and after. */
static void line(const char *name, const uint8_t *key, const uint8_t *text, size_t length, const uint8_t *out, size_t out_length) {
    static const uint8_t zeros[32];
    printf("%s 0", name);
    if (key != NULL) word(key, 32);
    word(text, length);
    word(zeros, out_length);
    word(out, out_length);
    printf("\n");
}

static void blocks(const uint8_t *key) {
    gcry_cipher_hd_t cipher;
    uint8_t in[8], out[8];
    need(gcry_cipher_open(&cipher, GCRY_CIPHER_GOST28147, GCRY_CIPHER_MODE_ECB, 0), "cipher");
    need(gcry_cipher_ctl(cipher, GCRYCTL_SET_SBOX, (void *)SET_Z, 0), "substitution set");
    need(gcry_cipher_setkey(cipher, key, 32), "key");
    fill(in, 8);
    need(gcry_cipher_encrypt(cipher, out, 8, in, 8), "encipher");
    line("box_encipher", key, in, 8, out, 8);
    need(gcry_cipher_decrypt(cipher, out, 8, in, 8), "decipher");
    line("box_decipher", key, in, 8, out, 8);
    gcry_cipher_close(cipher);
}

static void authenticate(int algorithm, const uint8_t *key, const uint8_t *text, size_t length, uint8_t *out, size_t out_length) {
    gcry_mac_hd_t mac;
    size_t written = out_length;
    need(gcry_mac_open(&mac, algorithm, 0, NULL), "mac");
    if (algorithm == GCRY_MAC_GOST28147_IMIT) need(gcry_mac_ctl(mac, GCRYCTL_SET_SBOX, (void *)SET_Z, 0), "substitution set");
    need(gcry_mac_setkey(mac, key, 32), "key");
    need(gcry_mac_write(mac, text, length), "write");
    need(gcry_mac_read(mac, out, &written), "read");
    if (written != out_length) need(gcry_error(GPG_ERR_INV_LENGTH), "length");
    gcry_mac_close(mac);
}

static void code(const uint8_t *key) {
    uint8_t text[1024], out[4];
    size_t length = 8 * (2 + any() % 127);
    fill(text, length);
    authenticate(GCRY_MAC_GOST28147_IMIT, key, text, length, out, 4);
    line("box_code", key, text, length, out, 4);
}

static void hashes(const uint8_t *key) {
    uint8_t text[400], out[32];
    size_t length = any() % 4 == 0 ? 64 * (any() % 4) + any() % 2 : any() % sizeof text;
    fill(text, length);
    gcry_md_hash_buffer(GCRY_MD_STRIBOG256, out, text, length);
    line("hash", NULL, text, length, out, 32);
    gcry_md_hash_buffer(GCRY_MD_STRIBOG256, out, key, 32);
    line("box_counter_key", NULL, key, 32, out, 32);
    authenticate(GCRY_MAC_HMAC_STRIBOG256, key, text, length, out, 32);
    line("hmac", key, text, length, out, 32);
}

/* The derivation is HMAC of 01, label, 00, seed, 01, 00. */
static void derive(const uint8_t *key) {
    uint8_t text[16] = {0x01, 0x21, 0x07, 0x22, 0xe6, 0x00}, out[32];
    fill(text + 6, 8);
    text[14] = 0x01;
    text[15] = 0x00;
    authenticate(GCRY_MAC_HMAC_STRIBOG256, key, text, 16, out, 32);
    line("box_derive", key, text + 6, 8, out, 32);
}

int main(int argc, char **argv) {
    unsigned long rounds;
    if (argc != 3 || gcry_check_version(NULL) == NULL) {
        fprintf(stderr, "usage: judge SEED ROUNDS\n");
        return 2;
    }
    gcry_control(GCRYCTL_DISABLE_SECMEM, 0);
    gcry_control(GCRYCTL_INITIALIZATION_FINISHED, 0);
    state = strtoull(argv[1], NULL, 10);
    for (rounds = strtoul(argv[2], NULL, 10); rounds > 0; rounds--) {
        uint8_t key[32];
        fill(key, 32);
        blocks(key);
        code(key);
        hashes(key);
        derive(key);
    }
    return 0;
}
