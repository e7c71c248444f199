/* What the tests of the desk need of the library beside the program:
 *    desk-test seal <BYTES >TABLE                            a table's bytes and their hash, also where no desk would write such a table
 *    desk-test arqcs KEY WAY CARD SEQUENCE DATA FIRST COUNT  of each counter from the first on: the data with it, the ARQC, and the ARPC for the
 *                                                            CSU 00820000; WAY is pairs or packed, KEY the issuer's for cryptograms */
#define PROGRAM "desk-test"
enum { MISUSED = 2, FAILED = 3 };
#include "../host/words.h"

#include <stdlib.h>

enum { KEY = 32, DATA = 65, ANSWER = 8, COUNTER = 31, HASH = 32 };

static int seal(void) {
    uint8_t state[BOX_HASH_STATE], part[4096], hash[HASH], r;
    size_t n;
    r = box_hash_begin(state, sizeof state);
    while (r == 0 && (n = fread(part, 1, sizeof part, stdin)) > 0) {
        r = box_hash_feed(state, sizeof state, part, n);
        fwrite(part, 1, n, stdout);
    }
    if (r == 0) r = box_hash_end(state, sizeof state, hash, sizeof hash);
    if (r != 0) return refused(r);
    fwrite(hash, 1, sizeof hash, stdout);
    return 0;
}

static uint8_t one(const uint8_t *card_key, uint16_t counter, uint8_t *data) {
    static const uint8_t csu[4] = {0x00, 0x82, 0x00, 0x00};
    uint8_t key[KEY], arqc[ANSWER], arpc[ANSWER], r;
    data[COUNTER] = (uint8_t)(counter >> 8);
    data[COUNTER + 1] = (uint8_t)counter;
    r = box_session_key(card_key, KEY, counter, key, KEY);
    if (r == 0) r = box_cryptogram(key, KEY, 0x80, counter, data, DATA, arqc, ANSWER);
    if (r == 0) r = box_arpc(key, KEY, arqc, ANSWER, csu, sizeof csu, arpc, ANSWER);
    if (r != 0) return r;
    for (r = 0; r < DATA; r++) printf("%02x", data[r]);
    putchar(' ');
    for (r = 0; r < ANSWER; r++) printf("%02x", arqc[r]);
    print("", arpc, ANSWER);
    return 0;
}

static int arqcs(char **word) {
    struct bytes issuer, card, data;
    uint8_t key[KEY], sequence, r;
    long counter, end;
    if (hexadecimal(word[0], &issuer) || decimal(word[2], &card) || number(word[3], &sequence) || hexadecimal(word[4], &data)) return MISUSED;
    r = strcmp(word[1], "packed") == 0 ? box_card_key_packed(issuer.at, issuer.length, card.at, card.length, sequence, key, KEY)
                                       : box_card_key(issuer.at, issuer.length, card.at, card.length, sequence, key, KEY);
    if (r == 0 && data.length != DATA) r = BOX_INPUT;
    counter = strtol(word[5], NULL, 0);
    for (end = counter + strtol(word[6], NULL, 0); r == 0 && counter < end; counter++) r = one(key, (uint16_t)counter, data.at);
    return r == 0 ? 0 : refused(r);
}

int main(int argc, char **argv) {
    if (argc == 2 && strcmp(argv[1], "seal") == 0) return ended(seal());
    if (argc == 9 && strcmp(argv[1], "arqcs") == 0) return ended(arqcs(argv + 2));
    return misused("seal, or arqcs KEY WAY CARD SEQUENCE DATA FIRST COUNT");
}
