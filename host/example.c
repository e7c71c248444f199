/* The script that changes a PIN, from the issuer's keys to the message: the shortest use of the library. After `make host`:
 *    gcc -Iinclude host/example.c target/staticlib/libexports.a -o target/bin/example && tools/run example
 * (where the machine is no x86-64: x86_64-linux-gnu-gcc). Issuer keys, card and PIN are those of the first examples of R 1323565.1.010 and 008, whose
 * master keys come of packed card digits: the enciphered PIN in the message is the published 9073bb4f8f08f916. A bank whose host takes pair
 * numbers calls box_card_key instead. */
#include "box.h"

#include <stdio.h>

int main(void) {
    const uint8_t pan[18] = {1, 2, 3, 4, 5, 6, 7, 8, 9, 0, 1, 2, 3, 4, 5, 6, 7, 1}, sequence = 95;
    const uint8_t cryptogram[8] = {0x9f, 0x64, 0x23, 0x5a, 0x71, 0xdd, 0xee, 0x5b};
    const uint8_t pin[7] = {1, 2, 3, 4, 5, 6, 7};
    const uint8_t header[4] = {0x84, 0x24, 0x00, 0x02};
    uint8_t issuer_smi[32], issuer_smc[32], master_smi[32], master_smc[32], smi[32], smc[32], block[8], data[8], message[16], r;
    size_t i;
    for (i = 0; i < 32; i++) issuer_smi[i] = issuer_smc[i] = (uint8_t)i;
    issuer_smi[31] = 0x12;
    issuer_smc[31] = 0x13;
    r = box_card_key_packed(issuer_smi, 32, pan, sizeof pan, sequence, master_smi, 32);
    if (r == 0) r = box_card_key_packed(issuer_smc, 32, pan, sizeof pan, sequence, master_smc, 32);
    if (r == 0) r = box_script_key(master_smi, 32, cryptogram, 8, smi, 32);
    if (r == 0) r = box_script_key(master_smc, 32, cryptogram, 8, smc, 32);
    if (r == 0) r = box_write_pin(pin, sizeof pin, block, 8);
    if (r == 0) r = box_encipher(smc, 32, block, 8, data, 8);
    if (r == 0) r = box_wrap(smi, 32, header, 4, 0x87, data, 8, message, sizeof message, 0);
    if (r != 0) {
        fprintf(stderr, "refusal %u\n", (unsigned)r);
        return 1;
    }
    for (i = 0; i < sizeof message; i++) printf("%02x", (unsigned)message[i]);
    putchar('\n');
    return 0;
}
