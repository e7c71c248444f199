/* The box: keys, codes, hashes, PIN blocks, cryptograms, script messages and script templates of the Mir scheme, and an issuer's desk over them, for C
 * and C++.
 *
 * Every function returns the number of its refusal, and 0 where it accepts; refusals.h has the numbers with their names and words (box_words).
 * Where several would hold, the first in the order that the function's comment gives is returned. A digit above 9 is no digit: 2, and 12.
 *
 * A byte string is a pointer and a length. The pointer may be null only where the length is 0. An output is lent by the caller, has exactly
 * the length stated, and does not overlap an input. A refusal leaves every lent byte as it was. No function keeps a pointer, allocates,
 * or reads or writes anything else, so all may be called from several threads at once. A number is checked as the type it is passed in: C
 * makes 5 of the int 261 before a function with a uint8_t sees it.
 *
 * The script that changes a PIN, from the issuer's master keys for SMI and SMC, the card, and the cryptogram of the transaction:
 *    box_card_key (issuer's key for SMI, card)      MK_SMI
 *    box_card_key (issuer's key for SMC, card)      MK_SMC
 *    box_script_key (MK_SMI, cryptogram)            SK_SMI
 *    box_script_key (MK_SMC, cryptogram)            SK_SMC
 *    box_write_pin (digits)                         the PIN block
 *    box_encipher (SK_SMC, PIN block)               the enciphered PIN block, 8 bytes
 *    box_wrap (SK_SMI, header 84 24 00 02, tag 0x87, the 8 bytes)        the message, 16 bytes
 * host/example.c is this, whole. Blocking the card is header 84 1e 00 00 and tag 0x81 with no data, unblocking it 84 18 00 00: host/box.c.
 *
 * To compile, link and start on x86-64, after `make host` (elsewhere with x86_64-linux-gnu-gcc; tools/run starts what stands in target/bin):
 *    gcc -Iinclude program.c target/staticlib/libexports.a -o target/bin/program && tools/run program
 */
#ifndef BOX_H
#define BOX_H

#include "refusals.h"

#include <stddef.h>
#include <stdint.h>

#ifdef __cplusplus
extern "C" {
#endif

/* A block of 8 bytes enciphered (GOST 28147-89, simple replacement) under a key of 32. out: 8. Refusal 1. */
uint8_t box_encipher(const uint8_t *key, size_t key_length, const uint8_t *block, size_t block_length, uint8_t *out, size_t out_length);

/* A block of 8 bytes deciphered under a key of 32. out: 8. Refusal 1. */
uint8_t box_decipher(const uint8_t *key, size_t key_length, const uint8_t *block, size_t block_length, uint8_t *out, size_t out_length);

/* The authentication code of a string of one or more whole blocks of 8 bytes, under a key of 32. out: 4. Refusal 1. */
uint8_t box_code(const uint8_t *key, size_t key_length, const uint8_t *string, size_t string_length, uint8_t *out, size_t out_length);

/* The key derived from a key of 32 bytes and a seed of 8, under the label of card keys. out: 32. Refusal 1. */
uint8_t box_derive(const uint8_t *key, size_t key_length, const uint8_t *seed, size_t seed_length, uint8_t *out, size_t out_length);

/* The card master key of an issuer master key of 32 bytes, a card number (one digit a byte, the values 0 to 9 and not characters) and a
 * sequence number (0: none). The seed is made of the last sixteen digits of card number and sequence number, with zero digits before
 * them where there are fewer (card numbers of 12 and 13 digits; EMV Book 2, option A). Each pair of digits is one byte of it, its number
 * 0 to 99. out: 32. Refusals 1, 2. */
uint8_t box_card_key(const uint8_t *issuer, size_t issuer_length, const uint8_t *pan, size_t pan_length, uint8_t sequence,
                     uint8_t *out, size_t out_length);

/* The same with the card digits as packed decimal, for a bank whose host packs them: another key for the same card, and the reading by which
 * the master keys published in R 1323565.1.010 come out (docs/DECISIONS.md, Card digits, 1). out: 32. Refusals 1, 2. */
uint8_t box_card_key_packed(const uint8_t *issuer, size_t issuer_length, const uint8_t *pan, size_t pan_length, uint8_t sequence,
                            uint8_t *out, size_t out_length);

/* The card master keys of many cards under one issuer master key of 32 bytes, as box_card_key makes each: the issuer's key is set up once for
 * all. A card is 21 bytes: the number of digits of its card number, nineteen places for them (the values 0 to 9 and not characters; those
 * after the digits may hold anything) and the sequence number (0: none). cards_length is a multiple of 21, and 0 is one. out: 32 bytes a
 * card, in the cards' order. Refusals 1, 2; 2 where any card is wrong, and then no key is written. */
uint8_t box_card_keys(const uint8_t *issuer, size_t issuer_length, const uint8_t *cards, size_t cards_length, uint8_t *out, size_t out_length);

/* The session key for cryptograms, from the master key AC of 32 bytes and the transaction counter. out: 32. Refusal 1. */
uint8_t box_session_key(const uint8_t *master, size_t master_length, uint16_t counter, uint8_t *out, size_t out_length);

/* The session key for scripts, from the master key SMI or SMC of 32 bytes and the cryptogram of 8. out: 32. Refusal 1. */
uint8_t box_script_key(const uint8_t *master, size_t master_length, const uint8_t *cryptogram, size_t cryptogram_length, uint8_t *out, size_t out_length);

/* The key for counter blocks, from the session key for cryptograms of 32 bytes. out: 32. Refusal 1. */
uint8_t box_counter_key(const uint8_t *session, size_t session_length, uint8_t *out, size_t out_length);

/* The IDN of out_length bytes, 2 to 8, from the IDN key of 32 bytes and the transaction counter. Refusal 1. */
uint8_t box_idn(const uint8_t *key, size_t key_length, uint16_t counter, uint8_t *out, size_t out_length);

/* A PIN block in clear: pin has 4 to 12 digits, one a byte, the values 0 to 9 and not characters. out: 8. Refusals 1 (out), 12. */
uint8_t box_write_pin(const uint8_t *pin, size_t pin_length, uint8_t *out, size_t out_length);

/* A PIN block in clear, of 8 bytes, taken apart. out: 13, the number of digits and then twelve places, zeros after the digits. Refusals 1, 9. */
uint8_t box_read_pin(const uint8_t *block, size_t block_length, uint8_t *out, size_t out_length);

/* The cryptogram of the 65 data bytes, under the session key for cryptograms of 32 bytes. kind is 0x80 for ARQC, 0x40 for TC, 0x00 for AAC; the
 * counter is written into the data at offsets 31 and 32, the kind into the upper half of offset 36. out: 8. Refusal 1. */
uint8_t box_cryptogram(const uint8_t *key, size_t key_length, uint8_t kind, uint16_t counter, const uint8_t *data, size_t data_length,
                       uint8_t *out, size_t out_length);

/* The issuer's answer to a cryptogram of 8 bytes with a CSU of 4, under the session key for cryptograms of 32. out: 8. Refusal 1. */
uint8_t box_arpc(const uint8_t *key, size_t key_length, const uint8_t *cryptogram, size_t cryptogram_length, const uint8_t *csu,
                 size_t csu_length, uint8_t *out, size_t out_length);

/* A script message under the SMI session key of 32 bytes and the command's header of 4 (class, instruction, two parameters): tag 0x87 for
 * enciphered data or 0x81 for clear, up to 255 data bytes as given. It is written into the buffer from the place on; every other byte of
 * the buffer stays. Its size is data_length + 8 up to 127 data bytes, whose length takes one byte, and data_length + 9 from 128 on, whose
 * length takes two, 81 first: 264 at most. The function does not return it. Refusals 1 (more than 255 data bytes too), 3. */
uint8_t box_wrap(const uint8_t *key, size_t key_length, const uint8_t *header, size_t header_length, uint8_t tag, const uint8_t *data,
                 size_t data_length, uint8_t *buffer, size_t buffer_length, size_t place);

/* A script message, with nothing after it, opened under the SMI session key of 32 bytes and the header of 4. found: 3, the tag, the place of the
 * data in the message (2, or 3 where there are 128 and more) and their length (0 to 255), one byte each. A length in any other form than
 * that of box_wrap is a wrong shape. Refusals 1, 4, 8. */
uint8_t box_open(const uint8_t *key, size_t key_length, const uint8_t *header, size_t header_length, const uint8_t *message,
                 size_t message_length, uint8_t *found, size_t found_length);

/* Script templates, in which hosts send scripts: 71 and 72 hold an identifier (9f18, 4 bytes) at most once and first, then any number of commands (86);
 * e1 holds any number of 71, 72 and e1, and so does the whole, but at least one. Templates and 86 may be empty. A length is one byte up to 127 and
 * two from 128 to 255, 81 first; no other form is read. There are four levels, counted from 1 at the top, and 32 objects at most.
 *
 * An object is 10 bytes, each number highest byte first: its tag (2: 0071, 0072, 00e1, 0086 or 9f18), its level (2), the length of its data (2) and their
 * place (4); the data of a template are the objects in it, which follow it. */
enum { BOX_TEMPLATE_OBJECT = 10, BOX_TEMPLATE_OBJECTS = 320, BOX_TEMPLATE_PLACE = 4, BOX_TEMPLATE_SIZE = 4 };

/* The objects of an input in order, their places counted from its start. objects: BOX_TEMPLATE_OBJECTS, of which those after the last object are zeros:
 * a tag never is. Refusals 1 (the length of objects), and then the refusal of the first object at fault in byte order, by its first byte: 16 (a tag out of
 * place, a length in another form, an end past its holder's, a 9f18 of another length than 4; or the input is empty), 17, 18. */
uint8_t box_read_templates(const uint8_t *input, size_t input_length, uint8_t *objects, size_t objects_length);

/* Where the first object at fault begins, if box_read_templates refuses the input with 16, 17 or 18; 0 for an empty one. place: BOX_TEMPLATE_PLACE, the place
 * from the start of the input, highest byte first. Refusal 1 (nothing is at fault, or the length of place). */
uint8_t box_templates_fault(const uint8_t *input, size_t input_length, uint8_t *place, size_t place_length);

/* The bytes of objects, any number of 10 bytes, written into the buffer from the place on; every other byte of the buffer stays. The data of 86 and
 * 9f18 lie in the source; of a template only tag and level are looked at, and its length is computed. size: BOX_TEMPLATE_SIZE, the number of bytes
 * written, highest byte first. The objects that box_read_templates gave, up to the last and without the zeros after it, with its input as the source, are
 * written as that input.
 * Refusals 1 (objects are not whole ones, the length of size, or data of any 86 or 9f18 outside the source or above 255 bytes), then of the first object at
 * fault in order 16 (its tag; its level, 0 or deeper than the templates open at that point; a 9f18 of another length than 4; a template that would hold
 * more than 255 bytes, counting all that follows it at deeper levels, whatever it is; or there are no objects), 17, 18, and at last 3. */
uint8_t box_write_templates(const uint8_t *objects, size_t objects_length, const uint8_t *source, size_t source_length, uint8_t *buffer,
                            size_t buffer_length, size_t place, uint8_t *size, size_t size_length);

/* The issuer's desk: which cards it holds, by number and sequence number, each with its last transaction counter; 64 at most. What it keeps is a
 * table of BOX_DESK_TABLE bytes, which the caller lends and may store as it is: it holds no key. The issuer's master keys are lent beside it.
 *
 * An entry of the table is BOX_DESK_ENTRY bytes: 1 where it holds a card (0: free), the number of digits, nineteen places for them with
 * zeros after the last, the sequence number, 1 where there is a last counter (0: none yet), and that counter, highest byte first. Zeros alone are a
 * table without a card. Any bytes are answered: another number than 0 in place of a 1 is read as 1, and digits of no card number are those of no card that
 * could be asked for: it takes room, and nothing forgets it. A table that holds a card twice is answered by its first entry, what is kept or forgotten of that
 * card is so in both, and 21 may come with fewer than 64 cards. An accepted add, forget or check writes all entries anew, each such mark as 0 or 1 and every
 * other byte as it was; a forgotten card leaves 25 zeros.
 *
 * A card is its number (one digit a byte) and its sequence number (0: none). Which way card digits are taken a desk says once for all its
 * cards: BOX_DESK_PAIRS as box_card_key takes them, BOX_DESK_PACKED as box_card_key_packed does.
 * A refusal leaves the table and every other lent byte as it was. */
enum { BOX_DESK_CARDS = 64, BOX_DESK_ENTRY = 25, BOX_DESK_TABLE = 1600, BOX_DESK_PAIRS = 0, BOX_DESK_PACKED = 1 };

/* The card is held from now on, and has no last counter. Refusals 1 (the table's length), 2, 20, 21. */
uint8_t box_desk_add(uint8_t *table, size_t table_length, const uint8_t *pan, size_t pan_length, uint8_t sequence);

/* The card is no longer held, and its room is free. Refusals 1 (the table's length), 2, 19. */
uint8_t box_desk_forget(uint8_t *table, size_t table_length, const uint8_t *pan, size_t pan_length, uint8_t sequence);

/* An ARQC checked: it has to be that of the card's key for cryptograms, of the 65 bytes of data and of the counter in them (their bytes 31 and 32; the
 * upper half of byte 36 is taken as 1010 whatever it is), and the counter has to be above the card's last one, if it has one. Then the counter
 * is kept as the last one, and the ARPC for the CSU given. issuer: the issuer master key for cryptograms, 32; arqc: 8; csu: 4; arpc: 8.
 * Refusals 1 (a length, or digits is neither of the two), 2, 19, 22, 23. */
uint8_t box_desk_check(uint8_t *table, size_t table_length, const uint8_t *issuer, size_t issuer_length, uint8_t digits, const uint8_t *pan,
                       size_t pan_length, uint8_t sequence, const uint8_t *data, size_t data_length, const uint8_t *arqc, size_t arqc_length,
                       const uint8_t *csu, size_t csu_length, uint8_t *arpc, size_t arpc_length);

/* A script for a held card under the cryptogram of its transaction (8 bytes): at the place of the buffer the 4 bytes of the header, and then the
 * message; every other byte of the buffer stays. The instruction is the command: BOX_DESK_PIN (20 bytes are written; the PIN is one digit a
 * byte), BOX_DESK_BLOCK or BOX_DESK_UNBLOCK (12 bytes; the PIN is not looked at). smi, smc: the issuer master keys for SMI and SMC, 32 each.
 * Refusals 1 (a length, another instruction, or digits is neither of the two), 2, 19, 12, 3. */
enum { BOX_DESK_PIN = 0x24, BOX_DESK_BLOCK = 0x1e, BOX_DESK_UNBLOCK = 0x18 };
uint8_t box_desk_wrap(const uint8_t *table, size_t table_length, const uint8_t *smi, size_t smi_length, const uint8_t *smc, size_t smc_length,
                      uint8_t digits, const uint8_t *pan, size_t pan_length, uint8_t sequence, uint8_t instruction, const uint8_t *cryptogram,
                      size_t cryptogram_length, const uint8_t *pin, size_t pin_length, uint8_t *buffer, size_t buffer_length, size_t place);

/* A message that comes in parts: the hash (GOST R 34.11-2012 with 256 bits), HMAC with it under a key of 32 bytes, and the code of box_code, each begun,
 * fed with parts of any length, also none, and ended. Cut any way, the answer is that of the whole.
 *
 * The state lies in bytes that the caller lends, so many as the three numbers say, at any address. Any bytes of that number are a state: one may
 * be copied, moved and gone on from twice. It is as secret as the key and the message that it is made of: clear it when it has served.
 * A refusal leaves the state as it was, and it can be fed on; an end does not change it. The state does not overlap a part.
 *    uint8_t state[BOX_HASH_STATE];
 *    box_hash_begin(state, sizeof state);
 *    while ((n = bytes that arrived) > 0) box_hash_feed(state, sizeof state, bytes, n);
 *    box_hash_end(state, sizeof state, out, 32); */
enum { BOX_HASH_STATE = 261, BOX_HMAC_STATE = 522, BOX_CODE_STATE = 53 };

/* No bytes so far. Refusal 1 (the state's length, or the key's). */
uint8_t box_hash_begin(uint8_t *state, size_t state_length);
uint8_t box_hmac_begin(const uint8_t *key, size_t key_length, uint8_t *state, size_t state_length);
uint8_t box_code_begin(const uint8_t *key, size_t key_length, uint8_t *state, size_t state_length);

/* One part more. The total may come to 4,294,967,295 bytes; a key's block is not counted. Refusal 1 (the state's length, or the total). */
uint8_t box_hash_feed(uint8_t *state, size_t state_length, const uint8_t *part, size_t part_length);
uint8_t box_hmac_feed(uint8_t *state, size_t state_length, const uint8_t *part, size_t part_length);
uint8_t box_code_feed(uint8_t *state, size_t state_length, const uint8_t *part, size_t part_length);

/* The answer to all the bytes fed. out: 32, 32 and 4. Refusal 1 (a length; for the code also no whole block, or bytes after the last one). */
uint8_t box_hash_end(const uint8_t *state, size_t state_length, uint8_t *out, size_t out_length);
uint8_t box_hmac_end(const uint8_t *state, size_t state_length, uint8_t *out, size_t out_length);
uint8_t box_code_end(const uint8_t *state, size_t state_length, uint8_t *out, size_t out_length);

#ifdef __cplusplus
}
#endif

#endif
