/* The numbered refusals, and this is their one list: number, name, and words for people. A row is one line, by rising numbers.
 *
 * box.h includes it, so a caller in C has the names and box_words(); host/box.c says these words. tools/refusals prints the rows for scripts:
 * tools/show and the tests have them from there. The second program has its own list, from the papers; tests/refusals holds it to this one.
 */
#ifndef BOX_REFUSALS_H
#define BOX_REFUSALS_H

#define BOX_REFUSALS(ROW) \
    ROW(1, BOX_INPUT, "an input has not the length or range stated") \
    ROW(2, BOX_CARD_NUMBER, "the card number is not 12 to 19 digits, or the sequence number is above 99") \
    ROW(3, BOX_NO_ROOM, "the output does not fit from the named place") \
    ROW(4, BOX_SHAPE_WRONG, "the shape of the message is wrong") \
    ROW(5, BOX_NOT_LISTED, "header, tag and length are of no listed command") \
    ROW(6, BOX_PHASE_WRONG, "not a call of this phase, or no record yet") \
    ROW(7, BOX_COUNTER_FULL, "a counter stands at 65535") \
    ROW(8, BOX_CODE_DIFFERS, "the code of the message differs") \
    ROW(9, BOX_PIN_FORMAT, "the format of the PIN block is wrong") \
    ROW(10, BOX_SPOILT_CLOSED, "the transaction was spoilt, and nothing of it is kept") \
    ROW(11, BOX_ARPC_DIFFERS, "the ARPC differs") \
    ROW(12, BOX_PIN_DIGITS, "the PIN is not 4 to 12 digits") \
    ROW(13, BOX_UNREADABLE, "the line cannot be read") \
    ROW(14, BOX_WRONG_PIN, "the PIN is not the kept one") \
    ROW(15, BOX_NO_TRIES, "no tries are left for a PIN") \
    ROW(16, BOX_BAD_OBJECT, "an object is out of place, of a wrong length or past its holder's end, or there is none") \
    ROW(17, BOX_TOO_DEEP, "an object stands deeper than four levels") \
    ROW(18, BOX_TOO_MANY, "there are more than 32 objects") \
    ROW(19, BOX_UNKNOWN_CARD, "the desk does not hold this card") \
    ROW(20, BOX_ALREADY_HELD, "the desk already holds this card") \
    ROW(21, BOX_TABLE_FULL, "the desk holds 64 cards, and has no room for another") \
    ROW(22, BOX_ARQC_DIFFERS, "the ARQC differs") \
    ROW(23, BOX_COUNTER_NOT_ABOVE, "the transaction counter is not above the last one of this card")

#define BOX_NAMED(number, name, words) name = number,
enum box_refusal {
    BOX_ACCEPTED = 0,
    BOX_REFUSALS(BOX_NAMED)
    BOX_REFUSALS_END /* one above the greatest number */
};
#undef BOX_NAMED

/* What a function's number says, for people. */
#define BOX_SAID(number, name, words) case name: return words;
static inline const char *box_words(unsigned number) {
    switch (number) {
    case BOX_ACCEPTED: return "accepted";
    BOX_REFUSALS(BOX_SAID)
    default: return "a refusal that is not listed";
    }
}
#undef BOX_SAID

#endif
