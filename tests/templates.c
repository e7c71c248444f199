/* Answers calls of the functions for script templates, one a line of standard input, through the library: second/src/template_cases.rs has the form
 * of a line and of an answer. Every lent string lies between canaries, and inputs are compared with a copy (lent.h). */
#include "box.h"

#define PROGRAM "templates-test"
#include "lent.h"

static struct room first, second, third;

/* What objects are after the call, without those at the end that are zeros. */
static void after_objects(const struct room *room) {
    size_t length = room->length;
    if (as_it_was(room)) {
        after(room);
        return;
    }
    canaries(room);
    while (length > 0 && room->at[length - 1] == 0) length--;
    length += (BOX_TEMPLATE_OBJECT - length % BOX_TEMPLATE_OBJECT) % BOX_TEMPLATE_OBJECT;
    word(room->at, length > room->length ? room->length : length);
}

/* INPUT OBJECTS PLACE */
static void reading(char **words) {
    give(&first, words[1]);
    lend(&second, number_of(words[2]));
    lend(&third, number_of(words[3]));
    printf("%u", box_read_templates(first.at, first.length, second.at, second.length));
    after_objects(&second);
    given_back(&first);
    printf(" %u", box_templates_fault(first.at, first.length, third.at, third.length));
    after(&third);
    given_back(&first);
    putchar('\n');
}

/* OBJECTS SOURCE BUFFER PLACE SIZE */
static void writing(char **words) {
    static struct room fourth;
    give(&first, words[1]);
    give(&second, words[2]);
    lend(&third, number_of(words[3]));
    lend(&fourth, number_of(words[5]));
    printf("%u", box_write_templates(first.at, first.length, second.at, second.length, third.at, third.length, (size_t)number_of(words[4]), fourth.at,
                                     fourth.length));
    after(&fourth);
    after(&third);
    given_back(&first);
    given_back(&second);
    putchar('\n');
}

int main(void) {
    char *words[WORDS];
    size_t count;
    while ((count = next_line(words)) > 0) {
        if (count == 4 && strcmp(words[0], "read") == 0) reading(words);
        else if (count == 6 && strcmp(words[0], "write") == 0) writing(words);
        else fail("neither a reading nor a writing");
    }
    if (line_number == 0) fail("no lines");
    return fflush(stdout) == 0 ? 0 : 1;
}
