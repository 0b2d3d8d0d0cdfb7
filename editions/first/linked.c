/* A program that is compiled with the header of edition 1's first build and linked with the library of build 1.1.
 * Edition and sizes are the same; 54, which its header does not name, is answered where the text begins `till,2,`,
 * and the block is as it was. till_refusal_text(54) tells the builds apart. Prints what is otherwise; exit status 1
 * then. */
#include "oysterbrim.h"
#include <stdio.h>
#include <string.h>

#ifdef TILL_LATER_EDITION
#error "this is not the header of the first build"
#endif

static uint32_t till[TILL_NUMBERS], spare[TILL_NUMBERS], before[TILL_NUMBERS], scratch[TILL_SCRATCH];
static int wrong;

static void check(int good, const char *what) {
    if (good) return;
    puts(what);
    wrong = 1;
}

static void sizes(void) {
    check(till_edition() == TILL_EDITION && till_edition_1() == 1, "the edition is not 1");
    check(till_numbers() == TILL_NUMBERS && till_scratch() == TILL_SCRATCH, "the blocks have other sizes");
    check(till_sheet_bytes() == TILL_SHEET_BYTES && till_text_bytes() == TILL_TEXT_BYTES, "sheets or texts are longer");
}

static void texts(void) {
    check(strcmp(till_refusal_text(54), "a text of a later edition") == 0, "54 has another text");
    check(strcmp(till_refusal_text(53), "not a refusal") == 0, "53 is a refusal");
    check(strcmp(till_refusal_text(50), "not the form of a text") == 0, "50 has another text");
}

/* Opens a text of this many bytes where the till is not empty: it is refused so, and the block is as it was. */
static void refused(const char *text, size_t length, uint32_t refusal) {
    uint32_t answer[4];
    memcpy(before, till, sizeof till);
    till_open(till, spare, (const uint8_t *)text, length, answer);
    check(answer[0] == TILL_REFUSED && answer[1] == refusal && answer[2] == 0 && answer[3] == 0, text);
    check(memcmp(before, till, sizeof till) == 0, "a refused text has changed the block");
}

int main(void) {
    uint32_t answer[4];
    sizes();
    texts();
    till_start(till);
    till_call(till, (const uint8_t *)"word,a,1,7\n", 11, scratch, answer);
    check(answer[0] == TILL_ACCEPTED && answer[1] == 0, "a wording is refused");
    refused("till,2,", 7, 54);
    refused("till,2,1,0,0\n", 13, 54);
    refused("till,2,", 6, TILL_BAD_TEXT);
    refused("till,1,1,0,1\n", 13, TILL_BAD_TEXT);
    till_open(till, spare, (const uint8_t *)"till,1,1,0,0\n", 13, answer);
    check(answer[0] == TILL_ACCEPTED && answer[1] == 13, "a text of this edition is refused");
    return wrong;
}
