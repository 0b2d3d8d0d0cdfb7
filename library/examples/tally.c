/* Opens a till that was saved as text and prints a tally of it: tally FILE SESSION MINUTE.
 *
 *     cc tally.c $(pkg-config --cflags --libs oysterbrim) -o tally */
#include <oysterbrim.h>
#include <stdio.h>

static uint32_t till[TILL_NUMBERS], spare[TILL_NUMBERS], scratch[TILL_SCRATCH];
static uint8_t text[TILL_TEXT_BYTES + 1]; /* one byte more: a longer text is refused as this one would be */

static int refused(const uint32_t answer[4]) {
    if (answer[0] != TILL_REFUSED) return 0;
    printf("no,%u,%u: %s\n", (unsigned)answer[1], (unsigned)answer[2], till_refusal_text(answer[1]));
    return 1;
}

int main(int count, char **words) {
    uint32_t answer[4];
    char sheet[64];
    FILE *file = count == 4 ? fopen(words[1], "rb") : NULL;
    if (!file) {
        fprintf(stderr, "usage: tally FILE SESSION MINUTE\n");
        return 2;
    }
    size_t length = fread(text, 1, sizeof text, file);
    fclose(file);
    till_open(till, spare, text, length, answer);
    if (refused(answer)) return 1;
    int written = snprintf(sheet, sizeof sheet, "tally,%s,%s\n", words[2], words[3]);
    if (written < 0 || (size_t)written >= sizeof sheet) return 2;
    till_call(till, (const uint8_t *)sheet, (size_t)written, scratch, answer);
    if (refused(answer)) return 1;
    printf("open %u, shut %u, placed %u\n", (unsigned)answer[1], (unsigned)answer[2], (unsigned)answer[3]);
    return 0;
}
