/* Plays the sheets of standard input through the static library and prints the answers as tillrun does; then counts
 * again: at each of some minutes, for every session that occurs and some more, open + shut + placed + withdrawn = issued,
 * the last two counted from the accepted sheets and their answers alone. So are open, shut and placed, for these
 * tallies and those of the input. Exit status 1 where a sum does not hold or a tally is not as counted.
 *
 * In the place of a sheet `:close` asks for the text, which follows the answer, `:close N` with a buffer of N bytes,
 * and `:open N` opens the N bytes after that line; a byte 10 follows them. The count begins anew at a text that was
 * opened. */
#include "oysterbrim.h"
#include "recount.h"
#include <stdio.h>
#include <stdlib.h>
#include <string.h>

static const unsigned minutes[] = {0, 9, 540, 600, 5000, LAST_MINUTE};

enum { MOST = 1 << 28 };

static uint32_t till[TILL_NUMBERS], spare[TILL_NUMBERS], scratch[TILL_SCRATCH];
static struct History *history;
static int changed; /* something was accepted since the sums were counted again */

/* All of standard input, in memory; the count of its bytes. */
static size_t read_all(uint8_t **bytes) {
    size_t count = 0, room = 1 << 16, got;
    *bytes = malloc(room);
    while (*bytes && (got = fread(*bytes + count, 1, room - count, stdin)) > 0) {
        count += got;
        if (count == room) *bytes = realloc(*bytes, room *= 2);
    }
    if (!*bytes) exit(2);
    return count;
}

static void print(const uint32_t answer[4]) {
    changed |= answer[0] == 1;
    if (answer[0] == 0) {
        printf("no,%u,%u\n", answer[1], answer[2]);
    } else if (answer[0] == 1) {
        printf("ok,%u\n", answer[1]);
    } else {
        printf("ok,%u,%u,%u\n", answer[1], answer[2], answer[3]);
    }
}

static void play(const uint8_t *sheet, size_t length) {
    uint32_t answer[4];
    till_call(till, sheet, length, scratch, answer);
    history_note(history, sheet, length, answer);
    print(answer);
}

static void play_close(size_t room) {
    static uint8_t text[TILL_TEXT_BYTES];
    uint32_t answer[4];
    till_close(till, text, room < sizeof text ? room : sizeof text, answer);
    print(answer);
    if (answer[0] == 1) fwrite(text, 1, answer[1], stdout);
}

static void play_open(const uint8_t *text, size_t length) {
    uint32_t answer[4];
    till_open(till, spare, text, length, answer);
    if (answer[0] == 1) history_open(history, text, length);
    print(answer);
}

/* Whether the sum of a session at a minute holds, and the tally is as counted. */
static int holds(unsigned session, unsigned minute) {
    char sheet[40];
    uint32_t answer[4];
    int length = snprintf(sheet, sizeof sheet, "tally,%u,%u\n", session, minute);
    till_call(till, (const uint8_t *)sheet, (size_t)length, scratch, answer);
    struct Counted counted = history_count(history, session, minute);
    uint32_t sum = answer[1] + answer[2] + answer[3] + counted.withdrawn;
    if (answer[0] == 3 && sum == counted.issued && history_agrees(&counted, answer)) return 1;
    fprintf(stderr, "session %u, minute %u: the sum is %u, issued %u; open %u, counted %u\n", session, minute, sum,
            counted.issued, answer[1], counted.open);
    return 0;
}

/* Whether the sums hold at a minute: of the sessions of all atoms, of those that a byte or its neighbour would take for
 * them, and of the first and the last. */
static int hold_all(unsigned minute) {
    static const unsigned some[] = {0, 1, 255, 256, LAST_SESSION - 1, LAST_SESSION};
    int good = 1;
    for (size_t k = 0; k < sizeof some / sizeof *some; k++) good &= holds(some[k], minute);
    for (uint32_t n = 0; n < history->wordings; n++) {
        unsigned session = history->wording[n].session;
        good &= holds(session, minute) & holds(session % 256, minute) & holds((session + 256) % 65536, minute);
    }
    return good;
}

/* The length of a line of a word and a number, and the number; 0 where there is no such line. */
static size_t command(const uint8_t *bytes, size_t count, const char *word, size_t *number) {
    size_t i = strlen(word);
    if (count <= i || memcmp(bytes, word, i) != 0) return 0;
    for (*number = 0; i < count && bytes[i] >= '0' && bytes[i] <= '9' && *number < MOST; i++)
        *number = *number * 10 + (bytes[i] - '0');
    return i < count && bytes[i] == '\n' ? i + 1 : 0;
}

/* One sheet or command; the place of the byte 10 behind it, or of the end. */
static size_t turn(const uint8_t *bytes, size_t count, int *good) {
    size_t length, i = 0, line = command(bytes, count, ":open ", &length);
    if (line > 0 && length <= count - line) {
        if (changed) *good &= hold_all(540); /* a list may end here */
        changed = 0;
        play_open(bytes + line, length);
        return line + length;
    }
    while (i < count && (bytes[i] != '\n' || (i > 0 && bytes[i - 1] != '\n'))) i++; /* a byte 10 where a line begins */
    if (i == 7 && memcmp(bytes, ":close\n", 7) == 0) play_close(TILL_TEXT_BYTES);
    else if (i > 0 && command(bytes, i, ":close ", &length) == i) play_close(length);
    else play(bytes, i);
    return i;
}

int main(void) {
    uint8_t *bytes;
    size_t count = read_all(&bytes), from = 0;
    int good = 1;
    if (!(history = history_new())) return 2;
    till_start(till);
    while (from < count) from += turn(bytes + from, count - from, &good) + 1;
    for (size_t m = 0; m < sizeof minutes / sizeof *minutes; m++) good &= hold_all(minutes[m]);
    if (history->unread) fprintf(stderr, "%u sheets were accepted, and not as counted\n", history->unread);
    return good && !history->unread ? 0 : 1;
}
