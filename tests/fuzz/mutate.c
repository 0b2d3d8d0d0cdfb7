#include "mutate.h"
#include <stdio.h>
#include <string.h>

uint32_t below(uint64_t *seed, uint32_t end) {
    *seed ^= *seed << 13;
    *seed ^= *seed >> 7;
    *seed ^= *seed << 17;
    return (uint32_t)((*seed * 0x2545F4914F6CDD1Du) >> 32) % end;
}

void draft_copy(struct Draft *draft, const struct Sheet *sheet) {
    draft->length = sheet->length < MOST ? sheet->length : MOST;
    if (draft->length > 0) memcpy(draft->bytes, sheet->bytes, draft->length);
}

/* Puts `count` bytes in place of `gone` bytes; what has no room falls off the end. */
static void splice(struct Draft *draft, size_t at, size_t gone, const uint8_t *bytes, size_t count) {
    if (at > draft->length) at = draft->length;
    if (gone > draft->length - at) gone = draft->length - at;
    if (count > MOST - at) count = MOST - at;
    size_t rest = draft->length - at - gone;
    if (rest > MOST - at - count) rest = MOST - at - count;
    memmove(draft->bytes + at + count, draft->bytes + at + gone, rest);
    if (count > 0) memcpy(draft->bytes + at, bytes, count);
    draft->length = at + count + rest;
}

/* The line about a random place. */
static struct Sheet line_in(uint8_t *bytes, size_t length, uint64_t *seed) {
    size_t from = length > 0 ? below(seed, (uint32_t)length) : 0, to = from;
    while (from > 0 && bytes[from - 1] != '\n') from--;
    while (to < length && bytes[to] != '\n') to++;
    return (struct Sheet){bytes + from, (to < length ? to + 1 : to) - from};
}

static void change_bytes(struct Draft *draft, uint64_t *seed) {
    static const char USUAL[] = "0123456789abcdef,,\n\nsrtlhopwxunq:";
    uint8_t some[8];
    uint32_t count = below(seed, 2) ? 1 : below(seed, sizeof some + 1);
    for (uint32_t i = 0; i < count; i++)
        some[i] = (uint8_t)(below(seed, 3) ? (uint32_t)USUAL[below(seed, sizeof USUAL - 1)] : below(seed, 256));
    size_t at = below(seed, (uint32_t)draft->length + 1);
    splice(draft, at, below(seed, 3) ? count : below(seed, 12), some, count);
}

static int is_digit(uint8_t byte) { return byte >= '0' && byte <= '9'; }

/* Another number in place of one: near it, or at the end of a range. */
static void change_number(struct Draft *draft, uint64_t *seed) {
    static const char *const ENDS[] = {
        "0",   "1",   "2",   "7",    "31",   "32",     "33",      "63",      "64",       "199",        "200",
        "255", "256", "257", "540",  "999",  "1000",   "9999",    "999999",  "1000000",  "9999999",    "10000000",
        "65535", "65536", "00",  "01",  "-1",  "",     "4294967295",     "4294967296",         "18446744073709551616"};
    size_t from = below(seed, (uint32_t)draft->length + 1), to;
    while (from < draft->length && !is_digit(draft->bytes[from])) from++;
    for (to = from; to < draft->length && is_digit(draft->bytes[to]) && to - from < 9;) to++;
    char text[24];
    uint32_t value = 0;
    for (size_t i = from; i < to; i++) value = value * 10 + (uint32_t)(draft->bytes[i] - '0');
    if (below(seed, 2)) snprintf(text, sizeof text, "%u", value + below(seed, 7) - 3);
    else snprintf(text, sizeof text, "%s", ENDS[below(seed, sizeof ENDS / sizeof *ENDS)]);
    splice(draft, from, to - from, (const uint8_t *)text, strlen(text));
}

/* A line doubled, left out, or from elsewhere. */
static void change_line(struct Draft *draft, const struct Sheet *other, uint64_t *seed) {
    struct Sheet line = line_in(draft->bytes, draft->length, seed);
    size_t at = (size_t)(line.bytes - draft->bytes);
    uint8_t copy[256];
    switch (below(seed, 4)) {
    case 0: splice(draft, at, line.length, NULL, 0); break;
    case 1:
        if (line.length > sizeof copy) line.length = sizeof copy;
        memcpy(copy, line.bytes, line.length);
        splice(draft, below(seed, 2) ? at : below(seed, (uint32_t)draft->length + 1), 0, copy, line.length);
        break;
    default: {
        struct Sheet from = line_in(other->bytes, other->length, seed);
        splice(draft, at, below(seed, 2) ? line.length : 0, from.bytes, from.length);
    }
    }
}

/* Another step in place of one. */
static void change_step(struct Draft *draft, uint64_t *seed) {
    static const char *const STEPS[] = {"ax,",  "cp,",  "tr,0000000000000000\n", "tl,",  "or\n", "ol,",  "wr\n", "w1,",
                                        "w2,",  "p1\n", "p2\n", "pl,",  "ll,",  "ul,",  "br\n", "bl,",  "hr\n", "hl,",
                                        "sr\n", "af\n", "sl,",  "gr\n", "al,",  "al,1,5\n"};
    struct Sheet line = line_in(draft->bytes, draft->length, seed);
    const char *step = STEPS[below(seed, sizeof STEPS / sizeof *STEPS)];
    size_t length = strlen(step), gone = step[length - 1] == '\n' ? line.length : length;
    splice(draft, (size_t)(line.bytes - draft->bytes), gone, (const uint8_t *)step, length);
}

/* Cut short, or made long about the limit or far over it. */
static void change_length(struct Draft *draft, uint64_t *seed) {
    static const size_t LENGTHS[] = {16383, 16384, 16385, 16386, 20000, MOST};
    if (below(seed, 4)) {
        draft->length = below(seed, (uint32_t)draft->length + 1);
        return;
    }
    size_t length = LENGTHS[below(seed, sizeof LENGTHS / sizeof *LENGTHS)];
    for (size_t i = draft->length; i < length; i++) draft->bytes[i] = draft->length > 0 ? draft->bytes[i - 1] : 'x';
    draft->length = length;
    draft->bytes[length - 1] = '\n';
}

void draft_change(struct Draft *draft, const struct Sheet *other, uint64_t *seed) {
    for (uint32_t n = below(seed, 4) ? 1 : 1 + below(seed, 4); n > 0; n--) {
        uint32_t way = below(seed, 40);
        if (way < 14) change_number(draft, seed);
        else if (way < 22) change_bytes(draft, seed);
        else if (way < 31) change_line(draft, other, seed);
        else if (way < 39) change_step(draft, seed);
        else change_length(draft, seed);
    }
}

void draft_noise(struct Draft *draft, uint64_t *seed) {
    static const char USUAL[] = "0123456789,,,,\n\nwordissuewithdrawbookholdtally";
    draft->length = below(seed, 1u << below(seed, 17));
    int usual = below(seed, 2);
    for (size_t i = 0; i < draft->length; i++)
        draft->bytes[i] = (uint8_t)(usual ? (uint32_t)USUAL[below(seed, sizeof USUAL - 1)] : below(seed, 256));
}

/* `from,to` and a break: none, or one near the beginning, which most often lies inside. */
static const char *window(char text[48], uint32_t from, uint32_t to, uint64_t *seed) {
    uint32_t first = 0, last = 0;
    if (below(seed, 3) == 0) {
        first = from + below(seed, 4);
        last = first + below(seed, 4);
    }
    snprintf(text, 48, "%u,%u,%u,%u", from, to, first, last);
    return text;
}

static int make_word(char *text, size_t room, uint32_t wordings, uint64_t *seed) {
    uint32_t i = below(seed, wordings + 1), j = below(seed, wordings + 1), n = below(seed, 8);
    char v[48], w[48];
    switch (below(seed, 10)) {
    case 0: case 1: return snprintf(text, room, "word,a,%u,%u\n", below(seed, 4), n);
    case 2: return snprintf(text, room, "word,%c,%u,%u\n", "twplu"[below(seed, 5)], i, j);
    case 3: return snprintf(text, room, "word,t,%u,%u\n", i, j);
    case 4: return snprintf(text, room, "word,h,%u,%s\n", i, window(w, n, 8 * n, seed));
    case 5: return below(seed, 4) ? snprintf(text, room, "word,b,%u\n", i) : snprintf(text, room, "word,o\n");
    case 6:
        return snprintf(text, room, "word,g,%s,%s\n", window(v, n, n + i, seed), window(w, n, n + j, seed));
    case 7: return snprintf(text, room, "word,n,%u,%u,%u\n", below(seed, 4), n, below(seed, 3));
    case 8: return snprintf(text, room, "word,q,%u\n", i);
    default: return snprintf(text, room, "word,s,%u,%u\n", n, i);
    }
}

void draft_make(struct Draft *draft, const struct History *history, uint64_t *seed) {
    char *text = (char *)draft->bytes;
    uint32_t wording = below(seed, history->wordings + 1), serial = 1 + below(seed, history->serial + 1);
    uint32_t from = below(seed, 900), to = from + below(seed, 900);
    char w[48];
    int length;
    uint32_t near = below(seed, 2) ? 300 : 2300; /* of 2,048 that may be live the later ones, or nearly all */
    if (serial + near < history->serial) serial = history->serial - below(seed, near);
    switch (below(seed, 8)) {
    case 0: length = make_word(text, 128, history->wordings, seed); break;
    case 1: length = snprintf(text, 128, "tally,%u,%u\n", below(seed, 9), from); break;
    case 2: length = snprintf(text, 128, "withdraw,%u\n", serial); break;
    case 3: length = snprintf(text, 128, "issue,r,%u,%s\n", wording, window(w, from, to, seed)); break;
    case 4: case 5: {
        const struct Coupon *coupon = history_find(history, serial);
        uint32_t goal = coupon && coupon->single ? coupon->wording : wording;
        const char *copied = coupon && !coupon->single ? "2\nhold,%u\ncp,0\nax,1\n" : "1\nhold,%u\nax,0\n";
        length = snprintf(text, 128, "book,%u,%u,%u,%u,0,0,1,", from, goal, from, from);
        length += snprintf(text + length, 128 - (size_t)length, copied, serial);
        break;
    }
    default: length = snprintf(text, 128, "issue,s,%u,%s\n", wording, window(w, from, to, seed));
    }
    draft->length = (size_t)length;
}
