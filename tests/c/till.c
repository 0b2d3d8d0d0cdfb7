/* A C program keeps a till over many calls (include/oysterbrim.h): every answer, what a refusal leaves, and that
 * nothing is read or written beside block, sheet, scratch and answer; what a call takes of the stack.
 * `till FOLDER [GROUP..]` plays the groups named, or all; FOLDER has the sessions with texts. */
#define _DEFAULT_SOURCE
#include "guards.h"
#include "oysterbrim.h"
#include "texts.h"
#include <stdio.h>
#include <stdlib.h>
#include <string.h>
#include <sys/mman.h>
#include <ucontext.h>

enum { PAGE = 4096, ROOM = 1 << 21, SMALL = 256 * 1024, TAKEN = 128 * 1024 };

static unsigned passed, failed;

static void check(int good, const char *what, const char *sheet) {
    if (good) {
        passed++;
        return;
    }
    failed++;
    printf("FAILED: %s, at sheet \"%.60s\"\n", what, sheet);
}

/* A till between guard words. */
struct Block {
    uint32_t before[GUARD], till[TILL_NUMBERS], after[GUARD];
};

/* Room to work on between guard words. */
struct Scratch {
    uint32_t before[GUARD], numbers[TILL_SCRATCH], after[GUARD];
};

/* An answer between guard words. */
struct Answered {
    uint32_t before[GUARD], answer[4], after[GUARD];
};

/* Room for sheets, with a page before and after that must not be touched. */
static uint8_t *pages;

static void open_pages(void) {
    uint8_t *all = mmap(NULL, ROOM + 2 * PAGE, PROT_READ | PROT_WRITE, MAP_PRIVATE | MAP_ANONYMOUS, -1, 0);
    if (all == MAP_FAILED) exit(2);
    if (mprotect(all, PAGE, PROT_NONE) || mprotect(all + PAGE + ROOM, PAGE, PROT_NONE)) exit(2);
    pages = all + PAGE;
}

static void begin(struct Block *block) {
    memset(block, 0x5A, sizeof *block);
    mark(block->before);
    mark(block->after);
    till_start(block->till);
    check(marked(block->before) && marked(block->after), "till_start wrote beside the block", "");
}

/* One call with the sheet at `at` (read-only while it runs), and everything that must hold of it. */
static void call_at(struct Block *block, uint8_t *at, size_t length, const uint32_t expected[4], const char *name) {
    static uint32_t before[TILL_NUMBERS];
    static struct Scratch scratch;
    static int fill;
    struct Answered a;
    memset(&a, 0x77, sizeof a);
    mark(a.before);
    mark(a.after);
    memset(&scratch, fill++, sizeof scratch);
    mark(scratch.before);
    mark(scratch.after);
    memcpy(before, block->till, sizeof before);
    if (mprotect(pages, ROOM, PROT_READ)) exit(2);
    till_call(block->till, at, length, scratch.numbers, a.answer);
    if (mprotect(pages, ROOM, PROT_READ | PROT_WRITE)) exit(2);
    int same = memcmp(a.answer, expected, sizeof a.answer) == 0;
    check(same, "the answer", name);
    if (!same) printf("  got %u,%u,%u,%u\n", a.answer[0], a.answer[1], a.answer[2], a.answer[3]);
    check(marked(a.before) && marked(a.after), "a number beside the answer", name);
    check(marked(block->before) && marked(block->after), "a number beside the block", name);
    check(marked(scratch.before) && marked(scratch.after), "a number beside the scratch", name);
    if (expected[0] != 1) check(memcmp(before, block->till, sizeof before) == 0, "the block, which had to stay", name);
}

/* The sheet once so that it ends where the readable memory ends, and once so that it begins where that begins. */
static void ask(struct Block *block, const char *sheet, uint32_t a, uint32_t b, uint32_t c, uint32_t d) {
    const uint32_t expected[4] = {a, b, c, d};
    size_t length = strlen(sheet);
    static int low;
    uint8_t *at = (low ^= 1) ? pages : pages + ROOM - length;
    memcpy(at, sheet, length);
    call_at(block, at, length, expected, sheet);
    check(memcmp(at, sheet, length) == 0, "the sheet, which had to stay", sheet);
}

/* Bytes `x` of a length, with a last byte 10. */
static void ask_long(struct Block *block, size_t length, uint32_t refusal) {
    const uint32_t expected[4] = {0, refusal, 0, 0};
    char name[40];
    snprintf(name, sizeof name, "%zu bytes", length);
    uint8_t *at = pages + ROOM - length;
    memset(at, 'x', length);
    if (length > 0) at[length - 1] = '\n';
    call_at(block, at, length, expected, name);
}

static const char *const WORDS[] = {"word,a,1,7\n", "word,a,2,7\n", "word,a,9,7\n", "word,s,1,0\n",
                                    "word,s,2,2\n", "word,s,1,1\n", "word,t,3,4\n", "word,l,6,5\n"};

static void words(struct Block *block) {
    begin(block);
    for (uint32_t i = 0; i < 8; i++) ask(block, WORDS[i], 1, i, 0, 0);
}

/* M1 up to its first tally. */
static void opening(struct Block *block) {
    words(block);
    ask(block, "issue,r,7,0,9999,0,0\n", 1, 1, 0, 0);
    ask(block, "issue,s,3,0,600,0,0\n", 1, 2, 0, 0);
    ask(block, "issue,s,4,0,600,0,0\n", 1, 3, 0, 0);
    ask(block, "tally,7,540\n", 3, 1, 0, 0);
}

static void calls(void) {
    static struct Block block;
    begin(&block);
    ask(&block, "tally,0,0\n", 3, 0, 0, 0);
    opening(&block);
    ask(&block, "tally,7,601\n", 3, 0, 1, 0);
    ask(&block, "tally,8,540\n", 3, 0, 0, 0);
    ask(&block, "withdraw,2\n", 1, 2, 0, 0);
    ask(&block, "tally,7,540\n", 3, 0, 0, 0);
    ask(&block, "issue,s,5,5,5,0,0\n", 1, 4, 0, 0);
    ask(&block, "tally,7,540\n", 3, 0, 0, 1);
}

static void refusals(void) {
    static struct Block block;
    opening(&block);
    static const char *const BROKEN[] = {
        "word,a,1,7", "word,a,1\n", "word,a,1,7,\n", "word,a,01,7\n", "word,a,256,7\n", "word,A,1,7\n", " word,o\n",
        "issue,s,1000,0,9,0,0\n", "issue,x,0,0,9,0,0\n", "issue,s,0,0,10000000,0,0\n", "issue,s,0,0,9,1,10000000\n",
        "issue,s,0,0,9\n", "word,h,0,0,9\n", "word,g,0,9,0,9\n", "withdraw,0\n", "withdraw,1000000\n",
        "tally,7,540\n\n", "tally,7,540\r\n", "book\n", "\n", "\xff\xfe\n", "hold,1\n"};
    for (size_t i = 0; i < sizeof BROKEN / sizeof *BROKEN; i++) ask(&block, BROKEN[i], 0, 2, 0, 0);
    ask(&block, "issue,s,3,9,8,0,0\n", 0, 3, 0, 0);
    ask(&block, "word,h,999,9,8,0,0\n", 0, 3, 0, 0);
    ask(&block, "issue,s,3,9,8,5,4\n", 0, 3, 0, 0);
    ask(&block, "issue,s,99,0,9,5,9\n", 0, 43, 0, 0);
    ask(&block, "word,h,999,0,9,0,5\n", 0, 43, 0, 0);
    ask(&block, "word,g,0,9,1,8,0,9,5,4\n", 0, 43, 0, 0);
    ask(&block, "word,t,7,8\n", 0, 10, 0, 0);
    ask(&block, "issue,s,8,0,9,0,0\n", 0, 10, 0, 0);
    ask(&block, "word,a,9,7\n", 0, 13, 0, 0);
    ask(&block, "issue,s,7,0,9,0,0\n", 0, 20, 0, 0);
    ask(&block, "issue,r,3,0,9,0,0\n", 0, 21, 0, 0);
    ask(&block, "withdraw,4\n", 0, 24, 0, 0);
    ask(&block, "tally,7,540\n", 3, 1, 0, 0);
}

static void lengths(void) {
    static struct Block block;
    static const uint32_t NONE[4] = {0, 2, 0, 0};
    words(&block);
    ask_long(&block, 0, 2);
    call_at(&block, pages - PAGE, 0, NONE, "no bytes, at memory that cannot be read");
    call_at(&block, NULL, 0, NONE, "no bytes, nowhere");
    ask_long(&block, 1, 2);
    ask_long(&block, 16384, 2);
    ask_long(&block, 16385, 1);
    ask_long(&block, 1 << 20, 1);
    ask(&block, "issue,s,3,0,600,0,0\n", 1, 1, 0, 0);
}

/* A seat of session 65,535 beside one of session 255, which a byte would take for it. */
static void sessions(void) {
    static struct Block block;
    begin(&block);
    ask(&block, "word,a,1,65535\n", 1, 0, 0, 0);
    ask(&block, "word,a,1,255\n", 1, 1, 0, 0);
    ask(&block, "word,a,2,65535\n", 1, 2, 0, 0);
    ask(&block, "word,l,1,2\n", 1, 3, 0, 0);
    ask(&block, "word,l,0,2\n", 1, 4, 0, 0);
    ask(&block, "word,a,1,65536\n", 0, 2, 0, 0);
    ask(&block, "issue,r,3,0,9,0,0\n", 0, 21, 0, 0);
    ask(&block, "issue,r,4,0,9,0,0\n", 1, 1, 0, 0);
    ask(&block, "word,s,1,0\n", 1, 5, 0, 0);
    ask(&block, "word,s,1,1\n", 1, 6, 0, 0);
    ask(&block, "issue,s,5,0,9,0,0\n", 1, 2, 0, 0);
    ask(&block, "tally,255,5\n", 3, 0, 0, 0);
    ask(&block, "issue,s,6,0,9,0,0\n", 1, 3, 0, 0);
    ask(&block, "tally,65535,5\n", 3, 1, 0, 0);
    ask(&block, "tally,255,5\n", 3, 1, 0, 0);
    ask(&block, "tally,65536,5\n", 0, 2, 0, 0);
    ask(&block, "book,5,5,0,9,0,0,1,4\nhold,3\nsr\nsl,0\naf\nax,1\n", 0, 40, 4, 0);
    ask(&block, "book,5,6,0,9,0,0,1,4\nhold,2\nsr\nsl,0\naf\nax,1\n", 0, 40, 4, 0);
    ask(&block, "book,5,5,0,9,0,0,1,4\nhold,2\nsr\nsl,0\naf\nax,1\n", 1, 4, 0, 0);
    ask(&block, "withdraw,3\n", 1, 3, 0, 0);
    ask(&block, "tally,255,5\n", 3, 0, 0, 0);
    ask(&block, "tally,65535,5\n", 3, 1, 0, 0);
}

/* Two seats, the house's and a bare one, with a break from 3 to 5: the minutes in it and beside it, goals with breaks;
 * 43 in a goal and in a step. */
static void breaks(void) {
    static struct Block block;
    begin(&block);
    ask(&block, "word,a,1,7\n", 1, 0, 0, 0);
    ask(&block, "word,s,1,0\n", 1, 1, 0, 0);
    ask(&block, "issue,s,0,0,9,3,5\n", 1, 1, 0, 0);
    ask(&block, "issue,s,1,0,9,3,5\n", 1, 2, 0, 0);
    ask(&block, "tally,7,2\n", 3, 1, 1, 0);
    ask(&block, "tally,7,3\n", 3, 0, 2, 0);
    ask(&block, "tally,7,5\n", 3, 0, 2, 0);
    ask(&block, "tally,7,6\n", 3, 1, 1, 0);
    ask(&block, "book,4,0,0,9,3,5,1,1\nhold,1\nax,0\n", 0, 30, 0, 0);
    ask(&block, "book,2,0,0,9,0,0,1,1\nhold,1\nax,0\n", 0, 40, 1, 0);
    ask(&block, "book,2,0,0,9,4,5,1,1\nhold,1\nax,0\n", 0, 40, 1, 0);
    ask(&block, "book,2,0,0,9,3,4,1,1\nhold,1\nax,0\n", 0, 40, 1, 0);
    ask(&block, "book,2,0,0,9,3,9,1,1\nhold,1\nax,0\n", 0, 43, 0, 0);
    ask(&block, "book,2,0,0,9,3,5,1,2\nhold,1\nax,0\nul,0,0,9,0,5\n", 0, 43, 0, 0);
    ask(&block, "book,2,0,0,9,3,9,1,2\nhold,1\nax,0\nul,0,9,8,0,0\n", 0, 3, 0, 0);
    ask(&block, "book,2,0,0,9,2,6,1,1\nhold,1\nax,0\n", 0, 30, 0, 0);
    ask(&block, "book,1,0,0,9,2,6,1,1\nhold,1\nax,0\n", 1, 3, 0, 0);
    ask(&block, "book,7,0,7,9,0,0,1,1\nhold,3\nax,0\n", 1, 4, 0, 0);
}

/* The nearest <K> says whose a seat is: issued one after the other with a break at 4, then booked into one another. */
static void houses(void) {
    static struct Block block;
    static const struct {
        const char *word;
        uint32_t open, shut; /* at minute 5, with those before it */
    } SEATS[] = {{"word,a,1,7\n", 0, 1},  {"word,s,1,0\n", 1, 1}, {"word,s,2,0\n", 1, 2}, {"word,s,1,2\n", 1, 3},
                 {"word,s,2,1\n", 2, 3},  {"word,t,0,2\n", 2, 5}, {"word,s,1,5\n", 3, 6}, {"word,t,1,0\n", 4, 7},
                 {"word,s,0,0\n", 4, 8},  {"word,s,255,0\n", 4, 9}, {"word,t,0,0\n", 4, 11}, {"word,s,1,10\n", 6, 11},
                 {"word,s,2,10\n", 6, 13}, {"word,t,11,12\n", 8, 15}};
    char sheet[40];
    begin(&block);
    for (uint32_t n = 0; n < sizeof SEATS / sizeof *SEATS; n++) {
        ask(&block, SEATS[n].word, 1, n, 0, 0);
        snprintf(sheet, sizeof sheet, "issue,s,%u,0,9,4,4\n", n);
        ask(&block, sheet, 1, n + 1, 0, 0);
        ask(&block, "tally,7,5\n", 3, SEATS[n].open, SEATS[n].shut, 0);
        ask(&block, "tally,7,4\n", 3, 0, SEATS[n].open + SEATS[n].shut, 0);
    }
    ask(&block, "tally,7,10\n", 3, 0, 23, 0);
    ask(&block, "book,5,1,0,9,4,4,1,3\nhold,1\nsr\naf\nax,0\n", 1, 15, 0, 0); /* seat to <1>seat */
    ask(&block, "tally,7,5\n", 3, 9, 14, 0);
    ask(&block, "book,5,2,0,9,4,4,1,4\nhold,2\nsr\nsl,0\naf\nax,1\n", 0, 40, 2, 0); /* <1>seat to <2>seat */
    ask(&block, "book,5,3,0,9,4,4,1,6\nhold,2\nsr\nsl,0\naf\nsr\naf\nax,1\n", 1, 16, 0, 0); /* to <1><2>seat */
    ask(&block, "tally,7,5\n", 3, 8, 15, 0);
    ask(&block, "withdraw,12\n", 1, 12, 0, 0);
    ask(&block, "tally,7,5\n", 3, 6, 15, 0);
}

/* 2,048 live credentials, and the place that a withdrawn one makes. */
static void full(void) {
    static struct Block block;
    words(&block);
    for (uint32_t i = 1; i <= 2048; i++) ask(&block, "issue,s,3,0,9,0,0\n", 1, i, 0, 0);
    ask(&block, "issue,s,0,0,9,0,0\n", 0, 22, 0, 0);
    ask(&block, "issue,r,2,0,9,0,0\n", 0, 22, 0, 0);
    ask(&block, "tally,7,9\n", 3, 2048, 0, 0);
    ask(&block, "tally,7,10\n", 3, 0, 2048, 0);
    ask(&block, "withdraw,100\n", 1, 100, 0, 0);
    ask(&block, "issue,r,2,0,9,0,0\n", 1, 2049, 0, 0);
    ask(&block, "issue,s,0,0,9,0,0\n", 0, 22, 0, 0);
    ask(&block, "book,5,2,0,9,0,0,1,2\nhold,2049\ncp,0\nax,1\n", 0, 22, 0, 0);
    ask(&block, "book,5,3,0,9,0,0,1,4\nhold,2048\nsr\nsl,0\naf\nax,1\n", 1, 2050, 0, 0);
    ask(&block, "withdraw,1\n", 1, 1, 0, 0);
    ask(&block, "book,5,2,0,9,0,0,1,2\nhold,2049\ncp,0\nax,1\n", 1, 2051, 0, 0);
    ask(&block, "issue,s,0,0,9,0,0\n", 0, 22, 0, 0);
}

/* Every serial is given, 500 credentials live; then 23. */
static void serials(void) {
    static struct Block block;
    static uint32_t scratch[TILL_SCRATCH];
    uint32_t answer[4];
    char sheet[40] = "issue,s,0,0,9,0,0\n";
    int good = 1;
    words(&block);
    for (uint32_t n = 1; good && n <= 999999; n++) {
        till_call(block.till, (const uint8_t *)"issue,s,0,0,9,0,0\n", 18, scratch, answer);
        good = answer[0] == 1 && answer[1] == n;
        if (n <= 500) continue;
        int length = snprintf(sheet, sizeof sheet, "withdraw,%u\n", n - 500);
        till_call(block.till, (const uint8_t *)sheet, (size_t)length, scratch, answer);
        good &= answer[0] == 1 && answer[1] == n - 500;
    }
    check(good, "a serial up to the last", sheet);
    ask(&block, "issue,s,0,0,9,0,0\n", 0, 23, 0, 0);
    ask(&block, "book,5,0,0,9,0,0,1,1\nhold,999999\nax,0\n", 0, 23, 0, 0);
    ask(&block, "tally,7,9\n", 3, 0, 500, 0);
    ask(&block, "withdraw,999999\n", 1, 999999, 0, 0);
    ask(&block, "issue,s,0,0,9,0,0\n", 0, 23, 0, 0);
}

/* Coupons of one minute each, by which a hold tells them: the last serial given, and the minute of each that is live. */
static struct Known {
    struct Block block;
    uint32_t last, minute[16384]; /* 0 of a serial that is not live */
} known;

static void give(void) {
    char sheet[40];
    uint32_t n = ++known.last;
    snprintf(sheet, sizeof sheet, "issue,s,0,%u,%u,0,0\n", n, n);
    ask(&known.block, sheet, 1, n, 0, 0);
    known.minute[n] = n;
}

static void leave(uint32_t n) {
    char sheet[40];
    uint32_t live = known.minute[n] > 0;
    snprintf(sheet, sizeof sheet, "withdraw,%u\n", n);
    ask(&known.block, sheet, live, live ? n : 24, 0, 0);
    known.minute[n] = 0;
}

/* A hold with a line after the close: 42 if just the coupon of that serial was found, 40 if another one, 24 if none. */
static void found(uint32_t n) {
    char sheet[80];
    uint32_t m = known.minute[n];
    snprintf(sheet, sizeof sheet, "book,%u,0,%u,%u,0,0,1,2\nhold,%u\nax,0\nax,0\n", m, m, m, n);
    ask(&known.block, sheet, 0, m ? 42 : 24, m ? 2 : 0, 0);
}

/* Every serial given, the next one, those that may share its hint, and the last of all. */
static void all_found(void) {
    for (uint32_t n = 1; n <= known.last + 1; n++) found(n);
    for (uint32_t hints = 1024; hints <= 4096; hints *= 2) {
        found(known.last + hints);
        found(known.last + hints + 1);
    }
    ask(&known.block, "withdraw,999999\n", 0, 24, 0, 0);
}

/* A live coupon is booked into one of its own minute. */
static void spend(uint32_t n) {
    char sheet[80];
    uint32_t m = known.minute[n];
    snprintf(sheet, sizeof sheet, "book,%u,0,%u,%u,0,0,1,1\nhold,%u\nax,0\n", m, m, m, n);
    ask(&known.block, sheet, 1, ++known.last, 0, 0);
    known.minute[n] = 0;
    known.minute[known.last] = m;
}

/* Which coupon a hold and a withdrawal find: first, last, middle, withdrawn, spent, never given; with gaps before, at and
 * after; with rows that are all in use, and that moved together; where a serial 1,024, 2,048 or 4,096 higher was given
 * since. */
static void lookup(void) {
    memset(&known, 0, sizeof known);
    begin(&known.block);
    ask(&known.block, "withdraw,1\n", 0, 24, 0, 0);
    ask(&known.block, "word,a,1,7\n", 1, 0, 0, 0);
    all_found();
    while (known.last < 40) give();
    all_found();
    static const uint32_t LEAVE[] = {1, 40, 20, 20, 1, 40, 41, 2, 39, 19, 21};
    for (size_t i = 0; i < sizeof LEAVE / sizeof *LEAVE; i++) {
        leave(LEAVE[i]);
        all_found();
    }
    spend(30);
    leave(30);
    spend(3);
    spend(38);
    leave(42);
    all_found();
    while (known.last < 2048 + 11) give(); /* 2,048 are live, 11 have left */
    for (uint32_t oldest = 1; known.last < 4300; oldest++) {
        if (!known.minute[oldest] || oldest % 16 == 0) continue; /* every sixteenth stays, and its hint will lie */
        if (known.last == 4096 || known.last == 4097) all_found();
        leave(oldest);
        give();
    }
    all_found();
    leave(16);
    spend(32);
    for (uint32_t hints = 1024; hints <= 4096; hints *= 2) {
        leave(hints + 48);
        spend(hints + 64);
        leave(hints + 16);
    }
    all_found();
}

/* Two tills, call by call. */
static void two(void) {
    static struct Block one, other;
    words(&one);
    begin(&other);
    ask(&other, "word,a,1,7\n", 1, 0, 0, 0);
    ask(&one, "issue,s,3,0,9,0,0\n", 1, 1, 0, 0);
    ask(&other, "tally,7,0\n", 3, 0, 0, 0);
    ask(&one, "tally,7,0\n", 3, 1, 0, 0);
    ask(&other, "withdraw,1\n", 0, 24, 0, 0);
    ask(&one, "withdraw,1\n", 1, 1, 0, 0);
}

#define STEPS(share) \
    "cp,0\nll,3,0000000000000006,540,600,0,0\ntr," share "\n" \
    "sr\nsl,1\naf\nax,4\nsr\nsl,2\naf\nax,5\nsr\nsl,6\naf\nax,7\n"

/* M1's booking, and bookings that are refused. */
static void bookings(void) {
    static struct Block block;
    opening(&block);
    ask(&block, "book,539,5,540,600,0,0,3,15\nhold,1\nhold,2\nhold,3\n" STEPS("0000000000000002"), 0, 30, 0, 0);
    ask(&block, "book,540,5,540,600,0,0,3,15\nhold,1\nhold,2\nhold,2\n" STEPS("0000000000000002"), 0, 31, 0, 0);
    ask(&block, "book,540,5,540,600,0,0,3,15\nhold,1\nhold,2\nhold,3\n" STEPS("0000000000000006"), 0, 40, 7, 0);
    ask(&block, "book,540,5,540,600,0,0,3,1\nhold,1\nhold,2\nhold,3\ncp,0\n", 0, 42, 2, 0);
    ask(&block, "book,540,5,540,600,0,0,3,15\nhold,1\nhold,2\nhold,3\n" STEPS("0000000000000002"), 1, 4, 0, 0);
    ask(&block, "tally,7,540\n", 3, 0, 0, 1);
    ask(&block, "book,540,5,540,600,0,0,3,15\nhold,1\nhold,2\nhold,3\n" STEPS("0000000000000002"), 0, 24, 0, 0);
    ask(&block, "withdraw,2\n", 0, 24, 0, 0);
    ask(&block, "withdraw,1\n", 1, 1, 0, 0);
    ask(&block, "withdraw,4\n", 1, 4, 0, 0);
}

/* Sessions in which the till is closed and opened. */
static const char *folder;

static void texts(void) { play_texts(folder, check); }

/* A call on a small stack, below which nothing may be touched. */
static struct Small {
    struct Block *block;
    const char *sheet;
    uint32_t scratch[TILL_SCRATCH], spare[TILL_NUMBERS], answer[4];
    uint8_t buffer[TILL_TEXT_BYTES];
    ucontext_t here, there;
} small;

static void small_call(void) {
    till_call(small.block->till, (const uint8_t *)small.sheet, strlen(small.sheet), small.scratch, small.answer);
}

static void small_open(void) {
    till_open(small.block->till, small.spare, (const uint8_t *)small.sheet, strlen(small.sheet), small.answer);
}

static void small_close(void) { till_close(small.block->till, small.buffer, sizeof small.buffer, small.answer); }

/* The bytes of the stack that the call took. */
static size_t on_small_stack(struct Block *block, const char *sheet, void (*run)(void)) {
    uint8_t *all = mmap(NULL, SMALL + PAGE, PROT_READ | PROT_WRITE, MAP_PRIVATE | MAP_ANONYMOUS, -1, 0);
    if (all == MAP_FAILED || mprotect(all, PAGE, PROT_NONE) || getcontext(&small.there)) exit(2);
    uint8_t *stack = all + PAGE;
    memset(stack, 0xC9, SMALL);
    small.block = block;
    small.sheet = sheet;
    small.there.uc_stack.ss_sp = stack;
    small.there.uc_stack.ss_size = SMALL;
    small.there.uc_link = &small.here;
    makecontext(&small.there, run, 0);
    if (swapcontext(&small.here, &small.there)) exit(2);
    size_t free_bytes = 0;
    while (free_bytes < SMALL && stack[free_bytes] == 0xC9) free_bytes++;
    munmap(all, SMALL + PAGE);
    return SMALL - free_bytes;
}

static void measured_at(struct Block *block, const char *sheet, void (*run)(void), const uint32_t expected[4],
                        const char *name) {
    size_t taken = on_small_stack(block, sheet, run);
    check(memcmp(small.answer, expected, sizeof small.answer) == 0, "the answer on a small stack", name);
    check(taken <= TAKEN, "the header's 128 KB of stack", name);
    printf("%s: %zu bytes of stack\n", name, taken);
}

static void measured(struct Block *block, const char *sheet, const uint32_t expected[4], const char *name) {
    measured_at(block, sheet, small_call, expected, name);
}

/* The longest text: 200 wordings g, 2,048 standing coupons of them, every minute of seven digits. */
enum { LONGEST = 105384 };

static void longest(char *to) {
    to = stpcpy(to, "till,2,1000000,200,2048\n");
    for (int n = 0; n < 200; n++)
        to += sprintf(to, "g,%d,9999999,9999990,9999991,1000000,9999999,9999990,9999998\n", 9000000 + n);
    for (int n = 0; n < 2048; n++)
        to += sprintf(to, "%d,r,%d,1000000,9999999,9999990,9999998\n", 997952 + n, 100 + n % 100);
}

static char *times(char *to, int count, const char *lines) {
    while (count-- > 0) to = stpcpy(to, lines);
    return to;
}

/* Wordings: 63 is <1> 63 times over an atom, 64 is 1, 125 is <1> 61 times over that, 126 is 125 -o 64. Credentials: 126
 * and 64 standing, the atom single-use. */
static void tower(struct Block *block) {
    char line[40];
    begin(block);
    for (uint32_t n = 0; n < 126; n++) {
        snprintf(line, sizeof line, n == 0 ? "word,a,9,7\n" : n == 64 ? "word,o\n" : "word,s,1,%u\n", n - 1);
        ask(block, line, 1, n, 0, 0);
    }
    ask(block, "word,l,125,64\n", 1, 126, 0, 0);
    ask(block, "issue,r,126,0,9,0,0\n", 1, 1, 0, 0);
    ask(block, "issue,r,64,0,9,0,0\n", 1, 2, 0, 0);
    ask(block, "issue,s,0,0,9,0,0\n", 1, 3, 0, 0);
}

/* Wordings: 30 is & 30 times, the first arm each time & again, over an atom; 31 is 1, 32 is 30 -o 31. Credentials: 32
 * standing, the atom single-use. Steps: eight times the offer and its 30 &s, each the first premise of the one before it,
 * which is the only one that waits for another. */
static void first_premises(struct Block *block, char *sheet) {
    char line[40];
    begin(block);
    ask(block, "word,a,9,7\n", 1, 0, 0, 0);
    for (uint32_t n = 1; n <= 30; n++) {
        snprintf(line, sizeof line, "word,w,%u,0\n", n - 1);
        ask(block, line, 1, n, 0, 0);
    }
    ask(block, "word,o\n", 1, 31, 0, 0);
    ask(block, "word,l,30,31\n", 1, 32, 0, 0);
    ask(block, "issue,r,32,0,9,0,0\n", 1, 1, 0, 0);
    ask(block, "issue,s,0,0,9,0,0\n", 1, 2, 0, 0);
    sheet = stpcpy(sheet, "book,5,0,0,9,0,0,2,256\nhold,1\nhold,2\n");
    for (int label = 2; label < 10; label++) {
        snprintf(line, sizeof line, "cp,0\nll,%d,0000000000000000,0,9,0,0\n", label);
        sheet = times(stpcpy(sheet, line), 30, "wr\n");
    }
}

/* Bookings of 255 and 256 steps, of which 248 wait for one another in the last: what a call takes of the stack. */
static void stack(void) {
    static struct Block block;
    static const uint32_t OPEN[4] = {0, 42, 257, 0}, BOOKED[4] = {1, 4, 0, 0};
    static char sheet[4096];
    tower(&block);
    char *at = stpcpy(sheet, "book,5,63,0,9,0,0,3,256\nhold,1\nhold,2\nhold,3\n");
    at = times(at, 63, "sr\naf\n");
    at = stpcpy(at, "cp,0\ncp,1\nol,4\ncp,1\nol,5\ncp,1\nol,6\nll,3,0000000000000000,0,9,0,0\n");
    times(at, 61, "sr\naf\n");
    measured(&block, sheet, OPEN, "256 steps, the last premise open");
    at = stpcpy(sheet, "book,5,63,0,9,0,0,3,255\nhold,1\nhold,2\nhold,3\n");
    at = times(at, 63, "sr\naf\n");
    at = stpcpy(at, "cp,0\ncp,1\nol,4\nll,3,0000000000000000,0,9,0,0\n");
    at = times(at, 61, "sr\naf\n");
    stpcpy(at, "or\nol,5\nax,2\n");
    measured(&block, sheet, BOOKED, "255 steps, accepted");
    first_premises(&block, sheet);
    measured(&block, sheet, OPEN, "256 steps, 248 first premises in one another");
    static const uint32_t LONG[4] = {1, TILL_TEXT_BYTES, 0, 0};
    static char text[LONGEST + 1];
    longest(text);
    check(strlen(text) == LONGEST && TILL_TEXT_BYTES == LONGEST, "the header's longest text", "");
    measured_at(&block, text, small_open, LONG, "opening the longest text");
    measured_at(&block, text, small_close, LONG, "closing it");
    check(memcmp(small.buffer, text, TILL_TEXT_BYTES) == 0, "the longest text", "closing it");
}

static const struct Group {
    const char *name;
    void (*play)(void);
} GROUPS[] = {{"calls", calls},   {"refusals", refusals}, {"lengths", lengths}, {"sessions", sessions},
              {"breaks", breaks}, {"houses", houses},     {"full", full},       {"serials", serials},
              {"lookup", lookup}, {"two", two},           {"bookings", bookings}, {"stack", stack},
              {"texts", texts}};

int main(int count, char **names) {
    if (count < 2) return 2;
    folder = names[1];
    open_pages();
    for (size_t i = 0; i < sizeof GROUPS / sizeof *GROUPS; i++) {
        int wanted = count == 2;
        for (int k = 2; k < count; k++) wanted |= strcmp(names[k], GROUPS[i].name) == 0;
        if (wanted) GROUPS[i].play();
    }
    printf("%u passed, %u failed\n", passed, failed);
    return failed > 0 || passed == 0;
}
