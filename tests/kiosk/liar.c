/* A library that lies, so that the kiosk has something to find. As it stands, a tally says one open seat too many.
 *   MOVED    a tally says that one of the shut seats is open
 *   EMPTIED  a text that is opened, or refused, leaves an empty till
 *   ROBS=n   the first refusal takes the live coupon n; with RETURNS the next sheet that is no tally finds it there
 *            again */
#include "oysterbrim.h"
#include <stdio.h>
#include <string.h>

#ifdef EMPTIED

void __real_till_open(uint32_t *till, uint32_t *spare, const uint8_t *text, size_t length, uint32_t *answer);
void __wrap_till_open(uint32_t *till, uint32_t *spare, const uint8_t *text, size_t length, uint32_t *answer);

void __wrap_till_open(uint32_t *till, uint32_t *spare, const uint8_t *text, size_t length, uint32_t *answer) {
    __real_till_open(till, spare, text, length, answer);
    till_start(till);
}

#else

void __real_till_call(uint32_t *till, const uint8_t *sheet, size_t length, uint32_t *scratch, uint32_t *answer);
void __wrap_till_call(uint32_t *till, const uint8_t *sheet, size_t length, uint32_t *scratch, uint32_t *answer);

#ifdef ROBS

#ifdef RETURNS
enum { GIVES_BACK = 1 };
#else
enum { GIVES_BACK = 0 };
#endif

void __wrap_till_call(uint32_t *till, const uint8_t *sheet, size_t length, uint32_t *scratch, uint32_t *answer) {
    static uint32_t before[TILL_NUMBERS], ignored[4];
    static int robbed, returned;
    char withdraw[32];
    int tally = length >= 5 && memcmp(sheet, "tally", 5) == 0;
    if (GIVES_BACK && robbed && !returned && !tally) returned = memcpy(till, before, sizeof before) == till;
    __real_till_call(till, sheet, length, scratch, answer);
    if (answer[0] != 0 || robbed) return;
    memcpy(before, till, sizeof before);
    int count = snprintf(withdraw, sizeof withdraw, "withdraw,%d\n", ROBS);
    __real_till_call(till, (const uint8_t *)withdraw, (size_t)count, scratch, ignored);
    robbed = ignored[0] == 1;
}

#else

#ifdef MOVED
enum { ONE_MOVED = 1 };
#else
enum { ONE_MOVED = 0 };
#endif

void __wrap_till_call(uint32_t *till, const uint8_t *sheet, size_t length, uint32_t *scratch, uint32_t *answer) {
    __real_till_call(till, sheet, length, scratch, answer);
    if (answer[0] != 3 || (ONE_MOVED && answer[2] == 0)) return;
    answer[1]++;
    answer[2] -= ONE_MOVED;
}

#endif
#endif
