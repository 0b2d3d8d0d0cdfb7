/* The booking till: a C program keeps a till, hands it sheets, writes it as text and reads it again.
 *
 *     uint32_t till[TILL_NUMBERS], scratch[TILL_SCRATCH], answer[4];
 *     till_start(till);
 *     till_call(till, (const uint8_t *)"word,a,1,7\n", 11, scratch, answer);
 *     if (answer[0] == TILL_REFUSED) puts(till_refusal_text(answer[1]));
 *
 * The library is liboysterbrim.a, for x86-64 Linux: `cc PROGRAM.c $(pkg-config --cflags --libs oysterbrim)`, or in the
 * repository target/library/liboysterbrim.a, which library/build makes. All its functions but till_refusal_text are
 * proved. They keep nothing between calls, allocate nothing and do no input or output; several tills may be used side
 * by side, from several threads too where each call has its own till, scratch and answer. A call takes up to 128 KB of
 * stack, at a booking of 256 steps of which each waits for the next.
 */
#ifndef OYSTERBRIM_H
#define OYSTERBRIM_H

#include <stddef.h>
#include <stdint.h>

#ifdef __cplusplus
extern "C" {
#endif

/* ---- Edition and sizes ---- */

/* The edition of this header. A library of another edition may want larger blocks or answer other refusals: see
 * till_edition and till_start below. */
#define TILL_EDITION 2

/* A till: a block of 45,677 numbers of 32 bits (182,708 bytes), aligned as uint32_t. It holds no pointer. */
#define TILL_NUMBERS 45677

/* No sheet has more bytes; a longer one is refused with TILL_TOO_LONG. */
#define TILL_SHEET_BYTES 16384

/* Room to work on: 2,048 numbers of 32 bits (8,192 bytes), lent for a call. What they hold before a call has no bearing
 * on it, and what they hold after it says nothing. */
#define TILL_SCRATCH 2048

/* No till's text has more bytes: a buffer of so many is always long enough. */
#define TILL_TEXT_BYTES 105384

/* The same of the library, for a program that was not compiled with this header or wants to print them. */
uint32_t till_edition(void);
size_t till_numbers(void);
size_t till_sheet_bytes(void);
size_t till_scratch(void);
size_t till_text_bytes(void);

/* ---- Answers ---- */

/* An answer is four numbers. The first is its kind. */
#define TILL_REFUSED 0   /* { TILL_REFUSED, refusal, step, 0 }: one of the refusals below */
#define TILL_ACCEPTED 1  /* { TILL_ACCEPTED, n, 0, 0 }: a wording's number, a serial, or a count of bytes */
#define TILL_COUNTED 3   /* { TILL_COUNTED, open, shut, placed }: a tally */

/* The refusals. docs/REFUSALS.md says of each what to look for, with an example. */
/* refusals: made by include/make */
#define TILL_TOO_LONG 1            /* over 16,384 bytes */
#define TILL_BAD_FORM 2            /* not the form of a sheet */
#define TILL_WINDOW_REVERSED 3     /* a window's from is after its to */
#define TILL_NO_SUCH_WORDING 10    /* a named wording is not there */
#define TILL_WORDING_TOO_LARGE 12  /* size over 64 */
#define TILL_WORDING_THERE 13      /* this line is there already */
#define TILL_WORDINGS_FULL 14      /* 200 wordings are there */
#define TILL_NOT_PLAIN 20          /* not plain */
#define TILL_NOT_BALANCED 21       /* not balanced */
#define TILL_COUPONS_FULL 22       /* 2,048 coupons are live */
#define TILL_SERIALS_USED_UP 23    /* serial 999,999 was given */
#define TILL_NOT_LIVE 24           /* the serial is not live */
#define TILL_NOW_OUTSIDE 30        /* now is outside the goal's window */
#define TILL_HELD_TWICE 31         /* a serial is held twice */
#define TILL_STEP_BREAKS_RULE 40   /* a step breaks its rule */
#define TILL_NO_LABEL_LEFT 41      /* the step is right but wants label 64 */
#define TILL_STEPS_END_APART 42    /* steps end too early, or too late */
#define TILL_BREAK_NOT_INSIDE 43   /* a break is neither 0,0 nor strictly inside its window */
#define TILL_BAD_TEXT 50           /* not the form of a text */
#define TILL_TEXT_BREAKS_RULE 51   /* a line of a text breaks a rule */
#define TILL_BUFFER_TOO_SHORT 52   /* the text does not fit the buffer */
#define TILL_HOLDER_MISPLACED 53   /* q within q, or holder 0 outside q */
/* end of refusals */

/* The text beside a refusal's name above; "not a refusal" for every other number. The text is not to be changed or
 * freed. */
const char *till_refusal_text(uint32_t refusal);

/* ---- Calls ---- */

/* Makes the block an empty till, whatever it held before. */
void till_start(uint32_t till[TILL_NUMBERS]);

/* Answers a sheet, given as `length` bytes from `sheet` on. Any bytes of any length may be given; the sheet is only
 * read. With length 0 the pointer is not followed; it may be null.
 *
 * What must hold: `till` was made by till_start, or by till_open with an accepting answer, and changed by nothing but
 * till_call and till_open since; till, sheet, scratch and answer do not overlap; nothing else uses them during the
 * call. There is no other requirement.
 *
 * The answer:
 *   { TILL_ACCEPTED, n, 0, 0 }              word: the wording's number; issue, withdraw, book: the serial
 *   { TILL_COUNTED, open, shut, placed }    tally
 *   { TILL_REFUSED, refusal, step, 0 }      step counts from 1 for refusals 40 to 42 and is 0 for others
 *
 * A tally counts its session's seats and places in the live single-use coupons. Open are the house's seats in their
 * minutes: the nearest <K> above the seat, in the coupon's own wording, is principal 1, and the coupon's window has the
 * minute. Shut are all other seats: the house's at other minutes, those of other principals, and bare ones. Placed are
 * the places, whatever stands above them and whatever the minute. Whose name a seat or a place is in makes no difference.
 *
 * A refusal leaves the block as it was, every number of it. No call changes the sheet. */
void till_call(uint32_t till[TILL_NUMBERS], const uint8_t *sheet, size_t length, uint32_t scratch[TILL_SCRATCH],
               uint32_t answer[4]);

/* Closing: writes the till as text into the first bytes of a buffer that is lent, `length` bytes from `buffer` on. The
 * text (docs/TEXT.md) has every wording, every live coupon and the next serial. Bytes of the buffer past the text stay
 * as they were. The till is only read and goes on as before. With length 0 the pointer is not followed; it may be
 * null.
 *
 * What must hold: `till` as for till_call; till, buffer and answer do not overlap; nothing else uses them during the
 * call.
 *
 * The answer:
 *   { TILL_ACCEPTED, bytes, 0, 0 }                      how many bytes were written: the text is just these
 *   { TILL_REFUSED, TILL_BUFFER_TOO_SHORT, 0, 0 }       the text has more than `length` bytes
 *
 * A refusal leaves the buffer as it was, every byte of it. */
void till_close(const uint32_t till[TILL_NUMBERS], uint8_t *buffer, size_t length, uint32_t answer[4]);

/* Opening: makes the block the till that a text says, given as `length` bytes from `text` on. Any bytes of any length
 * may be given; the text is only read. With length 0 the pointer is not followed; it may be null. `spare` is a second
 * block, lent for the call: the till is built there. What it holds before the call has no bearing on it, and what it
 * holds after it says nothing; it is no till then.
 *
 * What must hold: till, spare, text and answer do not overlap; nothing else uses them during the call. Nothing is asked
 * of what `till` holds: it need not have been started.
 *
 * The answer:
 *   { TILL_ACCEPTED, bytes, 0, 0 }          the length of the text; the block is its till, whatever it was
 *   { TILL_REFUSED, refusal, 0, 0 }         TILL_BAD_TEXT: the bytes are no text; TILL_TEXT_BREAKS_RULE: a line of it
 *                                           breaks a rule
 *
 * A refusal leaves the till's block as it was, every number of it. What was opened, till_close writes again as the same
 * bytes; what till_close wrote is always opened. */
void till_open(uint32_t till[TILL_NUMBERS], uint32_t spare[TILL_NUMBERS], const uint8_t *text, size_t length,
               uint32_t answer[4]);

/* ---- Header and library of one edition ---- */

/* A block that is too small for the library would be overrun by till_start and till_open. So both ask for a name that
 * only a library of this header's edition has, and a program that was compiled with another edition's header is not
 * linked: "undefined reference to `till_edition_2'". It answers the edition. */
uint32_t till_edition_2(void);

static inline void till_start_inline(uint32_t till[TILL_NUMBERS]) {
    (void)till_edition_2();
    till_start(till);
}

static inline void till_open_inline(uint32_t till[TILL_NUMBERS], uint32_t spare[TILL_NUMBERS], const uint8_t *text,
                                    size_t length, uint32_t answer[4]) {
    (void)till_edition_2();
    till_open(till, spare, text, length, answer);
}

#define till_start till_start_inline
#define till_open till_open_inline

#ifdef __cplusplus
}
#endif

#endif
