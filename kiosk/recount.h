/* What was issued and withdrawn, what is open, shut and placed, and the till's text, all counted from the accepted
 * sheets and their answers alone (document 01, "Booking, tally"; document 02, asks 3, 5 and 7). It looks into no till:
 * wording n is the line that was answered n, and a serial's coupon is the one issued, or the goal booked, by the sheet
 * that was answered that serial. After an opening (document 02, ask 5) it begins at the text. */
#ifndef RECOUNT_H
#define RECOUNT_H

#include <stddef.h>
#include <stdint.h>

enum { WORDINGS = 200, MOST_SIZE = 64, MOST_LIVE = 2048, FIRST_LIVE = 512, LAST_PREDICATE = 255,
       LAST_PRINCIPAL = 255, HOUSE = 1, SEAT = 1, PLACE = 2, LAST_SESSION = 65535, LAST_HOLDER = 65535,
       LAST_SERIAL = 999999, LAST_MINUTE = 9999999 };

/* The longest lines of a text, its first one last; and the longest text. */
enum { WORDING_BYTES = 66, COUPON_BYTES = 45, TITLE_BYTES = 24,
       MOST_TEXT = TITLE_BYTES + WORDINGS * WORDING_BYTES + MOST_LIVE * COUPON_BYTES };

/* A wording of size n has at most (n + 1) / 2 atoms. */
enum { MOST_HELD = (MOST_SIZE + 1) / 2 };

/* What a wording holds of a session. Of its seats those are the house's whose nearest <K> is <1>: so many are it where
 * <1> is the nearest above the whole wording (`under`), and where another or none is (`house`). */
struct Held {
    uint32_t at;                                 /* the session's place in the history's list */
    uint32_t seats, places, house, under;
};

struct Wording {
    uint32_t session;                            /* of an atom */
    uint32_t size, holds, length;                /* of how many sessions it holds something; the length of its line */
    uint32_t issued, withdrawn;                  /* singles of it that were issued, and that were withdrawn */
    struct Held held[MOST_HELD];
    uint8_t line[WORDING_BYTES];                 /* as the text has it, with its end */
};

/* A live coupon: its wording, and its window with the break. */
struct Coupon {
    uint32_t serial, single, wording, from, to, first, last, length;
    uint8_t line[COUPON_BYTES + 1];              /* as the text has it, with its end */
};

struct History {
    uint32_t wordings, serial;                   /* how many wordings were given, and the last serial */
    uint32_t unread;                             /* accepted sheets and texts that this count could not read */
    uint32_t live, sessions;                     /* how many coupons are live, how many sessions are named */
    uint32_t session[WORDINGS];                  /* those that a wording has a seat or a place of */
    struct Wording wording[WORDINGS];
    struct Coupon coupon[MOST_LIVE];             /* serials rise */
};

/* Of a session: seats and places issued, and those withdrawn; of live singles at a minute, the house's seats that are
 * open, all other seats, the places. */
struct Counted {
    uint32_t issued, withdrawn, open, shut, placed;
};

/* The empty history; NULL where there is no memory. */
struct History *history_new(void);
void history_clear(struct History *history);

/* The counts at a minute of every session of the list, each at its place there. */
void history_count_all(const struct History *history, uint32_t minute, struct Counted counted[WORDINGS]);

/* The counts of one session, of any number. */
struct Counted history_count(const struct History *history, uint32_t session, uint32_t minute);

/* Whether a tally's answer has the open, shut and placed that were counted. */
int history_agrees(const struct Counted *counted, const uint32_t answer[4]);

/* The live coupon with that serial; NULL where there is none. */
const struct Coupon *history_find(const struct History *history, uint32_t serial);

/* The text that a till with this history is closed as; its length. */
size_t history_text(const struct History *history, uint8_t text[MOST_TEXT]);

/* Adds a sheet with its answer; only an accepted one changes anything. Gives 0, and counts it as unread, where an
 * accepted sheet has no form or its answer is none that the history allows, a tally's three figures included. */
int history_note(struct History *history, const uint8_t *sheet, size_t length, const uint32_t answer[4]);

/* Begins at a text that was opened: issued is what its singles hold, withdrawn 0, its wordings and serials count as
 * given. Gives 0, and counts it as unread, where it is no text. */
int history_open(struct History *history, const uint8_t *text, size_t length);

#endif
