/* A look at the till: every session that a wording names is tallied and held against the kiosk's own count
 * (recount.h), and the text that the till is closed as against the one that was counted. What was ever seen wrong stays
 * in the banner. */
#ifndef LOOK_H
#define LOOK_H

#include "line.h"
#include "oysterbrim.h"
#include "recount.h"

enum Figure { OPEN, SHUT, PLACED, WITHDRAWN, ISSUED, FIGURES };
enum Verdict { ADDS_UP, NOT_AS_COUNTED, DOES_NOT_ADD_UP };

/* At most so many things are said to be newly wrong after one sheet: its answer, and sessions or the text. */
enum { MOST_NEWS = 2 };

/* Open, shut and placed are the till's tally; withdrawn and issued are counted. */
struct Row {
    uint32_t session;
    uint32_t now[FIGURES], before[FIGURES];      /* at this look, and at the one before it */
    struct Counted counted;
    enum Verdict verdict;
    int kept, was_wrong;                         /* is to be in view; was wrong at a look */
    unsigned changed;                            /* the look after the sheet that changed it last */
};

struct Look {
    uint32_t minute, kept;                       /* of the panel; the session to be kept in view, if `keeps` */
    int keeps, text_was_wrong;
    unsigned looks, rows, news;
    char when[48];                               /* after what this look is */
    uint32_t wordings, coupons;
    struct Row row[WORDINGS], own;               /* as the history's list; the kept session where that has it not */
    struct Line banner;                          /* what was seen wrong first, or nothing */
    struct Line wrong[MOST_NEWS];                /* what this look found newly wrong */
    struct Line changes;                         /* what the last answer changed */
    uint8_t text[TILL_TEXT_BYTES], counted[MOST_TEXT];
};

extern const char *const FIGURE[FIGURES], *const VERDICT[DOES_NOT_ADD_UP + 1];

/* Begins a look after that many sheets, and after a command where there was one: nothing is newly wrong. */
void look_begin(struct Look *look, unsigned sheets, const char *command);

/* An answer that the recount does not allow. */
void look_unread(struct Look *look);

/* Looks at everything. `answer` is 0 where no sheet was answered; then `changes` stay. */
void look_at(struct Look *look, uint32_t *till, const struct History *history, int answer);

/* Another till has taken the place of this one: rows begin anew, the banner stays. */
void look_clear(struct Look *look);

/* Whether there is anything to be said of a session. */
int row_shown(const struct Row *row);

/* The rows that are shown: first those that do not add up, then the kept one, then those that changed last. */
size_t look_order(const struct Look *look, const struct Row *order[WORDINGS + 1]);

#endif
