#include "recount.h"
#include "fields.h"
#include <stdio.h>
#include <stdlib.h>

enum { MOST_HOLDS = 32 };

struct History *history_new(void) { return calloc(1, sizeof(struct History)); }

void history_clear(struct History *history) { memset(history, 0, sizeof *history); }

/* ---- Wordings ---- */

/* A wording that was given before. */
static int wording(const struct History *history, struct Field field, uint32_t *value) {
    return number(field, WORDINGS - 1, value) && *value < history->wordings;
}

/* The place of a session in the list; a new one joins it. A wording names one at most, so there is room. */
static uint32_t place_of(struct History *history, uint32_t session) {
    uint32_t k = 0;
    while (k < history->sessions && history->session[k] != session) k++;
    if (k == history->sessions) history->session[history->sessions++] = session;
    return k;
}

static void add_held(struct Wording *to, const struct Held *part) {
    uint32_t k = 0;
    while (k < to->holds && to->held[k].at != part->at) k++;
    if (k == to->holds) to->held[to->holds++] = (struct Held){.at = part->at};
    to->held[k].seats += part->seats;
    to->held[k].places += part->places;
    to->held[k].house += part->house;
    to->held[k].under += part->under;
}

/* Adds a part to a wording: it counts as often as it stands there. */
static int add_part(struct History *history, struct Wording *to, struct Field field) {
    uint32_t n;
    if (!wording(history, field, &n)) return 0;
    const struct Wording *part = &history->wording[n];
    to->size += part->size;
    if (to->size > MOST_SIZE) return 0;
    for (uint32_t k = 0; k < part->holds; k++) add_held(to, &part->held[k]);
    return 1;
}

static int set_atom(struct History *history, struct Wording *to, const struct Field *fields) {
    uint32_t predicate;
    if (!number(fields[2], LAST_PREDICATE, &predicate) || !number(fields[3], LAST_SESSION, &to->session)) return 0;
    uint32_t seat = predicate == SEAT, place = predicate == PLACE;
    if (!seat && !place) return 1;
    struct Held held = {place_of(history, to->session), seat, place, 0, seat};
    add_held(to, &held);
    return 1;
}

/* An atom in a holder's name counts as one without. */
static int set_named(struct History *history, struct Wording *to, const struct Field *fields) {
    uint32_t holder;
    return number(fields[4], LAST_HOLDER, &holder) && set_atom(history, to, fields);
}

/* Under <1> every seat that has no nearer <K> is the house's; under another <K> none of these. */
static int set_says(struct History *history, struct Wording *to, const struct Field *fields) {
    uint32_t principal;
    if (!number(fields[2], LAST_PRINCIPAL, &principal) || !add_part(history, to, fields[3])) return 0;
    for (struct Held *held = to->held; held < to->held + to->holds; held++) {
        if (principal == HOUSE) held->house = held->under;
        else held->under = held->house;
    }
    return 1;
}

/* The line from its second field on, with its end. */
static int keep_line(struct Wording *to, const struct Field *fields, size_t count) {
    size_t length = (size_t)(fields[count - 1].at - fields[1].at) + fields[count - 1].length + 1;
    if (length > sizeof to->line) return 0;
    memcpy(to->line, fields[1].at, length);
    to->length = (uint32_t)length;
    return 1;
}

static int note_word(struct History *history, const struct Field *fields, size_t count, uint32_t answer) {
    if (answer >= WORDINGS || answer != history->wordings || fields[1].length != 1) return 0;
    int good;
    struct Wording *to = &history->wording[answer];
    *to = (struct Wording){.size = 1};
    switch (fields[1].at[0]) {
    case 'a': good = count == 4 && set_atom(history, to, fields); break;
    case 'n': good = count == 5 && set_named(history, to, fields); break;
    case 'o': good = count == 2; break;
    case 'g': good = count == 10; break;
    case 't': case 'w': case 'p': case 'l': case 'u':
        good = count == 4 && add_part(history, to, fields[2]) && add_part(history, to, fields[3]);
        break;
    case 'b': case 'q': good = count == 3 && add_part(history, to, fields[2]); break;
    case 'h': good = count == 7 && add_part(history, to, fields[2]); break;
    case 's': good = count == 4 && set_says(history, to, fields); break;
    default: good = 0;
    }
    history->wordings++;
    return keep_line(to, fields, count) && good;
}

/* ---- Coupons ---- */

/* Where the coupon with that serial is in the list, or the first with a higher one. */
static uint32_t find(const struct History *history, uint32_t serial) {
    uint32_t from = 0, to = history->live;
    while (from < to) {
        uint32_t middle = (from + to) / 2;
        if (history->coupon[middle].serial < serial) from = middle + 1;
        else to = middle;
    }
    return from;
}

const struct Coupon *history_find(const struct History *history, uint32_t serial) {
    uint32_t k = find(history, serial);
    return k < history->live && history->coupon[k].serial == serial ? &history->coupon[k] : NULL;
}

/* A coupon with the next serial. Its wording and window are fields 2 to 6, in an issue, a booking and a text. */
static int give(struct History *history, uint32_t serial, uint32_t single, const struct Field *fields) {
    struct Coupon coupon = {.serial = serial, .single = single};
    uint32_t *const MINUTES[] = {&coupon.from, &coupon.to, &coupon.first, &coupon.last};
    if (serial != history->serial + 1 || serial > LAST_SERIAL || history->live == MOST_LIVE) return 0;
    if (!wording(history, fields[2], &coupon.wording)) return 0;
    for (int k = 0; k < 4; k++)
        if (!number(fields[3 + k], LAST_MINUTE, MINUTES[k])) return 0;
    int length = (int)(fields[6].at - fields[2].at) + (int)fields[6].length;
    coupon.length = (uint32_t)snprintf((char *)coupon.line, sizeof coupon.line, "%u,%c,%.*s\n", serial,
                                       single ? 's' : 'r', length, (const char *)fields[2].at);
    history->coupon[history->live++] = coupon;
    history->serial = serial;
    return 1;
}

/* A live coupon is withdrawn, or a single is held by a booking. */
static void remove_coupon(struct History *history, uint32_t serial) {
    uint32_t k = find(history, serial);
    history->live--;
    memmove(&history->coupon[k], &history->coupon[k + 1], (history->live - k) * sizeof *history->coupon);
}

static int note_issue(struct History *history, const struct Field *fields, size_t count, uint32_t answer) {
    int single = is(fields[1], "s");
    if (count != 7 || (!single && !is(fields[1], "r")) || !give(history, answer, (uint32_t)single, fields)) return 0;
    if (single) history->wording[history->coupon[history->live - 1].wording].issued++;
    return 1;
}

/* The coupons of the lines `hold,serial` that follow the first line: each is live, and a single is so no longer. */
static int take_holds(struct History *history, const uint8_t *sheet, size_t length, uint32_t holds) {
    struct Field fields[FIELDS];
    for (; holds > 0; holds--) {
        uint32_t serial;
        if (!next_line(&sheet, &length) || split(sheet, length, fields) != 2 || !is(fields[0], "hold")) return 0;
        if (!number(fields[1], LAST_SERIAL, &serial)) return 0;
        const struct Coupon *coupon = history_find(history, serial);
        if (!coupon) return 0;
        if (coupon->single) remove_coupon(history, serial);
    }
    return 1;
}

static int note_book(struct History *history, const struct Field *fields, size_t count, uint32_t answer,
                     const uint8_t *sheet, size_t length) {
    uint32_t holds;
    return count == 9 && number(fields[7], MOST_HOLDS, &holds) && take_holds(history, sheet, length, holds) &&
           give(history, answer, 1, fields);
}

static int note_withdraw(struct History *history, const struct Field *fields, size_t count, uint32_t answer) {
    uint32_t serial;
    if (count != 2 || !number(fields[1], LAST_SERIAL, &serial) || serial != answer) return 0;
    const struct Coupon *coupon = history_find(history, serial);
    if (!coupon) return 0;
    if (coupon->single) history->wording[coupon->wording].withdrawn++;
    remove_coupon(history, serial);
    return 1;
}

/* ---- Counts ---- */

static int has(const struct Coupon *coupon, uint32_t minute) {
    int paused = coupon->last > 0 && coupon->first <= minute && minute <= coupon->last;
    return coupon->from <= minute && minute <= coupon->to && !paused;
}

void history_count_all(const struct History *history, uint32_t minute, struct Counted counted[WORDINGS]) {
    memset(counted, 0, history->sessions * sizeof *counted);
    for (const struct Wording *w = history->wording; w < history->wording + history->wordings; w++) {
        for (uint32_t k = 0; k < w->holds && w->issued + w->withdrawn > 0; k++) {
            const struct Held *held = &w->held[k];
            counted[held->at].issued += w->issued * (held->seats + held->places);
            counted[held->at].withdrawn += w->withdrawn * (held->seats + held->places);
        }
    }
    for (const struct Coupon *c = history->coupon; c < history->coupon + history->live; c++) {
        const struct Wording *w = &history->wording[c->wording];
        for (uint32_t k = 0; k < w->holds && c->single; k++) {
            const struct Held *held = &w->held[k];
            uint32_t open = has(c, minute) ? held->house : 0;
            counted[held->at].open += open;
            counted[held->at].shut += held->seats - open;
            counted[held->at].placed += held->places;
        }
    }
}

struct Counted history_count(const struct History *history, uint32_t session, uint32_t minute) {
    struct Counted counted[WORDINGS];
    history_count_all(history, minute, counted);
    for (uint32_t k = 0; k < history->sessions; k++)
        if (history->session[k] == session) return counted[k];
    return (struct Counted){0};
}

int history_agrees(const struct Counted *counted, const uint32_t answer[4]) {
    return answer[1] == counted->open && answer[2] == counted->shut && answer[3] == counted->placed;
}

static int note_tally(struct History *history, const struct Field *fields, size_t count, const uint32_t answer[4]) {
    uint32_t session, minute;
    if (count != 3 || !number(fields[1], LAST_SESSION, &session) || !number(fields[2], LAST_MINUTE, &minute)) return 0;
    struct Counted counted = history_count(history, session, minute);
    return history_agrees(&counted, answer);
}

/* ---- Sheets and texts ---- */

int history_note(struct History *history, const uint8_t *sheet, size_t length, const uint32_t answer[4]) {
    struct Field fields[FIELDS];
    int good = 0;
    if (answer[0] == 0) return 1;
    size_t count = split(sheet, length, fields);
    if (count < 2) good = 0;
    else if (answer[0] == 3) good = is(fields[0], "tally") && note_tally(history, fields, count, answer);
    else if (is(fields[0], "word")) good = note_word(history, fields, count, answer[1]);
    else if (is(fields[0], "issue")) good = note_issue(history, fields, count, answer[1]);
    else if (is(fields[0], "book")) good = note_book(history, fields, count, answer[1], sheet, length);
    else if (is(fields[0], "withdraw")) good = note_withdraw(history, fields, count, answer[1]);
    if (!good) history->unread++;
    return good;
}

/* 2 where a wording is `n` or `q`, or more coupons live than the first edition takes; else 1. */
static unsigned edition_of(const struct History *history) {
    for (uint32_t n = 0; n < history->wordings; n++)
        if (history->wording[n].line[0] == 'n' || history->wording[n].line[0] == 'q') return 2;
    return history->live > FIRST_LIVE ? 2 : 1;
}

size_t history_text(const struct History *history, uint8_t text[MOST_TEXT]) {
    size_t length = (size_t)snprintf((char *)text, MOST_TEXT, "till,%u,%u,%u,%u\n", edition_of(history),
                                     history->serial + 1, history->wordings, history->live);
    for (uint32_t n = 0; n < history->wordings; n++) {
        memcpy(text + length, history->wording[n].line, history->wording[n].length);
        length += history->wording[n].length;
    }
    for (uint32_t k = 0; k < history->live; k++) {
        memcpy(text + length, history->coupon[k].line, history->coupon[k].length);
        length += history->coupon[k].length;
    }
    return length;
}

/* The lines of a text: wordings without the word `word`, coupons with the serial in the place of `issue`. */
static int begin(struct History *history, const uint8_t *text, size_t length) {
    struct Field fields[FIELDS + 1];
    uint32_t next, wordings, coupons, serial;
    if (split(text, length, fields) != 5 || !is(fields[0], "till")) return 0;
    if (!is(fields[1], "1") && !is(fields[1], "2")) return 0; /* the till has opened it: the edition is right */
    if (!number(fields[2], LAST_SERIAL + 1, &next) || !number(fields[3], WORDINGS, &wordings)) return 0;
    if (next == 0 || !number(fields[4], MOST_LIVE, &coupons)) return 0;
    for (uint32_t n = 0; n < wordings; n++) {
        if (!next_line(&text, &length)) return 0;
        size_t count = split(text, length, fields + 1);
        if (count == 0 || !note_word(history, fields, count + 1, n)) return 0;
    }
    for (; coupons > 0; coupons--) {
        if (!next_line(&text, &length)) return 0;
        size_t count = split(text, length, fields);
        if (!number(fields[0], LAST_SERIAL, &serial) || serial <= history->serial || serial >= next) return 0;
        history->serial = serial - 1; /* those between were given before */
        if (!note_issue(history, fields, count, serial)) return 0;
    }
    history->serial = next - 1;
    return next_line(&text, &length) && length == 0;
}

int history_open(struct History *history, const uint8_t *text, size_t length) {
    uint32_t unread = history->unread;
    history_clear(history);
    int good = begin(history, text, length);
    history->unread = good ? unread : unread + 1;
    return good;
}
