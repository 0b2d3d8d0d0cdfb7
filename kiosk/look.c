#include "look.h"
#include <stdio.h>
#include <stdlib.h>
#include <string.h>

const char *const FIGURE[FIGURES] = {"open", "shut", "placed", "withdrawn", "issued"};
const char *const VERDICT[] = {"adds up", "IS NOT AS COUNTED", "DOES NOT ADD UP"};

void look_begin(struct Look *look, unsigned sheets, const char *command) {
    const char *after = command ? " after " : "";
    look->news = 0;
    snprintf(look->when, sizeof look->when, "%s%ssheet %u", command ? command : "", after, sheets);
}

void look_clear(struct Look *look) {
    look->rows = 0;
    look->text_was_wrong = 0;
    look->wordings = look->coupons = 0;
    look->own = (struct Row){0};
}

/* A line for something that was not wrong before. */
static struct Line *news(struct Look *look) {
    struct Line *line = &look->wrong[look->news < MOST_NEWS ? look->news++ : MOST_NEWS - 1];
    *line = (struct Line){0};
    return line;
}

/* The first thing that was ever wrong stays in the banner. */
static void publish(struct Look *look, const struct Line *line) {
    if (look->banner.length == 0) look->banner = *line;
}

void look_unread(struct Look *look) {
    struct Line *line = news(look);
    line_add(line, "%s: the answer, since %s", VERDICT[NOT_AS_COUNTED], look->when);
    publish(look, line);
}

/* ---- Sessions ---- */

/* Tallies a session and holds it against the count. */
static void look_row(struct Row *row, uint32_t *till, uint32_t minute, const struct Counted *counted) {
    uint32_t scratch[TILL_SCRATCH], a[4];
    char sheet[32];
    int length = snprintf(sheet, sizeof sheet, "tally,%u,%u\n", row->session, minute);
    till_call(till, (const uint8_t *)sheet, (size_t)length, scratch, a);
    if (a[0] != 3) a[1] = a[2] = a[3] = 0;
    uint32_t now[FIGURES] = {a[1], a[2], a[3], counted->withdrawn, counted->issued};
    uint64_t sum = (uint64_t)a[1] + a[2] + a[3] + counted->withdrawn;
    memcpy(row->before, row->now, sizeof now);
    memcpy(row->now, now, sizeof now);
    row->counted = *counted;
    if (a[0] != 3 || sum != counted->issued) row->verdict = DOES_NOT_ADD_UP;
    else row->verdict = history_agrees(counted, a) ? ADDS_UP : NOT_AS_COUNTED;
}

/* The sessions of the list, and the kept one where that has it not. */
static void look_rows(struct Look *look, uint32_t *till, const struct History *history) {
    static const struct Counted NOTHING = {0};
    struct Counted counted[WORDINGS];
    int listed = 0;
    history_count_all(history, look->minute, counted);
    for (uint32_t k = 0; k < history->sessions; k++) {
        struct Row *row = &look->row[k];
        if (k >= look->rows) *row = (struct Row){.session = history->session[k]};
        row->kept = look->keeps && row->session == look->kept;
        listed |= row->kept;
        look_row(row, till, look->minute, &counted[k]);
    }
    look->rows = history->sessions;
    if (look->own.session != look->kept) look->own = (struct Row){.session = look->kept};
    look->own.kept = look->keeps && !listed;
    if (look->own.kept) look_row(&look->own, till, look->minute, &NOTHING);
}

static void add_wrong(struct Line *line, const struct Row *row) {
    const uint32_t *n = row->now;
    if (row->verdict == DOES_NOT_ADD_UP)
        line_add(line, "open %u + shut %u + placed %u + withdrawn %u, issued %u", n[OPEN], n[SHUT], n[PLACED],
                 n[WITHDRAWN], n[ISSUED]);
    else
        line_add(line, "open %u, shut %u, placed %u, counted %u, %u, %u", n[OPEN], n[SHUT], n[PLACED],
                 row->counted.open, row->counted.shut, row->counted.placed);
}

/* Says the first session that is newly wrong, and how many more there are. */
static void note_sessions(struct Look *look) {
    struct Row *first = NULL;
    unsigned more = 0;
    for (unsigned k = 0; k <= look->rows; k++) {
        struct Row *row = k < look->rows ? &look->row[k] : &look->own;
        if ((row == &look->own && !row->kept) || row->verdict == ADDS_UP || row->was_wrong) continue;
        row->was_wrong = 1;
        if (first) more++;
        else first = row;
    }
    if (!first) return;
    struct Line *line = news(look);
    line_add(line, "%s: session %u at minute %u, since %s: ", VERDICT[first->verdict], first->session, look->minute,
             look->when);
    add_wrong(line, first);
    if (more > 0) line_add(line, "; and %u more session%s", more, more > 1 ? "s" : "");
    publish(look, line);
}

/* ---- The text ---- */

/* The place of the first line that differs, and its number from 1. */
static size_t differs_at(const uint8_t *a, const uint8_t *b, size_t most, unsigned *number) {
    size_t begins = 0;
    *number = 1;
    for (size_t i = 0; i < most && a[i] == b[i]; i++) {
        if (a[i] != '\n') continue;
        begins = i + 1;
        ++*number;
    }
    return begins;
}

static void add_line_of(struct Line *line, const uint8_t *text, size_t length) {
    const uint8_t *end = memchr(text, '\n', length);
    if (length == 0) line_add(line, "not there");
    else line_add_bytes(line, text, end ? (size_t)(end - text) : length);
}

/* Holds the text that the till is closed as against the one that was counted. It is said where nothing else is: a
 * session that does not add up says more. */
static void note_text(struct Look *look, const uint32_t *till, const struct History *history) {
    uint32_t a[4];
    unsigned number;
    till_close(till, look->text, sizeof look->text, a);
    size_t length = a[0] == TILL_ACCEPTED && a[1] <= sizeof look->text ? a[1] : 0, due = history_text(history, look->counted);
    if (look->text_was_wrong || (length == due && memcmp(look->text, look->counted, due) == 0)) return;
    look->text_was_wrong = 1;
    if (look->news > 0) return;
    struct Line *line = news(look);
    size_t at = differs_at(look->text, look->counted, length < due ? length : due, &number);
    line_add(line, "%s: the till's text, since %s: line %u is ", VERDICT[NOT_AS_COUNTED], look->when, number);
    add_line_of(line, look->text + at, length - at);
    line_add(line, ", counted ");
    add_line_of(line, look->counted + at, due - at);
    publish(look, line);
}

/* ---- What changed ---- */

static void add_change(struct Look *look, struct Row *row) {
    const char *between = ":";
    if (memcmp(row->now, row->before, sizeof row->now) == 0) return;
    row->changed = look->looks;
    line_add(&look->changes, "%ssession %u", look->changes.length > 0 ? "; " : "", row->session);
    for (int k = 0; k < FIGURES; k++) {
        if (row->now[k] == row->before[k]) continue;
        line_add(&look->changes, "%s %s %u -> %u", between, FIGURE[k], row->before[k], row->now[k]);
        between = ",";
    }
}

static void add_count(struct Line *line, const char *name, uint32_t before, uint32_t now) {
    if (now != before) line_add(line, "%s%s %u -> %u", line->length > 0 ? "; " : "", name, before, now);
}

static void note_changes(struct Look *look, const struct History *history) {
    look->changes = (struct Line){0};
    for (unsigned k = 0; k < look->rows; k++) add_change(look, &look->row[k]);
    add_count(&look->changes, "wordings", look->wordings, history->wordings);
    add_count(&look->changes, "coupons", look->coupons, history->live);
    if (look->changes.length == 0) line_add(&look->changes, "nothing changed");
}

void look_at(struct Look *look, uint32_t *till, const struct History *history, int answer) {
    look->looks++;
    look_rows(look, till, history);
    if (answer) note_changes(look, history);
    look->wordings = history->wordings;
    look->coupons = history->live;
    note_sessions(look);
    note_text(look, till, history);
}

/* ---- The order ---- */

int row_shown(const struct Row *row) {
    int any = row->kept || row->was_wrong || row->verdict != ADDS_UP;
    for (int k = 0; k < FIGURES; k++) any |= row->now[k] > 0;
    return any;
}

static int by_need(const void *a, const void *b) {
    const struct Row *x = *(const struct Row *const *)a, *y = *(const struct Row *const *)b;
    int x_wrong = x->verdict != ADDS_UP, y_wrong = y->verdict != ADDS_UP;
    if (x_wrong != y_wrong) return y_wrong - x_wrong;
    if (x->kept != y->kept) return y->kept - x->kept;
    if (x->changed != y->changed) return x->changed < y->changed ? 1 : -1;
    return x->session < y->session ? -1 : 1;
}

size_t look_order(const struct Look *look, const struct Row *order[WORDINGS + 1]) {
    size_t count = 0;
    for (unsigned k = 0; k < look->rows; k++)
        if (row_shown(&look->row[k])) order[count++] = &look->row[k];
    if (look->own.kept) order[count++] = &look->own;
    qsort(order, count, sizeof *order, by_need);
    return count;
}
