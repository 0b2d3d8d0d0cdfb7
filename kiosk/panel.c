/* The panel and what is below it, drawn on a screen of any size. */
#include "kiosk.h"
#include <string.h>

enum { WIDE = 78, TALL = 20, LOW = 12, LEAST = 8 };

/* How many rows each part of the screen gets. */
struct Layout {
    unsigned banner, heads, sessions, view;
};

void panel_line(struct Line *line, const struct Row *row, uint32_t minute) {
    const uint32_t *n = row->now;
    line_add(line, "panel session %u minute %u: open %u (house seats) + shut %u + placed %u", row->session, minute,
             n[OPEN], n[SHUT], n[PLACED]);
    line_add(line, " + withdrawn %u = issued %u, %s", n[WITHDRAWN], n[ISSUED], VERDICT[row->verdict]);
}

/* The banner takes up to three rows where there are many, the sessions what the log can spare. */
static struct Layout layout_of(const struct Kiosk *kiosk, unsigned sessions) {
    unsigned rows = (unsigned)kiosk->screen.rows, width = (unsigned)kiosk->screen.columns - 1;
    struct Layout l = {0, 0, 0, 0};
    unsigned left = rows - 2, log = rows >= TALL ? 6 : rows >= LOW ? 3 : 1; /* the title; the place to type */
    unsigned most = rows >= TALL ? 3 : rows >= LOW ? 2 : 1;
    l.banner = (unsigned)(kiosk->look.banner.length + width - 1) / width;
    if (l.banner > most) l.banner = most;
    if (l.banner > left) l.banner = left;
    left -= l.banner;
    if (rows >= LEAST) {
        l.heads = 3; /* the columns' names, what changed, what is in view */
        left -= l.heads;
        l.sessions = sessions > 0 ? sessions : 1;
        if (l.sessions + log > left) l.sessions = left - log;
    }
    l.view = left - l.sessions;
    return l;
}

static void draw_title(struct Kiosk *kiosk) {
    struct Line line = {0};
    line_add(&line, "TILL  minute %u  coupons %u%s  wordings %u  sheets %u ok, %u no", kiosk->look.minute,
             kiosk->history->live, kiosk->unsaved ? " (not saved)" : "", kiosk->history->wordings, kiosk->accepted,
             kiosk->refused);
    screen_row(&kiosk->screen, 0, line.at);
}

static void draw_banner(struct Kiosk *kiosk, unsigned rows) {
    const char *at = kiosk->look.banner.at;
    size_t width = (size_t)kiosk->screen.columns - 1;
    for (; rows > 0; rows--) {
        screen_row(&kiosk->screen, 1, at);
        at += strlen(at) > width ? width : strlen(at);
    }
}

static const char *mark_of(const struct Row *row, int wide) {
    if (row->verdict != ADDS_UP) return wide ? VERDICT[row->verdict] : "NO";
    if (row->was_wrong) return wide ? "adds up again" : "ok!";
    return wide ? VERDICT[ADDS_UP] : "ok";
}

static void draw_session(struct Kiosk *kiosk, const struct Row *row) {
    struct Line line = {0};
    const uint32_t *n = row->now;
    int wide = kiosk->screen.columns >= WIDE;
    const char *mark = mark_of(row, wide);
    if (wide)
        line_add(&line, "%7u %10u %9u %9u %9u %9u  %s", row->session, n[OPEN], n[SHUT], n[PLACED], n[WITHDRAWN],
                 n[ISSUED], mark);
    else
        line_add(&line, "%5u %4u %4u %6u %5u %6u %s", row->session, n[OPEN], n[SHUT], n[PLACED], n[WITHDRAWN],
                 n[ISSUED], mark);
    screen_row(&kiosk->screen, row->verdict != ADDS_UP, line.at);
}

/* The sessions that have no row. */
static void draw_more(struct Kiosk *kiosk, const struct Row *const *more, size_t count) {
    struct Line line = {0};
    unsigned wrong = 0;
    for (size_t k = 0; k < count; k++) wrong += more[k]->verdict != ADDS_UP;
    line_add(&line, "and %zu more session%s, ", count, count == 1 ? "" : "s");
    if (wrong == 0) line_add(&line, "all add up");
    else line_add(&line, "%u of these not as counted", wrong);
    screen_row(&kiosk->screen, wrong > 0, line.at);
}

static void draw_sessions(struct Kiosk *kiosk, const struct Row *const *order, size_t count, unsigned rows) {
    int wide = kiosk->screen.columns >= WIDE;
    struct Line names = {0};
    if (wide) line_add(&names, "session house open      shut    placed withdrawn    issued");
    else line_add(&names, "sess. open shut placed withd issued");
    screen_row(&kiosk->screen, 0, names.at);
    size_t shown = count <= rows ? count : rows - 1;
    if (count == 0) screen_row(&kiosk->screen, 0, "nothing was issued");
    for (size_t k = 0; k < shown; k++) draw_session(kiosk, order[k]);
    if (shown < count && rows > 0) draw_more(kiosk, order + shown, count - shown);
}

/* What is in view, as the line above it. */
static void draw_rule(struct Kiosk *kiosk, unsigned top, unsigned height) {
    static const char *const NAME[] = {"log", "wordings", "coupons", "commands"};
    struct Line line = {0};
    unsigned count = view_count(kiosk);
    line_add(&line, "-- %s", NAME[kiosk->view.shows]);
    if (count > height) line_add(&line, ", %u to %u of %u (PgUp, PgDn)", top + 1, top + height, count);
    else if (count == 0) line_add(&line, ", none");
    line_add(&line, " -- :help ");
    while (line.length + 1 < (size_t)kiosk->screen.columns && line.length < LINE_MOST) line_add(&line, "-");
    screen_row(&kiosk->screen, 0, line.at);
}

static void draw_view(struct Kiosk *kiosk, unsigned height, int ruled) {
    struct Line line;
    kiosk->view.height = height;
    unsigned top = view_top(kiosk), count = view_count(kiosk);
    if (ruled) draw_rule(kiosk, top, height);
    for (unsigned n = top; n < count && n < top + height; n++) {
        view_line(kiosk, n, &line);
        screen_row(&kiosk->screen, 0, line.at);
    }
}

/* The place to type: the last bytes of the line that have room. */
static void draw_typed(struct Kiosk *kiosk) {
    struct Line line = {0};
    const struct Input *input = &kiosk->input;
    size_t from = input->typed, width = (size_t)kiosk->screen.columns;
    line_add(&line, "%s", kiosk->asked[0] ? "(y) > " : input->length > 0 ? "(sheet) > " : "> ");
    size_t room = width > line.length + 2 ? width - line.length - 2 : 0;
    if (room > LINE_MOST - line.length - 2) room = LINE_MOST - line.length - 2;
    while (from > 0 && line_width(input->line[from - 1]) <= room) room -= line_width(input->line[--from]);
    if (from > 0) line_add(&line, "<");
    line_add_bytes(&line, input->line + from, input->typed - from);
    screen_finish(&kiosk->screen, line.at);
}

void draw(struct Kiosk *kiosk) {
    const struct Row *order[WORDINGS + 1];
    size_t count = look_order(&kiosk->look, order);
    screen_start(&kiosk->screen);
    struct Layout l = layout_of(kiosk, (unsigned)count);
    draw_title(kiosk);
    draw_banner(kiosk, l.banner);
    if (l.heads > 0) {
        struct Line changes = {0};
        draw_sessions(kiosk, order, count, l.sessions);
        line_add(&changes, "last answer: %s", kiosk->look.changes.at);
        screen_row(&kiosk->screen, 0, changes.at);
    }
    draw_view(kiosk, l.view, l.heads > 0);
    draw_typed(kiosk);
}
