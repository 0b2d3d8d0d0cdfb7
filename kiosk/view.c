/* What stands below the panel and can be scrolled: the log, the wordings, the coupons, the commands. */
#include "kiosk.h"
#include "spell.h"
#include <string.h>

/* The n-th line of the sheet that is begun, and how long it is; NULL where there are fewer. */
static const uint8_t *begun_line(const struct Input *input, unsigned n, size_t *length) {
    const uint8_t *at = input->sheet, *end = input->sheet + input->length;
    while (at < end) {
        const uint8_t *stop = memchr(at, '\n', (size_t)(end - at));
        *length = (size_t)((stop ? stop : end) - at);
        if (n-- == 0) return at;
        at += *length + 1;
    }
    return NULL;
}

static unsigned begun_count(const struct Input *input) {
    unsigned count = 0;
    for (size_t i = 0; i < input->length; i++) count += input->sheet[i] == '\n';
    return count;
}

unsigned view_count(const struct Kiosk *kiosk) {
    switch (kiosk->view.shows) {
    case THE_WORDINGS: return kiosk->history->wordings;
    case THE_COUPONS: return kiosk->history->live;
    case THE_HELP: return help_count();
    default: return log_kept(&kiosk->log) + begun_count(&kiosk->input);
    }
}

/* The log's lines, then those of the sheet that is begun. */
static void log_or_begun(const struct Kiosk *kiosk, unsigned n, struct Line *line) {
    size_t length = 0;
    unsigned kept = log_kept(&kiosk->log);
    if (n < kept) {
        *line = *log_line(&kiosk->log, n);
        return;
    }
    const uint8_t *begun = begun_line(&kiosk->input, n - kept, &length);
    line_add(line, "> ");
    if (begun) line_add_bytes(line, begun, length);
}

void view_line(const struct Kiosk *kiosk, unsigned n, struct Line *line) {
    *line = (struct Line){0};
    switch (kiosk->view.shows) {
    case THE_WORDINGS: spell_wording(line, kiosk->history, n); break;
    case THE_COUPONS: spell_coupon(line, kiosk->history, &kiosk->history->coupon[n]); break;
    case THE_HELP: line_add(line, "%s", help_line(n)); break;
    default: log_or_begun(kiosk, n, line);
    }
}

/* ---- Scrolling ---- */

/* The highest first line with which nothing but lines is in view. */
static unsigned last_top(const struct Kiosk *kiosk) {
    unsigned count = view_count(kiosk), height = kiosk->view.height;
    return count > height ? count - height : 0;
}

unsigned view_top(const struct Kiosk *kiosk) {
    unsigned last = last_top(kiosk);
    return kiosk->view.follows || kiosk->view.top > last ? last : kiosk->view.top;
}

void view_log_end(struct Kiosk *kiosk) {
    kiosk->view.shows = THE_LOG;
    kiosk->view.follows = 1;
}

void view_key(struct Kiosk *kiosk, enum Key key) {
    struct View *view = &kiosk->view;
    unsigned top = view_top(kiosk), last = last_top(kiosk), page = view->height > 0 ? view->height : 1;
    switch (key) {
    case LINE_UP: top -= top > 0; break;
    case LINE_DOWN: top++; break;
    case PAGE_UP: top -= top > page ? page : top; break;
    case PAGE_DOWN: top += page; break;
    case TO_START: top = 0; break;
    default: top = last;
    }
    view->top = top < last ? top : last;
    view->follows = view->shows == THE_LOG && view->top == last;
}

void view_show(struct Kiosk *kiosk, enum Shows shows, unsigned top) {
    struct Line line;
    kiosk->view.shows = shows;
    kiosk->view.follows = 0;
    kiosk->view.top = top;
    if (kiosk->mode == SCREEN) return;
    if (view_count(kiosk) == 0) print(kiosk, "none");
    for (unsigned n = top; n < view_count(kiosk); n++) {
        view_line(kiosk, n, &line);
        print(kiosk, line.at);
    }
}
