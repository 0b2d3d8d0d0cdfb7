/* What can be typed that is no sheet. */
#define _POSIX_C_SOURCE 200809L
#include "fields.h"
#include "files.h"
#include "kiosk.h"
#include <errno.h>
#include <fcntl.h>
#include <stdio.h>
#include <stdlib.h>
#include <string.h>
#include <unistd.h>

/* ---- Asking ---- */

/* Whether what would lose live coupons that no file has may be done: a script is not asked; a person is, and says yes
 * by `y` or by the same command again. */
static int may(struct Kiosk *kiosk, const char *command, const char *what) {
    int yes = strcmp(kiosk->asked, command) == 0;
    unsigned live = kiosk->history->live;
    kiosk->asked[0] = 0;
    if (kiosk->mode == SCRIPT || !kiosk->unsaved || live == 0 || yes) return 1;
    say(kiosk, "%u live coupon%s not saved (:save FILE). %s? y, or the same again", live,
        live == 1 ? " is" : "s are", what);
    snprintf(kiosk->asked, sizeof kiosk->asked, "%s", command);
    kiosk->input.typed = 0; /* the reply is the next line */
    return 0;
}

static void quit(struct Kiosk *kiosk, const char *command, const char *text) {
    (void)text;
    if (may(kiosk, command, "Leave")) kiosk->leave = 1;
}

/* ---- Files ---- */

/* A command with its file, for a line: what was typed may have any bytes. */
static struct Line named(const char *command) {
    struct Line line = {0};
    line_add_bytes(&line, (const uint8_t *)command, strlen(command));
    return line;
}

static void play_file(struct Kiosk *kiosk, const char *command, const char *name) {
    struct Line shown = named(command);
    struct Input *input = calloc(1, sizeof *input);
    int file = input ? open(name, O_RDONLY | O_NONBLOCK | O_CLOEXEC) : -1;
    unsigned accepted = kiosk->accepted, refused = kiosk->refused;
    if (file < 0) {
        say(kiosk, "%s: cannot open that file: %s", shown.at, strerror(errno));
    } else {
        if (read_sheets(kiosk, file, input)) hand_rest(kiosk, input);
        else say(kiosk, "%s: cannot read that file to its end: %s", shown.at, strerror(errno));
        close(file);
        accepted = kiosk->accepted - accepted, refused = kiosk->refused - refused;
        if (kiosk->mode != SCRIPT && accepted + refused > 0)
            say(kiosk, "%s: %u sheets accepted, %u refused", shown.at, accepted, refused);
    }
    free(input);
}

/* What was saved before stays where this fails. */
static void save(struct Kiosk *kiosk, const char *command, const char *name) {
    struct Line shown = named(command);
    uint32_t a[4];
    till_close(kiosk->till, kiosk->text, TILL_TEXT_BYTES, a);
    if (a[0] == TILL_ACCEPTED && !file_write(name, kiosk->text, a[1])) {
        say(kiosk, "%s: cannot save to that file: %s", shown.at, strerror(errno));
        return;
    }
    if (a[0] == TILL_ACCEPTED) kiosk->unsaved = 0;
    say_answer(kiosk, 0, &shown, a, "bytes of text saved");
}

/* The till is another: what was said of the one before is said no longer, but for the banner. */
static void begin_anew(struct Kiosk *kiosk, const char *what) {
    kiosk->unsaved = 0;
    look_clear(&kiosk->look);
    kiosk->look.changes = (struct Line){0};
    line_add(&kiosk->look.changes, "%s: %u wordings, %u coupons", what, kiosk->history->wordings, kiosk->history->live);
    look_again(kiosk);
}

/* A text that is opened takes the till's place, and the count begins there; a refused one changes nothing. */
static void open_saved(struct Kiosk *kiosk, const char *command, const char *name) {
    struct Line shown = named(command);
    size_t length;
    uint32_t a[4];
    if (!may(kiosk, command, "Open")) return;
    if (!file_read(name, kiosk->text, sizeof kiosk->text, &length)) {
        say(kiosk, "%s: cannot read that file: %s", shown.at, strerror(errno));
        return;
    }
    till_open(kiosk->till, kiosk->spare, kiosk->text, length, a);
    say_answer(kiosk, 0, &shown, a, "bytes of text opened; issued begins at what its singles hold");
    look_begin(&kiosk->look, sheets(kiosk), ":open");
    if (a[0] != 1) {
        look_again(kiosk);
        return;
    }
    if (!history_open(kiosk->history, kiosk->text, length)) look_unread(&kiosk->look);
    begin_anew(kiosk, "that text's till");
}

static void begin_empty(struct Kiosk *kiosk, const char *command, const char *text) {
    (void)text;
    if (!may(kiosk, command, "Begin anew")) return;
    till_start(kiosk->till);
    history_clear(kiosk->history);
    look_begin(&kiosk->look, sheets(kiosk), ":new");
    say(kiosk, ":new: an empty till");
    begin_anew(kiosk, "an empty till");
}

/* ---- The panel ---- */

static int argument(const char *text, uint32_t most, uint32_t *value) {
    return number((struct Field){(const uint8_t *)text, strlen(text)}, most, value);
}

static void keep_session(struct Kiosk *kiosk, const char *command, const char *text) {
    (void)command;
    if (!argument(text, LAST_SESSION, &kiosk->look.kept)) {
        say(kiosk, "a session is a number from 0 to %u", LAST_SESSION);
        return;
    }
    kiosk->look.keeps = 1;
    look_begin(&kiosk->look, sheets(kiosk), ":session");
    look_again(kiosk);
}

static void set_minute(struct Kiosk *kiosk, const char *command, const char *text) {
    (void)command;
    if (!argument(text, LAST_MINUTE, &kiosk->look.minute)) {
        say(kiosk, "a minute is a number from 0 to %u", LAST_MINUTE);
        return;
    }
    look_begin(&kiosk->look, sheets(kiosk), ":minute");
    look_again(kiosk);
}

static void say_panel(struct Kiosk *kiosk, const char *command, const char *text) {
    (void)command, (void)text;
    const struct Row *order[WORDINGS + 1];
    size_t count = look_order(&kiosk->look, order);
    if (count == 0) say(kiosk, "panel minute %u: nothing was issued", kiosk->look.minute);
    for (size_t k = 0; k < count; k++) {
        struct Line line = {0};
        panel_line(&line, order[k], kiosk->look.minute);
        say(kiosk, "%s", line.at);
    }
}

/* ---- What is in view ---- */

static void show_log(struct Kiosk *kiosk, const char *command, const char *text) {
    (void)command;
    uint32_t sheet;
    if (*text != 0 && argument(text, UINT32_MAX, &sheet)) {
        view_show(kiosk, THE_LOG, log_from(&kiosk->log, sheet));
    } else if (*text != 0) {
        say(kiosk, ":log takes the number of a sheet");
    } else if (kiosk->mode != SCREEN) {
        view_show(kiosk, THE_LOG, 0);
    } else {
        if (kiosk->view.shows != THE_LOG) view_log_end(kiosk);
        view_key(kiosk, PAGE_UP);
    }
}

static void show_wordings(struct Kiosk *kiosk, const char *command, const char *text) {
    (void)command, (void)text;
    view_show(kiosk, THE_WORDINGS, 0);
}

static void show_coupons(struct Kiosk *kiosk, const char *command, const char *text) {
    (void)command, (void)text;
    view_show(kiosk, THE_COUPONS, 0);
}

static void help(struct Kiosk *kiosk, const char *command, const char *text) {
    (void)command, (void)text;
    view_show(kiosk, THE_HELP, 0);
}

static void drop(struct Kiosk *kiosk, const char *command, const char *text) {
    (void)command, (void)text;
    say(kiosk, "dropped what was typed of a sheet: %zu bytes", kiosk->input.length);
    kiosk->input.length = 0;
}

/* ---- The table ---- */

static const struct Command {
    const char *name, *words;
    void (*run)(struct Kiosk *, const char *, const char *);
} COMMANDS[] = {{":file", ":file FILE   hands over the sheets of a file, parted by empty lines", play_file},
                {":save", ":save FILE   writes the till to a file, as text", save},
                {":open", ":open FILE   opens a text in the till's place; a refused one changes nothing", open_saved},
                {":new", ":new         an empty till in its place", begin_empty},
                {":minute", ":minute M    the panel's minute, 0 to 9999999", set_minute},
                {":session", ":session N   keeps session N in view, 0 to 65535", keep_session},
                {":panel", ":panel       every session of the panel, in words", say_panel},
                {":log", ":log [N]     the page before this one, or from sheet N on; PgUp, PgDn, arrows", show_log},
                {":wordings", ":wordings    every wording: its number, its line, spelled out", show_wordings},
                {":coupons", ":coupons     every live coupon: serial, kind, window, wording", show_coupons},
                {":drop", ":drop        drops a sheet that is begun", drop},
                {":help", ":help        these lines", help},
                {":quit", ":quit        leaves; so do Ctrl-C and Ctrl-D", quit}};

enum { COUNT = sizeof COMMANDS / sizeof *COMMANDS };

unsigned help_count(void) { return COUNT; }

const char *help_line(unsigned n) { return COMMANDS[n].words; }

void run_command(struct Kiosk *kiosk, const char *command) {
    for (int i = 0; i < COUNT; i++) {
        size_t name = strlen(COMMANDS[i].name);
        if (strncmp(command, COMMANDS[i].name, name) != 0) continue;
        const char *rest = command + name;
        if (*rest != 0 && *rest != ' ') continue;
        while (*rest == ' ') rest++;
        COMMANDS[i].run(kiosk, command, rest);
        return;
    }
    say(kiosk, "no such command; :help lists them");
}
