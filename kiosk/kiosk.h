/* The kiosk: one till, the sheets that are handed to it, and what there is to be seen of both. */
#ifndef KIOSK_H
#define KIOSK_H

#include "log.h"
#include "look.h"
#include "oysterbrim.h"
#include "recount.h"
#include "screen.h"

enum { COMMAND = 1024 };

/* A script has nobody to ask; a plain terminal gets lines and a prompt; a screen is drawn on. */
enum Mode { SCRIPT, PLAIN, SCREEN };

/* What stands below the panel. */
enum Shows { THE_LOG, THE_WORDINGS, THE_COUPONS, THE_HELP };

struct View {
    enum Shows shows;
    int follows;                                 /* the last line stays in view */
    unsigned top, height;                        /* the first line in view; how many were at the last drawing */
};

/* Bytes on their way to be sheets and commands. Of a sheet and of a line one byte too many is kept, which is refused as
 * any longer one would be. */
struct Input {
    int commands;                                /* lines that begin with a colon are commands */
    size_t length, typed;
    uint8_t sheet[TILL_SHEET_BYTES + 1], line[TILL_SHEET_BYTES + 1];
};

struct Kiosk {
    enum Mode mode;
    int leave, lost, unsaved;                    /* was told to leave; cannot write; the till has what no file has */
    unsigned accepted, refused;
    char asked[COMMAND + 1];                     /* a command that waits for a yes, or nothing */
    uint32_t till[TILL_NUMBERS], spare[TILL_NUMBERS];
    uint8_t text[TILL_TEXT_BYTES + 1];           /* one byte more: a longer text is refused as this one would be */
    struct History *history;
    struct Look look;
    struct Log log;
    struct View view;
    struct Input input;
    struct Keys keys;
    struct Screen screen;
};

/* One line to standard output. */
void print(struct Kiosk *kiosk, const char *line);

/* One line, to the log and, without a screen, to standard output. */
__attribute__((format(printf, 2, 3))) void say(struct Kiosk *kiosk, const char *form, ...);

/* An answer of the till with what it answers: `number` is the sheet's, 0 for an opening or a closing. */
void say_answer(struct Kiosk *kiosk, unsigned number, const struct Line *sheet, const uint32_t a[4], const char *words);

/* How many sheets were handed over. */
unsigned sheets(const struct Kiosk *kiosk);

/* Looks at the till where no sheet was answered, and says what is newly wrong; look_begin comes before. */
void look_again(struct Kiosk *kiosk);

/* All bytes of a file up to its end; 0 where they cannot be read, with the reason in errno (EINTR: Ctrl-C). */
int read_sheets(struct Kiosk *kiosk, int file, struct Input *input);

/* What is left in the input is a sheet. */
void hand_rest(struct Kiosk *kiosk, struct Input *input);

/* ---- commands.c ---- */

void run_command(struct Kiosk *kiosk, const char *command);

/* What `:help` shows. */
unsigned help_count(void);
const char *help_line(unsigned n);

/* ---- view.c ---- */

/* Shows something from its first line on, or the log's end; without a screen all of it is printed. */
void view_show(struct Kiosk *kiosk, enum Shows shows, unsigned top);
void view_log_end(struct Kiosk *kiosk);
void view_key(struct Kiosk *kiosk, enum Key key);

/* How many lines there are, the first in view, the n-th. */
unsigned view_count(const struct Kiosk *kiosk);
unsigned view_top(const struct Kiosk *kiosk);
void view_line(const struct Kiosk *kiosk, unsigned n, struct Line *line);

/* ---- panel.c ---- */

/* A session as a line of words. */
void panel_line(struct Line *line, const struct Row *row, uint32_t minute);

void draw(struct Kiosk *kiosk);

#endif
