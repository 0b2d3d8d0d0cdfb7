#define _DEFAULT_SOURCE
#include "screen.h"
#include <errno.h>
#include <stdio.h>
#include <stdlib.h>
#include <string.h>
#include <sys/ioctl.h>
#include <unistd.h>

int screen_there(void) {
    const char *kind = getenv("TERM");
    return isatty(STDIN_FILENO) && isatty(STDOUT_FILENO) && kind && *kind && strcmp(kind, "dumb") != 0;
}

/* Ctrl-C stays a signal; Ctrl-Z and Ctrl-\ are bytes, so that nobody stops the kiosk by a slip. */
int screen_begin(struct Screen *screen) {
    if (tcgetattr(STDIN_FILENO, &screen->before) != 0) return 0;
    struct termios keys = screen->before;
    keys.c_iflag &= ~(tcflag_t)(IXON | ISTRIP | INLCR | IGNCR);
    keys.c_iflag |= ICRNL;
    keys.c_lflag &= ~(tcflag_t)(ICANON | ECHO | IEXTEN);
    keys.c_lflag |= ISIG;
    keys.c_cc[VMIN] = 1;
    keys.c_cc[VTIME] = 0;
    keys.c_cc[VSUSP] = keys.c_cc[VQUIT] = _POSIX_VDISABLE;
    return tcsetattr(STDIN_FILENO, TCSADRAIN, &keys) == 0;
}

static void send(struct Screen *screen) {
    size_t at = 0;
    while (at < screen->length && !screen->lost) {
        ssize_t count = write(STDOUT_FILENO, screen->frame + at, screen->length - at);
        if (count > 0) at += (size_t)count;
        else if (count < 0 && errno != EINTR) screen->lost = 1;
    }
    screen->length = 0;
}

/* Each row and the rest of the frame have their room: rows and columns are bounded, and so is what is put around. */
static void put(struct Screen *screen, const char *text, size_t most) {
    size_t length = strlen(text);
    if (length > most) length = most;
    memcpy(screen->frame + screen->length, text, length);
    screen->length += length;
}

void screen_end(struct Screen *screen) {
    char last[ROW_EXTRA];
    snprintf(last, sizeof last, "\033[%d;1H\r\n", screen->rows);
    put(screen, last, sizeof last);
    send(screen);
    tcsetattr(STDIN_FILENO, TCSADRAIN, &screen->before);
}

static int within(int number, int least, int most) { return number < least ? least : number > most ? most : number; }

void screen_start(struct Screen *screen) {
    struct winsize size = {0};
    int known = ioctl(STDOUT_FILENO, TIOCGWINSZ, &size) == 0 && size.ws_row > 0 && size.ws_col > 0;
    screen->rows = within(known ? size.ws_row : 24, 2, MOST_ROWS);
    screen->columns = within(known ? size.ws_col : 80, 2, MOST_COLUMNS);
    screen->row = 1;
    screen->length = 0;
}

/* The last column stays free: no terminal goes on to the next row by itself then. */
void screen_row(struct Screen *screen, int marked, const char *text) {
    char begins[ROW_EXTRA];
    if (screen->row > screen->rows) return;
    snprintf(begins, sizeof begins, "\033[%d;1H%s", screen->row++, marked ? "\033[7m" : "");
    put(screen, begins, sizeof begins);
    put(screen, text, (size_t)screen->columns - 1);
    put(screen, marked ? "\033[0m\033[K" : "\033[K", ROW_EXTRA);
}

void screen_finish(struct Screen *screen, const char *typed) {
    while (screen->row < screen->rows) screen_row(screen, 0, "");
    screen->row = screen->rows;
    screen_row(screen, 0, typed);
    put(screen, "\033[J", ROW_EXTRA); /* what is below the last row of a screen that has too many */
    send(screen);
}

static enum Key sequence(int final, int parameter) {
    switch (final) {
    case 'A': return LINE_UP;
    case 'B': return LINE_DOWN;
    case 'H': return TO_START;
    case 'F': return TO_END;
    case '~':
        if (parameter == 5) return PAGE_UP;
        if (parameter == 6) return PAGE_DOWN;
        if (parameter == 1 || parameter == 7) return TO_START;
        return parameter == 4 || parameter == 8 ? TO_END : NO_KEY;
    default: return NO_KEY;
    }
}

enum Key key_of(struct Keys *keys, uint8_t byte) {
    enum { ESCAPE = 27, DELETE = 127, BACKSPACE = 8, CTRL_D = 4, CTRL_U = 21 };
    int escape = keys->escape;
    if (byte == ESCAPE) return *keys = (struct Keys){.escape = ESCAPE}, NO_KEY;
    if (escape == ESCAPE && (byte == '[' || byte == 'O')) return keys->escape = byte, NO_KEY;
    if ((escape == '[' || escape == 'O') && byte >= ' ' && byte < '@') { /* its parameters */
        if (byte >= '0' && byte <= '9') keys->parameter = (keys->parameter * 10 + byte - '0') % 1000;
        return NO_KEY;
    }
    keys->escape = 0;
    if ((escape == '[' || escape == 'O') && byte >= '@') return sequence(byte, keys->parameter);
    switch (byte) {
    case DELETE: case BACKSPACE: return ERASE;
    case CTRL_U: return ERASE_ALL;
    case CTRL_D: return NO_MORE;
    default: return A_BYTE;
    }
}
