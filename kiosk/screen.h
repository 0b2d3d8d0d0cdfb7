/* A terminal that the kiosk draws on: it takes keys one by one without an echo, and each drawing writes every row anew,
 * from the first to the last, cut to the width, so that nothing scrolls. */
#ifndef SCREEN_H
#define SCREEN_H

#include <stddef.h>
#include <stdint.h>
#include <termios.h>

enum { MOST_ROWS = 300, MOST_COLUMNS = 600, ROW_EXTRA = 32 };

struct Screen {
    int rows, columns, row;                      /* the size; the row that is written next, from 1 */
    int lost;                                    /* it could not be written to */
    struct termios before;
    size_t length;
    char frame[MOST_ROWS * (MOST_COLUMNS + ROW_EXTRA)];
};

/* Whether there is a terminal that understands escapes. */
int screen_there(void);

/* Keys come one by one from here on; 0 where that cannot be. And back. */
int screen_begin(struct Screen *screen);
void screen_end(struct Screen *screen);

/* A drawing: takes the size, then each row in turn, then what is typed, where the cursor stays. */
void screen_start(struct Screen *screen);
void screen_row(struct Screen *screen, int marked, const char *text);
void screen_finish(struct Screen *screen, const char *typed);

enum Key { NO_KEY, A_BYTE, LINE_UP, LINE_DOWN, PAGE_UP, PAGE_DOWN, TO_START, TO_END, ERASE, ERASE_ALL, NO_MORE };

/* Where in an escape sequence the keys are. */
struct Keys {
    int escape, parameter;
};

/* The key that ends with this byte, if one does. A byte that is no key is A_BYTE. */
enum Key key_of(struct Keys *keys, uint8_t byte);

#endif
