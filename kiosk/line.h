/* Lines to be shown: of bounded length, with printable characters alone. One that does not fit is cut and ends with
 * `..`. */
#ifndef LINE_H
#define LINE_H

#include <stdarg.h>
#include <stddef.h>
#include <stdint.h>

enum { LINE_MOST = 240 };

struct Line {
    size_t length;
    char at[LINE_MOST + 1];
};

/* Adds text at the end. */
__attribute__((format(printf, 2, 3))) void line_add(struct Line *line, const char *form, ...);
void line_add_values(struct Line *line, const char *form, va_list values);

/* Adds bytes: those that are printable as they are, a backslash twice, others as \t, \r, \xNN. */
void line_add_bytes(struct Line *line, const uint8_t *bytes, size_t length);

/* How many characters a byte is then. */
size_t line_width(uint8_t byte);

/* Adds a sheet: its lines parted by ` / `, and a note where the last has no end. */
void line_add_sheet(struct Line *line, const uint8_t *sheet, size_t length);

#endif
