#include "line.h"
#include <stdio.h>
#include <string.h>

/* What was added was longer than the room. */
static void cut(struct Line *line) {
    line->length = LINE_MOST;
    memcpy(line->at + LINE_MOST - 2, "..", 3);
}

void line_add_values(struct Line *line, const char *form, va_list values) {
    size_t room = LINE_MOST - line->length;
    int length = vsnprintf(line->at + line->length, room + 1, form, values);
    if (length < 0 || (size_t)length > room) cut(line);
    else line->length += (size_t)length;
}

void line_add(struct Line *line, const char *form, ...) {
    va_list values;
    va_start(values, form);
    line_add_values(line, form, values);
    va_end(values);
}

size_t line_width(uint8_t byte) {
    if (byte == '\\' || byte == '\t' || byte == '\r') return 2;
    return byte >= ' ' && byte <= '~' ? 1 : 4;
}

void line_add_bytes(struct Line *line, const uint8_t *bytes, size_t length) {
    for (size_t i = 0; i < length; i++) {
        uint8_t byte = bytes[i];
        if (line->length == LINE_MOST) return cut(line);
        if (byte == '\\') line_add(line, "\\\\");
        else if (byte == '\t') line_add(line, "\\t");
        else if (byte == '\r') line_add(line, "\\r");
        else if (line_width(byte) > 1) line_add(line, "\\x%02x", byte);
        else {
            line->at[line->length++] = (char)byte;
            line->at[line->length] = 0;
        }
    }
}

void line_add_sheet(struct Line *line, const uint8_t *sheet, size_t length) {
    const uint8_t *end;
    if (length == 0) line_add(line, "(empty)");
    while (length > 0 && line->length < LINE_MOST && (end = memchr(sheet, '\n', length)) != NULL) {
        size_t count = (size_t)(end - sheet);
        line_add_bytes(line, sheet, count);
        sheet += count + 1, length -= count + 1;
        if (length > 0) line_add(line, " / ");
    }
    if (length > 0) {
        line_add_bytes(line, sheet, length);
        line_add(line, " (no line end)");
    }
}
