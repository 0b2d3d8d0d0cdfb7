#include "log.h"

void log_add(struct Log *log, unsigned sheet, const struct Line *line) {
    log->sheet[log->count % LOG_LINES] = sheet;
    log->line[log->count % LOG_LINES] = *line;
    log->count++;
}

unsigned log_kept(const struct Log *log) { return log->count < LOG_LINES ? log->count : LOG_LINES; }

static unsigned place(const struct Log *log, unsigned n) { return (log->count - log_kept(log) + n) % LOG_LINES; }

const struct Line *log_line(const struct Log *log, unsigned n) { return &log->line[place(log, n)]; }

unsigned log_from(const struct Log *log, unsigned sheet) {
    unsigned n = 0;
    while (n < log_kept(log) && log->sheet[place(log, n)] < sheet) n++;
    return n;
}
