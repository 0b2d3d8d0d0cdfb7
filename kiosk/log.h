/* What was said, line by line, with the sheet that it belongs to. The last lines are kept. */
#ifndef LOG_H
#define LOG_H

#include "line.h"

enum { LOG_LINES = 4096 };

struct Log {
    unsigned count;                              /* of all lines that were ever said */
    unsigned sheet[LOG_LINES];
    struct Line line[LOG_LINES];                 /* line n stands at n modulo LOG_LINES */
};

void log_add(struct Log *log, unsigned sheet, const struct Line *line);

/* How many lines are kept; the n-th of these. */
unsigned log_kept(const struct Log *log);
const struct Line *log_line(const struct Log *log, unsigned n);

/* The first kept line of that sheet or a later one; the number of kept lines where there is none. */
unsigned log_from(const struct Log *log, unsigned sheet);

#endif
