/* Guard words before and after what is lent to the library, and whether they are as they were. */
#ifndef GUARDS_H
#define GUARDS_H

#include <stdint.h>

enum { GUARD = 16 };

static const uint32_t MARK = 0xA5C3965Au;

static void mark(uint32_t guard[GUARD]) {
    for (int i = 0; i < GUARD; i++) guard[i] = MARK;
}

static int marked(const uint32_t guard[GUARD]) {
    for (int i = 0; i < GUARD; i++)
        if (guard[i] != MARK) return 0;
    return 1;
}

#endif
