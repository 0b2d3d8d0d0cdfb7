/* Memory to lend to the library: whole pages with a page before and after that cannot be touched. What is lent begins
 * where they begin, or ends where they end, in turn; the rest of them is marked. */
#ifndef ROOMS_H
#define ROOMS_H

#include <stdint.h>
#include <stdlib.h>
#include <string.h>
#include <sys/mman.h>

enum { ROOM_PAGE = 4096, ROOM_MARK = 0xA5 };

struct Room {
    uint8_t *from, *at; /* the pages, and what is lent */
    size_t size, length;
    int low;
};

/* Room for so many bytes. */
static struct Room room_for(size_t most) {
    size_t size = (most + ROOM_PAGE - 1) / ROOM_PAGE * ROOM_PAGE;
    uint8_t *all = mmap(NULL, size + 2 * ROOM_PAGE, PROT_READ | PROT_WRITE, MAP_PRIVATE | MAP_ANONYMOUS, -1, 0);
    if (all == MAP_FAILED || mprotect(all, ROOM_PAGE, PROT_NONE)) exit(2);
    if (mprotect(all + ROOM_PAGE + size, ROOM_PAGE, PROT_NONE)) exit(2);
    memset(all + ROOM_PAGE, ROOM_MARK, size);
    return (struct Room){all + ROOM_PAGE, all + ROOM_PAGE, size, 0, 0};
}

/* Lends so many bytes; nothing is marked. */
static uint8_t *lend_unmarked(struct Room *room, size_t length) {
    room->low = !room->low;
    room->length = length;
    return room->at = room->low ? room->from : room->from + room->size - length;
}

/* Lends so many bytes; what was lent before is gone. */
static uint8_t *lend(struct Room *room, size_t length) {
    memset(room->from, ROOM_MARK, room->size);
    return lend_unmarked(room, length);
}

static int all_marked(const uint8_t *at, size_t length) {
    return length == 0 || (at[0] == ROOM_MARK && memcmp(at, at + 1, length - 1) == 0);
}

/* Whether the bytes beside what is lent are as they were. */
static int beside_stays(const struct Room *room) {
    const uint8_t *end = room->at + room->length;
    return all_marked(room->from, (size_t)(room->at - room->from)) &&
           all_marked(end, (size_t)(room->from + room->size - end));
}

/* What is lent can only be read, or is written again. */
static void read_only(const struct Room *room, int only) {
    if (mprotect(room->from, room->size, only ? PROT_READ : PROT_READ | PROT_WRITE)) exit(2);
}

#endif
