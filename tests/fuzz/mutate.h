/* Sheets that nobody would write: changed ones, made ones and bytes of no meaning. */
#ifndef MUTATE_H
#define MUTATE_H

#include "recount.h"

enum { MOST = 1 << 16 };

struct Sheet {
    uint8_t *bytes;
    size_t length;
};

/* A sheet that is being changed. */
struct Draft {
    uint8_t bytes[MOST];
    size_t length;
};

/* A number below `end`, which is not 0. */
uint32_t below(uint64_t *seed, uint32_t end);

void draft_copy(struct Draft *draft, const struct Sheet *sheet);
/* One to four changes; `other` lends lines. */
void draft_change(struct Draft *draft, const struct Sheet *other, uint64_t *seed);
/* Bytes of a random length, any or those that sheets have. */
void draft_noise(struct Draft *draft, uint64_t *seed);
/* A sheet that a till with this history may well accept. */
void draft_make(struct Draft *draft, const struct History *history, uint64_t *seed);

#endif
