/* Wordings and coupons spelled out, from the recount's lines. */
#ifndef SPELL_H
#define SPELL_H

#include "line.h"
#include "recount.h"

/* `3 s,1,0: <1>seat 7` */
void spell_wording(struct Line *line, const struct History *history, uint32_t n);

/* `2 single 0..600, wording 3: <1>seat 7` */
void spell_coupon(struct Line *line, const struct History *history, const struct Coupon *coupon);

#endif
