/* The text of a refusal, as include/refusals.txt has it. Of this file nothing is proved: what the library answers does
 * not rest on it. library/build makes refusals.inc, a line `case 1: return "..";` for each. */
#include "oysterbrim.h"

const char *till_refusal_text(uint32_t refusal) {
    switch (refusal) {
#include "refusals.inc"
    default: return "not a refusal";
    }
}
