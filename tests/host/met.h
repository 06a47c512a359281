/* Counts of what the calls have met. */
#ifndef MET_H
#define MET_H

#include "both.h"

/* Takes a call that both sides answered alike: the slices before it, its number and the answer
 * left. */
void meet(const struct call *c, const struct slice *image, const struct slice *answer,
          uint32_t number, const uint8_t *left);

#endif
