/*
 * ranked.h: the best layouts of an accepted job of any size, of either form: how many, 0 where the
 * squares leave none, and each by its place in the paper's order. Between two arms the pad furthest
 * right takes a port from which its leader meets no square; then the pads below its arm and those
 * above it go on, each for themselves. The first pad has no arms beside it. What was found of the
 * pads between two arms is kept, so that it is found once.
 */
#ifndef RANKED_H
#define RANKED_H

#include <stddef.h>
#include <stdint.h>

#include "plain.h"

#define RANKED_MOST ((uint64_t)1 << 62) /* stands for more than so many, too */

/* Takes a job, on which the others then speak; of more than so many places none is known. */
void rank_job(const struct given *g);
int64_t ranked_total(void);
uint64_t ranked_count(void);
void ranked_sheet(uint64_t place, uint16_t *layout);

#endif
