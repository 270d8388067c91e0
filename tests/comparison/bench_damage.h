/* Ways to make an accepted image one that is refused. */
#ifndef BENCH_DAMAGE_H
#define BENCH_DAMAGE_H

#include "bench.h"

#include <stddef.h>

/* How many there are, in order of the refusals they are a cause of. */
size_t bench_damage_count(void);

/* The refusal that a damage is a cause of, 1 to 4. */
unsigned bench_damage_number(size_t damage);

/*
 * Does a damage, in the way that a choice selects.  Returns 0, with nothing
 * done, where it cannot be done: no entry to damage, say.
 *
 * Of several damages the later ones are to be done first: then none undoes
 * the cause of a lower refusal.
 */
int bench_damage_do(size_t damage, struct bench *b, size_t choice);

#endif
