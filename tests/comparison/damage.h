/* Ways to make a run that is answered one that is refused. */
#ifndef DAMAGE_H
#define DAMAGE_H

#include "run.h"

#include <stddef.h>

/* How many there are, in the order in which their causes are looked for. */
size_t damage_count(void);

/* The refusal that a damage is a cause of. */
unsigned damage_number(size_t damage);

/*
 * Does a damage to a case, in the way that a choice selects.  Returns 0, with
 * nothing done, where it cannot be done: no entry to damage, say.
 *
 * Of several damages the later ones are to be done first: then none undoes
 * the cause of a refusal that comes before its own.
 */
int damage_do(size_t damage, struct run_case *c, size_t choice);

#endif
