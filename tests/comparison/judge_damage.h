/* Ways to make a recording that is judged one that is refused. */
#ifndef JUDGE_DAMAGE_H
#define JUDGE_DAMAGE_H

#include "judge.h"

#include <stddef.h>

/* As for a run: in the order in which their causes are looked for. */
size_t judge_damage_count(void);
unsigned judge_damage_number(size_t damage);
int judge_damage_do(size_t damage, struct judge_case *c, size_t choice);

#endif
