/* Room for what a call writes: just enough, a little more, or too little. */
#ifndef ROOM_H
#define ROOM_H

#include "dice.h"

#include <stddef.h>
#include <stdint.h>

/* Room that the group of a small case leaves open. */
#define ENOUGH SIZE_MAX

/* What a group says; else what is needed, and at times some bytes more. */
size_t room_or_enough(size_t said, size_t needed, size_t more);

/* Two bytes less than is needed to two more, by a digit of a case's number. */
size_t room_around(size_t *number, size_t needed);

/* Mostly just enough, at times more or less. */
size_t room_by_dice(struct dice *dice, size_t needed);

#endif
