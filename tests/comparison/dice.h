/*
 * Numbers that look random and that a seed and a case number determine, so
 * that a case can be made again without those before it.
 */
#ifndef DICE_H
#define DICE_H

#include <stddef.h>
#include <stdint.h>

struct dice {
    uint64_t state;
};

struct dice dice_for(uint64_t seed, uint64_t number);

/* Any 64 bits. */
uint64_t dice_roll(struct dice *d);

/* A number below a bound that is not 0. */
size_t dice_below(struct dice *d, size_t bound);

/* True once in so many times. */
int dice_once_in(struct dice *d, size_t times);

void dice_fill(struct dice *d, uint8_t *bytes, size_t count);

#endif
