/* Benches that dice determine. */
#ifndef SOME_BENCH_H
#define SOME_BENCH_H

#include "bench.h"
#include "dice.h"

#include <stddef.h>

/* A number of devices: few mostly, at times as many as there can be. */
size_t some_count(struct dice *dice);

/*
 * An accepted image of so many devices, of any kinds and with any contents, of
 * either edition; at times one of other devices that is about as long as an
 * image can be, or a little longer.
 */
void some_bench(struct dice *dice, struct bench *b, size_t count);

#endif
