/* Images about as long as they can be. */
#ifndef LARGE_BENCH_H
#define LARGE_BENCH_H

#include "bench.h"

#include <stddef.h>

enum { LARGE_BENCHES = 4 * 70 + 2 };

/*
 * The image of a number below LARGE_BENCHES, its devices in either order.
 * Gives whether such an image is accepted.
 */
int large_bench(struct bench *b, size_t number, int reversed);

#endif
