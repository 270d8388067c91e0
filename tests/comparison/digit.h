#ifndef DIGIT_H
#define DIGIT_H

#include <stddef.h>

/*
 * Takes the number of a case apart: gives its last digit in a base, and leaves
 * the digits before it.
 */
static inline size_t digit(size_t *number, size_t base)
{
    const size_t last = *number % base;

    *number /= base;
    return last;
}

#endif
