/* The fields of a device's body, and their names. */
#ifndef FIELDS_H
#define FIELDS_H

#include "kind.h"

#include <stdio.h>

/* A run of bytes of a body with addresses of its own. */
struct field {
    const char *name;
    size_t place, size;
    int digits; /* of an address */
};

/* The fields of a kind that are runs of bytes: all but the code, TA and E/S. */
enum { FIELDS = 2 };
struct field kind_field(const struct kind *kind, size_t index);

/* A flag of E/S. */
struct flag {
    uint8_t bit;
    const char *name, *meaning;
};

/* The flag of a name, which may be in small letters, or null. */
const struct flag *flag_named(const char *name);

/* Writes "87h: ending offset 07h, AA (authorization accepted)". */
void print_es(FILE *out, uint8_t es);

#endif
