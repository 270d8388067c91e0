/* The kinds of devices, and where the fields of their bodies are. */
#ifndef KIND_H
#define KIND_H

#include <stdbool.h>
#include <stddef.h>
#include <stdint.h>

enum {
    CODE_SIZE = 8,
    PAGE_SIZE = 32,
    /* in the body of a device with a scratchpad */
    TA1 = CODE_SIZE,
    TA2 = TA1 + 1,
    ES = TA2 + 1,
    SCRATCHPAD = ES + 1,
    /* in the body of a DS1982 */
    STATUS = CODE_SIZE,
    STATUS_SIZE = 8,
    PAGES = 4
};

struct kind {
    const char *name;
    uint8_t family;
    bool add_only; /* the DS1982 */
    bool overdrive; /* it has that speed too */
    size_t memory; /* where the memory, or the data of a DS1982, is in the body */
    size_t memory_size;
};

/* Null for no known kind. A name may be in small letters. */
const struct kind *kind_of_family(uint8_t family);
const struct kind *kind_named(const char *name, size_t length);

/* Whether a kind has a memory of so many bytes. */
bool kind_with_memory(size_t size);

/* A body ends with its memory. */
size_t kind_body_size(const struct kind *kind);

#endif
