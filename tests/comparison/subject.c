#include "subject.h"

#include <stdlib.h>

void *subject_allocate(const char *name, size_t bytes)
{
    void *const state = calloc(1, bytes);

    if (!state) {
        perror(name);
        exit(2);
    }
    return state;
}
