#include "kind.h"

#include "troughiron.h"

#include <string.h>
#include <strings.h>

static const struct kind kinds[] = {
    { "DS1992", TROUGHIRON_DS1992, false, false, SCRATCHPAD + PAGE_SIZE, 128 },
    { "DS1993", TROUGHIRON_DS1993, false, false, SCRATCHPAD + PAGE_SIZE, 512 },
    { "DS1996", TROUGHIRON_DS1996, false, true, SCRATCHPAD + PAGE_SIZE, 8192 },
    { "DS1982", TROUGHIRON_DS1982, true, false, STATUS + STATUS_SIZE, PAGES * PAGE_SIZE },
};

enum { KINDS = sizeof kinds / sizeof *kinds };

const struct kind *kind_of_family(uint8_t family)
{
    for (size_t i = 0; i < KINDS; i++)
        if (kinds[i].family == family)
            return &kinds[i];
    return NULL;
}

const struct kind *kind_named(const char *name, size_t length)
{
    for (size_t i = 0; i < KINDS; i++)
        if (strlen(kinds[i].name) == length && strncasecmp(kinds[i].name, name, length) == 0)
            return &kinds[i];
    return NULL;
}

bool kind_with_memory(size_t size)
{
    for (size_t i = 0; i < KINDS; i++)
        if (kinds[i].memory_size == size)
            return true;
    return false;
}

size_t kind_body_size(const struct kind *kind)
{
    return kind->memory + kind->memory_size;
}
