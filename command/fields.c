#include "fields.h"

#include "troughiron.h"

#include <strings.h>

struct field kind_field(const struct kind *kind, size_t index)
{
    if (index == 1)
        return (struct field){ kind->add_only ? "data" : "memory", kind->memory, kind->memory_size, 4 };
    if (kind->add_only)
        return (struct field){ "status", STATUS, STATUS_SIZE, 2 };
    return (struct field){ "scratchpad", SCRATCHPAD, PAGE_SIZE, 2 };
}

static const struct flag flags[] = {
    { TROUGHIRON_ES_AA, "AA", "authorization accepted" },
    { TROUGHIRON_ES_OF, "OF", "overflow" },
    { TROUGHIRON_ES_PF, "PF", "partial byte" },
};

enum { FLAGS = sizeof flags / sizeof *flags };

const struct flag *flag_named(const char *name)
{
    for (size_t i = 0; i < FLAGS; i++)
        if (strcasecmp(name, flags[i].name) == 0)
            return &flags[i];
    return NULL;
}

void print_es(FILE *out, uint8_t es)
{
    fprintf(out, "%02Xh: ending offset %02Xh", es, es & TROUGHIRON_ES_ENDING);
    for (size_t i = 0; i < FLAGS; i++)
        if (es & flags[i].bit)
            fprintf(out, ", %s (%s)", flags[i].name, flags[i].meaning);
}
