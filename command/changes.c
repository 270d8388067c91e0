#include "changes.h"

#include "fields.h"

#include <string.h>

struct search {
    size_t most;
    void (*found)(void *context, const struct change *change);
    void *context;
};

/* The number of bytes from a place on that differ one after another, up to a number. */
static size_t differing(const uint8_t *before, const uint8_t *after, size_t left, size_t most)
{
    size_t count = 0;

    while (count < left && count < most && before[count] != after[count])
        count++;
    return count;
}

static void field_changes(const struct search *s, struct field field, const struct device *before, const uint8_t *after)
{
    for (size_t i = 0, count; i < field.size; i += count > 0 ? count : 1) {
        const uint8_t *const old = before->body + field.place + i, *const new = after + field.place + i;

        count = differing(old, new, field.size - i, s->most);
        if (count > 0)
            s->found(s->context, &(struct change){ before, field.name, field.digits, i, old, new, count });
    }
}

static void register_change(const struct search *s, const char *name, size_t place, size_t size,
                            const struct device *before, const uint8_t *after)
{
    if (memcmp(before->body + place, after + place, size) != 0)
        s->found(s->context, &(struct change){ before, name, 0, 0, before->body + place, after + place, size });
}

static void device_changes(const struct search *s, const struct device *before, const uint8_t *after)
{
    if (!before->kind->add_only) {
        register_change(s, "TA", TA1, 2, before, after);
        register_change(s, "E/S", ES, 1, before, after);
    }
    for (size_t i = 0; i < FIELDS; i++)
        field_changes(s, kind_field(before->kind, i), before, after);
}

void changes_each(const struct bytes *before, const struct bytes *after, size_t most,
                  void (*found)(void *context, const struct change *change), void *context)
{
    const struct search search = { most, found, context };

    for (size_t i = 0; i < image_count(before); i++) {
        const struct device old = image_device(before, i);

        device_changes(&search, &old, image_device(after, i).body);
    }
}

bool image_differs(const struct bytes *before, const struct bytes *after)
{
    return memcmp(before->data, after->data, before->length) != 0;
}
