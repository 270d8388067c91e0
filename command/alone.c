#include "alone.h"

#include "event.h"

#include <string.h>

/* Its entry is as it is in the image, but for the place of the body, which is another. */
void alone_put(struct alone *a, const struct bytes *image, size_t index)
{
    const struct device device = image_device(image, index);
    uint8_t table[ALONE] = { 1, image->data[1] };

    memcpy(table + TABLE, image->data + TABLE + ENTRY_SIZE * index, ENTRY_SIZE);
    table[TABLE + 2] = ALONE;
    table[TABLE + 3] = 0;
    a->image.length = 0;
    a->trace.length = 0;
    bytes_add(&a->image, table, ALONE);
    bytes_add(&a->image, device.body, kind_body_size(device.kind));
}

void alone_receive(struct alone *a, const uint8_t *events, const uint8_t *levels, size_t count)
{
    for (size_t i = 0; i < count; i++)
        bytes_repeat(&a->trace, is_slot(events[i]) ? slot_of(levels[i], is_overdrive(events[i])) : events[i], 1);
}

void alone_add(struct alone *a, uint8_t event, size_t count)
{
    bytes_repeat(&a->trace, event, count);
}

bool alone_run(struct alone *a, uint64_t *copied)
{
    a->answers.length = 0;
    bytes_repeat(&a->answers, 1, a->trace.length);
    return troughiron_run(a->image.data, a->image.length, a->trace.data, a->trace.length, a->answers.data,
                          a->answers.length, copied) == TROUGHIRON_ANSWERED;
}

void alone_free(struct alone *a)
{
    bytes_free(&a->image);
    bytes_free(&a->trace);
    bytes_free(&a->answers);
}
