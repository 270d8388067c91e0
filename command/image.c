#include "image.h"

#include "cause.h"
#include "code.h"
#include "status.h"
#include "troughiron.h"

#include <stdio.h>
#include <stdlib.h>

/* A run of no events changes nothing, and is refused exactly where the image is. */
uint32_t image_refusal(const struct bytes *image)
{
    uint64_t copied;

    return troughiron_run(image->data, image->length, NULL, 0, NULL, 0, &copied);
}

int image_read(struct bytes *image, const char *path)
{
    const int status = bytes_read(image, path);

    if (status != DONE)
        return status;

    const uint32_t refusal = image_refusal(image);

    return refusal ? image_refused(input_name(path), image, refusal) : DONE;
}

size_t image_count(const struct bytes *image)
{
    return image->data[0];
}

struct device image_device(const struct bytes *image, size_t index)
{
    const uint8_t *const entry = image->data + TABLE + ENTRY_SIZE * index;

    return (struct device){
        .number = index + 1,
        .kind = kind_of_family(entry[0]),
        .flat = entry[1] == TROUGHIRON_FLAT,
        .body = image->data + entry[2] + 256 * entry[3],
    };
}

size_t image_index(const struct bytes *image, const char *word)
{
    const size_t count = image_count(image);
    char *end;
    const unsigned long number = word[0] == '#' ? strtoul(word + 1, &end, 10) : 0;

    return number >= 1 && number <= count && *end == '\0' ? number - 1 : count;
}

size_t image_devices(const struct bytes *image, struct device *list)
{
    for (size_t i = 0; i < image_count(image); i++)
        list[i] = image_device(image, i);
    return image_count(image);
}

static uint8_t edition_for(const struct device *list, size_t count)
{
    for (size_t i = 0; i < count; i++)
        if (list[i].flat)
            return EDITION_WITH_FLAT;
    return EDITION;
}

void image_of(struct bytes *image, const struct device *list, size_t count)
{
    const uint8_t head[TABLE] = { (uint8_t)count, edition_for(list, count) };
    size_t offset = TABLE + ENTRY_SIZE * count;

    bytes_add(image, head, TABLE);
    for (size_t i = 0; i < count; i++) {
        const uint8_t entry[ENTRY_SIZE] = { list[i].kind->family, list[i].flat ? TROUGHIRON_FLAT : TROUGHIRON_GOOD,
                                            (uint8_t)offset, (uint8_t)(offset >> 8) };

        bytes_add(image, entry, ENTRY_SIZE);
        offset += kind_body_size(list[i].kind);
    }
    for (size_t i = 0; i < count; i++)
        bytes_add(image, list[i].body, kind_body_size(list[i].kind));
}

void device_write(char text[DEVICE_TEXT], const struct device *device)
{
    char code[CODE_TEXT];

    code_write(code, device->body);
    snprintf(text, DEVICE_TEXT, "#%zu %s %s", device->number, device->kind->name, code);
}
