#include "cause.h"

#include "code.h"
#include "event.h"
#include "image.h"
#include "status.h"
#include "troughiron.h"

#include <stdio.h>
#include <string.h>

/* ------------------------------------------------------------------ */
/* Of an image                                                         */

static const uint8_t *entry_at(const struct bytes *image, size_t index)
{
    return image->data + TABLE + ENTRY_SIZE * index;
}

/* Entries and devices are counted from 1, bytes from 0. Returns DONE where the entry is no cause. */
static int one_entry_cause(const char *name, const struct bytes *image, size_t i, uint32_t refusal)
{
    const uint8_t *const entry = entry_at(image, i);
    const size_t place = TABLE + ENTRY_SIZE * i;
    const struct kind *const kind = kind_of_family(entry[0]);

    if (image->data[1] == EDITION && entry[1] != TROUGHIRON_GOOD)
        return refused(name, refusal, "entry %zu: byte %zu is %02Xh and, in edition 1, not 00h", i + 1, place + 1,
                       entry[1]);
    if (entry[1] > TROUGHIRON_FLAT)
        return refused(name, refusal, "entry %zu: byte %zu is %02Xh and neither 00h, good, nor 01h, flat", i + 1,
                       place + 1, entry[1]);
    if (!kind)
        return refused(name, refusal, "entry %zu: byte %zu, the family, is %02Xh and none of 08h, 06h, 0Ch and 09h",
                       i + 1, place, entry[0]);
    if (kind->add_only && entry[1] != TROUGHIRON_GOOD)
        return refused(name, refusal, "entry %zu: byte %zu says flat, and a %s has no battery", i + 1, place + 1,
                       kind->name);
    return DONE;
}

static int entry_cause(const char *name, const struct bytes *image, uint32_t refusal)
{
    for (size_t i = 0; i < image_count(image); i++) {
        const int status = one_entry_cause(name, image, i, refusal);

        if (status != DONE)
            return status;
    }
    return refused(name, refusal, "the table of contents");
}

static int table_cause(const char *name, const struct bytes *image, uint32_t refusal)
{
    const size_t length = image->length, count = length > 0 ? image_count(image) : 0;
    const size_t table = TABLE + ENTRY_SIZE * count;

    if (length < TABLE)
        return refused(name, refusal, "it has %zu byte%s, and an image 2 at least", length, length == 1 ? "" : "s");
    if (image->data[1] != EDITION && image->data[1] != EDITION_WITH_FLAT)
        return refused(name, refusal, "byte 1, the edition, is %02Xh and neither 01h nor 02h", image->data[1]);
    if (count > TROUGHIRON_MOST_DEVICES)
        return refused(name, refusal, "byte 0 says %zu devices, and %d are the most", count,
                       TROUGHIRON_MOST_DEVICES);
    if (length < table)
        return refused(name, refusal, "it has %zu bytes, and the table of contents of %zu device%s alone %zu",
                       length, count, count == 1 ? "" : "s", table);
    return entry_cause(name, image, refusal);
}

static int layout_cause(const char *name, const struct bytes *image, uint32_t refusal)
{
    const size_t count = image_count(image);
    size_t offset = TABLE + ENTRY_SIZE * count;

    if (image->length > TROUGHIRON_MOST_BYTES)
        return refused(name, refusal, "it has %zu bytes, and %d are the most", image->length, TROUGHIRON_MOST_BYTES);
    for (size_t i = 0; i < count; i++) {
        const uint8_t *const entry = entry_at(image, i);
        const size_t given = entry[2] + 256u * entry[3], place = TABLE + ENTRY_SIZE * i + 2;

        if (given != offset)
            return refused(name, refusal, "entry %zu: bytes %zu and %zu say %zu, and its body has to be at %zu", i + 1,
                           place, place + 1, given, offset);
        offset += kind_body_size(kind_of_family(entry[0]));
    }
    return refused(name, refusal, "it has %zu bytes, and with %zu device%s it has to have %zu", image->length,
                   count, count == 1 ? "" : "s", offset);
}

static int code_cause(const char *name, const struct bytes *image, uint32_t refusal)
{
    for (size_t i = 0; i < image_count(image); i++) {
        const struct device device = image_device(image, i);
        const size_t place = (size_t)(device.body - image->data);
        uint8_t code[CODE_SIZE];
        char text[CODE_TEXT];

        memcpy(code, device.body, CODE_SIZE);
        code_write(text, code);
        if (code[0] != device.kind->family)
            return refused(name, refusal, "#%zu: byte %zu, the family of its code, is %02Xh, and its entry says %02Xh",
                           device.number, place, code[0], device.kind->family);
        code_complete(code);
        if (code[7] != device.body[7])
            return refused(name, refusal, "#%zu: code %s: byte %zu, the CRC, has to be %02X", device.number, text,
                           place + 7, code[7]);
    }
    return refused(name, refusal, "a code");
}

static int alike_cause(const char *name, const struct bytes *image, uint32_t refusal)
{
    for (size_t i = 0; i < image_count(image); i++)
        for (size_t j = i + 1; j < image_count(image); j++) {
            const struct device one = image_device(image, i), other = image_device(image, j);
            char text[CODE_TEXT];

            code_write(text, one.body);
            if (memcmp(one.body, other.body, CODE_SIZE) == 0)
                return refused(name, refusal, "#%zu and #%zu have the same code, %s", one.number, other.number, text);
        }
    return refused(name, refusal, "two codes");
}

int image_refused(const char *name, const struct bytes *image, uint32_t refusal)
{
    switch (refusal) {
    case TROUGHIRON_REFUSED_TABLE:
        return table_cause(name, image, refusal);
    case TROUGHIRON_REFUSED_LAYOUT:
        return layout_cause(name, image, refusal);
    case TROUGHIRON_REFUSED_CODE:
        return code_cause(name, image, refusal);
    case TROUGHIRON_REFUSED_ALIKE:
        return alike_cause(name, image, refusal);
    default:
        return refused(name, refusal, "no refusal of an image");
    }
}

/* ------------------------------------------------------------------ */
/* Of a run                                                            */

/* Where an event is: "line 3" of a session, or of a text that it includes, "byte 17" of raw events. */
enum { WHERE = 256 };
static void write_where(char where[WHERE], const struct session *s, size_t event)
{
    const struct step *const step = step_of(s, event);

    if (s->raw)
        snprintf(where, WHERE, "byte %zu", event);
    else if (step->file == s->name)
        snprintf(where, WHERE, "%s %zu", s->unit, step->line);
    else
        snprintf(where, WHERE, "%s %zu of %s", s->unit, step->line, step->file);
}

/* The place of the first event from one number to another, or the number of events. */
static size_t first_of(const struct bytes *events, uint8_t least, uint8_t most)
{
    size_t i = 0;

    while (i < events->length && (events->data[i] < least || events->data[i] > most))
        i++;
    return i;
}

static int trace_cause(const struct session *s, uint32_t refusal)
{
    const size_t count = s->events.length, place = first_of(&s->events, TROUGHIRON_OVERDRIVE_RESET + 1, UINT8_MAX);
    char where[WHERE];

    if (count > TROUGHIRON_MOST_EVENTS) {
        write_where(where, s, TROUGHIRON_MOST_EVENTS);
        return refused(s->name, refusal, "%s%zu events, and %d are the most: %s goes past them",
                       s->cut ? "over " : "", s->cut ? count - 1 : count, TROUGHIRON_MOST_EVENTS, where);
    }
    if (place == count)
        return refused(s->name, refusal, "the trace");
    write_where(where, s, place);
    return refused(s->name, refusal, "%s: %u is no event; they are 0 to 6", where, s->events.data[place]);
}

static int begin_cause(const struct session *s, uint32_t refusal)
{
    const uint8_t first = s->events.data[0];
    char where[WHERE];

    write_where(where, s, 0);
    if (is_reset(first))
        return refused(s->name, refusal, "%s: a reset at overdrive comes first, and a trace begins with a regular one",
                       where);
    return refused(s->name, refusal, "%s: a %s comes first, and a trace begins with a reset", where,
                   first == TROUGHIRON_PULSE ? "program pulse" : "slot");
}

static int pulse_cause(const struct session *s, const struct bytes *image, uint32_t refusal)
{
    char where[WHERE];
    size_t i = 0;

    while (i + 1 < image_count(image) && image_device(image, i).kind->add_only)
        i++;
    write_where(where, s, first_of(&s->events, TROUGHIRON_PULSE, TROUGHIRON_PULSE));
    return refused(s->name, refusal, "%s: a program pulse, and #%zu is a %s", where, i + 1,
                   image_device(image, i).kind->name);
}

int run_refused(const struct session *s, const struct bytes *image, size_t room, uint32_t refusal)
{
    switch (refusal) {
    case TROUGHIRON_REFUSED_TRACE:
        return trace_cause(s, refusal);
    case TROUGHIRON_REFUSED_NO_RESET:
        return begin_cause(s, refusal);
    case TROUGHIRON_REFUSED_PULSE:
        return pulse_cause(s, image, refusal);
    case TROUGHIRON_REFUSED_ROOM:
        return refused(s->name, refusal, "room for %zu answer%s, and there are %zu events", room, room == 1 ? "" : "s",
                       s->events.length);
    default:
        return image_refused(s->name, image, refusal);
    }
}
