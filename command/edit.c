/* troughiron edit: a device more or less, what one holds, and its memory as a file. */
#include "bench.h"
#include "cause.h"
#include "code.h"
#include "commands.h"
#include "fields.h"
#include "image.h"
#include "outputs.h"
#include "status.h"
#include "troughiron.h"

#include <string.h>
#include <strings.h>

struct edit {
    const char *path, *output;
    struct replacing replacing;
    struct bytes image; /* as it was read, then as it is to be */
    struct bytes name;  /* what a refusal of that calls it */
    char **words;       /* after the verb */
    size_t count;
};

/* ------------------------------------------------------------------ */
/* Devices                                                             */

static int find_device(const struct edit *e, const char *word, size_t *index)
{
    const size_t count = image_count(&e->image);

    *index = image_index(&e->image, word);
    if (*word != '#')
        return bad_usage("edit", "a device such as #2 expected, not '%s'", word);
    return *index < count ? DONE : bad("edit: there is no device '%s'; the image has %zu", word, count);
}

/* The image of some devices takes the place of the one that they are of. */
static void take_devices(struct edit *e, const struct device *list, size_t count)
{
    struct bytes image = { 0 };

    image_of(&image, list, count);
    bytes_free(&e->image);
    e->image = image;
}

static int add_devices(struct edit *e)
{
    struct bench bench = { .next_serial = 1, .others = &e->image };
    struct bytes image = { 0 };
    int status = e->count > 0 ? DONE : bad_usage("edit", "add: a device expected");

    for (size_t i = 0; i < e->count && status == DONE; i++) {
        const char *const expected = bench_add(&bench, e->words[i]);

        status = expected ? bad_usage("edit", "add: %s, not '%s'", expected, e->words[i]) : DONE;
    }
    if (status == DONE && bench_from_input(&bench) > 0)
        status = bad_usage("edit", "add: a memory cannot come from standard input");
    if (status == DONE)
        status = bench_image(&image, &bench, (const char *)e->name.data);
    bench_free(&bench);
    if (status == DONE) {
        bytes_free(&e->image);
        e->image = image;
    } else {
        bytes_free(&image);
    }
    return status;
}

static int remove_devices(struct edit *e)
{
    struct device list[TROUGHIRON_MOST_DEVICES];
    bool removed[TROUGHIRON_MOST_DEVICES] = { false };
    size_t index, kept = 0;

    if (e->count == 0)
        return bad_usage("edit", "remove: a device such as #2 expected");
    for (size_t i = 0; i < e->count; i++) {
        const int status = find_device(e, e->words[i], &index);

        if (status != DONE)
            return status;
        removed[index] = true;
    }
    for (size_t i = 0; i < image_count(&e->image); i++)
        if (!removed[i])
            list[kept++] = image_device(&e->image, i);
    take_devices(e, list, kept);
    return DONE;
}

/* ------------------------------------------------------------------ */
/* What a device holds                                                 */

static uint8_t *body_of(struct edit *e, const struct device *device)
{
    return e->image.data + (device->body - e->image.data);
}

static int set_battery(struct edit *e, size_t index, bool flat)
{
    struct device list[TROUGHIRON_MOST_DEVICES];
    const size_t count = image_devices(&e->image, list);

    if (e->count != 2)
        return bad_usage("edit", "set: nothing expected after '%s'", e->words[1]);
    if (list[index].kind->add_only)
        return bad("edit: #%zu is a %s, which has no battery", index + 1, list[index].kind->name);
    list[index].flat = flat;
    take_devices(e, list, count);
    return DONE;
}

static int set_register(struct edit *e, uint8_t *place, int digits)
{
    size_t number;

    if (e->count != 3 || !hex_parse(&number, e->words[2], digits))
        return bad_usage("edit", "set %s: %s hexadecimal digits expected", e->words[1], digits == 4 ? "four" : "two");
    for (int i = 0; i < digits / 2; i++)
        place[i] = (uint8_t)(number >> 8 * i);
    return DONE;
}

static int set_field(struct edit *e, struct field field, uint8_t *body)
{
    const size_t count = e->count > 3 ? e->count - 3 : 0;
    size_t address;

    if (e->count < 4 || !hex_parse(&address, e->words[2], field.digits))
        return bad_usage("edit", "set %s: an address of %d digits and bytes expected", field.name, field.digits);
    if (address >= field.size || count > field.size - address)
        return bad("edit: %zu byte%s from %0*zX on, but the %s has %zu", count, count == 1 ? "" : "s", field.digits,
                   address, field.name, field.size);
    for (size_t i = 0; i < count; i++)
        if (!byte_parse(body + field.place + address + i, e->words[3 + i]))
            return bad_usage("edit", "set %s: bytes of two hexadecimal digits expected, not '%s'", field.name,
                             e->words[3 + i]);
    return DONE;
}

static int set_held(struct edit *e)
{
    size_t index;

    if (e->count < 2)
        return bad_usage("edit", "set: a device, and what of it to set, expected");

    const int status = find_device(e, e->words[0], &index);

    if (status != DONE)
        return status;

    const struct device device = image_device(&e->image, index);
    const char *const what = e->words[1];

    if (strcasecmp(what, "flat") == 0 || strcasecmp(what, "good") == 0)
        return set_battery(e, index, strcasecmp(what, "flat") == 0);
    if (!device.kind->add_only && strcasecmp(what, "TA") == 0)
        return set_register(e, body_of(e, &device) + TA1, 4);
    if (!device.kind->add_only && strcasecmp(what, "E/S") == 0)
        return set_register(e, body_of(e, &device) + ES, 2);
    for (size_t i = 0; i < FIELDS; i++)
        if (strcasecmp(what, kind_field(device.kind, i).name) == 0)
            return set_field(e, kind_field(device.kind, i), body_of(e, &device));
    return bad_usage("edit", "set: %s expected, not '%s'",
                     device.kind->add_only ? "status or data of a DS1982"
                                           : "memory, scratchpad, TA, E/S, flat or good",
                     what);
}

/* ------------------------------------------------------------------ */
/* Files                                                               */

static int write_file(const struct edit *e, const char *path, enum holding holding, const void *bytes, size_t length)
{
    struct outputs outputs = { .replacing = e->replacing };
    int status = outputs_stage(&outputs, path, holding, bytes, length);

    if (status == DONE)
        status = outputs_commit(&outputs, stderr);
    outputs_free(&outputs);
    return status;
}

/* The memory, or the data of a DS1982, whole. */
static int take_memory(struct edit *e)
{
    size_t index;

    if (e->output)
        return bad_usage("edit", "take: -o is for an image that is changed");
    if (e->count != 2)
        return bad_usage("edit", "take: a device and a file expected");

    const int status = find_device(e, e->words[0], &index);

    if (status != DONE)
        return status;

    const struct device device = image_device(&e->image, index);

    return write_file(e, e->words[1], HOLDS_MEMORY, device.body + device.kind->memory, device.kind->memory_size);
}

/* The library has the last word on what is written. */
static int write_image(const struct edit *e)
{
    const uint32_t refusal = image_refusal(&e->image);

    if (refusal)
        return image_refused((const char *)e->name.data, &e->image, refusal);
    return write_file(e, e->output ? e->output : e->path, HOLDS_IMAGE, e->image.data, e->image.length);
}

/* ------------------------------------------------------------------ */
/* The command                                                         */

static int edit_image(struct edit *e, const char *verb)
{
    static const struct {
        const char *name;
        int (*change)(struct edit *e);
    } verbs[] = { { "add", add_devices }, { "remove", remove_devices }, { "set", set_held } };

    if (strcmp(verb, "take") == 0)
        return take_memory(e);
    for (size_t i = 0; i < sizeof verbs / sizeof *verbs; i++)
        if (strcmp(verb, verbs[i].name) == 0) {
            const int status = verbs[i].change(e);

            return status == DONE ? write_image(e) : status;
        }
    return bad_usage("edit", "add, remove, set or take expected, not '%s'", verb);
}

int edit_command(struct words *words)
{
    struct edit e = { 0 };
    const struct option options[] = {
        { "-o", &e.output, NULL },
        { "--output", &e.output, NULL },
        { "-f", NULL, &e.replacing.forced },
        { "--force", NULL, &e.replacing.forced },
    };
    int status = options_take(words, options, sizeof options / sizeof *options);

    if (status == DONE && words->count < 2)
        status = words_wrong(words, "an image and add, remove, set or take");
    if (status != DONE)
        return status;
    e.path = words->list[0];
    e.replacing.own = strcmp(e.path, "-") == 0 ? NULL : e.path;
    e.words = words->list + 2;
    e.count = words->count - 2;
    bytes_print(&e.name, "%s, as it would be", input_name(e.path));
    bytes_repeat(&e.name, '\0', 1);
    status = image_read(&e.image, e.path);
    if (status == DONE)
        status = edit_image(&e, words->list[1]);
    bytes_free(&e.image);
    bytes_free(&e.name);
    return status;
}
