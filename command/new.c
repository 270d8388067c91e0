/* troughiron new: an image with right codes, from a list of kinds. */
#include "bench.h"
#include "code.h"
#include "commands.h"
#include "outputs.h"
#include "status.h"

struct new {
    struct bench bench;
    bool empty; /* no device is asked for */
    struct replacing replacing;
};

static int settings_parse(struct bench *b, const char *fill, const char *serial)
{
    if (fill && !byte_parse(&b->fill, fill))
        return bad_usage("new", "--fill needs two hexadecimal digits, not '%s'", fill);
    b->filled = fill;
    b->next_serial = 1;
    if (serial && !serial_parse(&b->next_serial, serial))
        return bad_usage("new", "--serial needs twelve hexadecimal digits, not '%s'", serial);
    return DONE;
}

static int device_parse(struct bench *b, const char *word)
{
    const char *const expected = bench_add(b, word);

    return expected ? bad_usage("new", "%s, not '%s'", expected, word) : DONE;
}

/* Nobody gets a bench without devices by leaving them out. Standard input is there once. */
static int devices_parse(struct new *n, const struct words *words)
{
    int status = DONE;

    for (size_t i = 1; i < words->count && status == DONE; i++)
        status = device_parse(&n->bench, words->list[i]);
    if (status == DONE && !n->empty && n->bench.count == 0)
        return bad_usage("new", "a device expected, or --empty for a bench without any");
    if (status == DONE && n->empty && n->bench.count > 0)
        return bad_usage("new", "--empty is for a bench without devices");
    if (status == DONE && bench_from_input(&n->bench) > 1)
        return bad_usage("new", "only one memory can come from standard input");
    return status;
}

static int write_image(struct new *n, const char *path)
{
    struct outputs outputs = { .replacing = n->replacing };
    struct bytes image = { 0 };
    int status = bench_image(&image, &n->bench, path);

    if (status == DONE)
        status = outputs_stage(&outputs, path, HOLDS_IMAGE, image.data, image.length);
    if (status == DONE)
        status = outputs_commit(&outputs, stderr);
    outputs_free(&outputs);
    bytes_free(&image);
    return status;
}

int new_command(struct words *words)
{
    struct new new = { 0 };
    const char *fill = NULL, *serial = NULL;
    const struct option options[] = {
        { "--fill", &fill, NULL },
        { "--serial", &serial, NULL },
        { "--memory", &new.bench.memory, NULL },
        { "--empty", NULL, &new.empty },
        { "-f", NULL, &new.replacing.forced },
        { "--force", NULL, &new.replacing.forced },
    };
    int status = options_take(words, options, sizeof options / sizeof *options);

    if (status == DONE)
        status = settings_parse(&new.bench, fill, serial);
    if (status == DONE && words->count < 1)
        status = words_wrong(words, "an image and devices");
    if (status == DONE)
        status = devices_parse(&new, words);
    if (status == DONE)
        status = write_image(&new, words->list[0]);
    bench_free(&new.bench);
    return status;
}
