#include "bench.h"

#include "cause.h"
#include "code.h"
#include "image.h"
#include "status.h"
#include "troughiron.h"

#include <stdlib.h>
#include <string.h>
#include <strings.h>

/* ------------------------------------------------------------------ */
/* Words such as 3xds1992,flat and ds1993:000000FBC52B@memory.bin       */

/* The number before an "x", or 1; moves the word past it. */
static size_t repeat_of(const char **word)
{
    const size_t digits = strspn(*word, "0123456789");
    const size_t number = digits > 0 && digits < 5 ? (size_t)strtoul(*word, NULL, 10) : 0;

    if (digits == 0)
        return 1;
    if ((*word)[digits] != 'x')
        return 0;
    *word += digits + 1;
    return number;
}

/* Takes ",flat" where it comes next; false where something else stands after a comma. */
static bool take_flat(struct plan *plan, const char **word)
{
    static const char flat[] = ",flat";
    const size_t length = strcspn(*word, ":@");

    if (**word != ',')
        return true;
    plan->flat = length == strlen(flat) && strncasecmp(*word, flat, length) == 0;
    *word += length;
    return plan->flat;
}

/* Takes ":SERIAL" where it comes next; false where that is no serial number. */
static bool take_serial(struct plan *plan, const char **word)
{
    const char *const digits = *word + 1;
    char serial[SERIAL_DIGITS + 1];

    if (**word != ':')
        return true;
    if (strcspn(digits, "@") != SERIAL_DIGITS)
        return false;
    memcpy(serial, digits, SERIAL_DIGITS);
    serial[SERIAL_DIGITS] = '\0';
    plan->has_serial = serial_parse(&plan->serial, serial);
    *word = digits + SERIAL_DIGITS;
    return plan->has_serial;
}

static bool plan_parse(struct plan *plan, const char **word)
{
    const size_t name = strcspn(*word, ",:@");

    *plan = (struct plan){ .kind = kind_named(*word, name) };
    *word += name;
    return plan->kind && take_flat(plan, word) && take_serial(plan, word);
}

/* The path of the file after "@", or null without one. */
static char *memory_path(const struct bench *b, const char *rest)
{
    return *rest == '@' ? path_beside(b->beside, rest + 1) : NULL;
}

const char *bench_add(struct bench *b, const char *word)
{
    const size_t repeat = repeat_of(&word);
    struct plan plan;

    if (repeat == 0 || !plan_parse(&plan, &word))
        return "a device such as ds1992, ds1993:000000FBC52B, ds1992,flat, ds1982@FILE or 3xds1992 expected";
    if (repeat > 1 && plan.has_serial)
        return "a serial number is for one device";
    if (repeat > MOST_PLANNED - b->count - (b->others ? image_count(b->others) : 0))
        return "at most 255 devices in all expected";
    for (size_t i = 0; i < repeat; i++) {
        b->plans[b->count] = plan;
        b->plans[b->count++].memory = memory_path(b, word);
    }
    return NULL;
}

/* ------------------------------------------------------------------ */
/* Serial numbers and memories                                         */

static bool code_is_there(const struct bytes *image, const struct kind *kind, uint64_t serial)
{
    uint8_t code[CODE_SIZE];

    code_make(code, kind->family, serial);
    for (size_t i = 0; i < image_count(image); i++)
        if (memcmp(image_device(image, i).body, code, CODE_SIZE) == 0)
            return true;
    return false;
}

static bool serial_is_given(const struct bench *b, const struct kind *kind, uint64_t serial)
{
    for (size_t i = 0; i < b->count; i++)
        if (b->plans[i].has_serial && b->plans[i].kind == kind && b->plans[i].serial == serial)
            return true;
    return b->others && code_is_there(b->others, kind, serial);
}

static uint64_t count_up(struct bench *b)
{
    const uint64_t serial = b->next_serial;

    b->next_serial = (serial + 1) & (((uint64_t)1 << 48) - 1);
    return serial;
}

/* The next serial number that is not given to a device of the kind. */
static uint64_t free_serial(struct bench *b, const struct kind *kind)
{
    uint64_t serial = count_up(b);

    while (serial_is_given(b, kind, serial))
        serial = count_up(b);
    return serial;
}

static void number_devices(struct bench *b)
{
    for (size_t i = 0; i < b->count; i++)
        if (!b->plans[i].has_serial)
            b->plans[i].serial = free_serial(b, b->plans[i].kind);
}

static const char *memory_of(const struct bench *b, const struct plan *plan)
{
    return plan->memory ? plan->memory : b->memory;
}

size_t bench_from_input(const struct bench *b)
{
    size_t standard = 0;

    for (size_t i = 0; i < b->count; i++) {
        const char *const path = memory_of(b, &b->plans[i]);

        standard += path && strcmp(path, "-") == 0;
    }
    return standard;
}

/* ------------------------------------------------------------------ */
/* The image                                                           */

/* A new DS1982 is all ones but for its last status byte. */
static void add_registers(struct bytes *image, const struct kind *kind)
{
    if (kind->add_only) {
        bytes_repeat(image, 0xFF, STATUS_SIZE - 1);
        bytes_repeat(image, 0x00, 1);
    } else {
        bytes_repeat(image, 0x00, kind->memory - CODE_SIZE);
    }
}

static int add_memory(struct bytes *image, const struct bench *b, const struct plan *plan)
{
    const uint8_t fill = b->filled ? b->fill : plan->kind->add_only ? 0xFF : 0x00;
    const char *const path = memory_of(b, plan);
    struct bytes memory = { 0 };
    int status = path ? bytes_read(&memory, path) : DONE;

    if (status == DONE && memory.length > plan->kind->memory_size)
        status = bad("%s: %zu bytes, but a %s has %zu", input_name(path), memory.length, plan->kind->name,
                     plan->kind->memory_size);
    if (status == DONE) {
        bytes_add(image, memory.data, memory.length);
        bytes_repeat(image, fill, plan->kind->memory_size - memory.length);
    }
    bytes_free(&memory);
    return status;
}

static int add_bodies(struct bytes *bodies, const struct bench *b)
{
    int status = DONE;

    for (size_t i = 0; i < b->count && status == DONE; i++) {
        uint8_t code[CODE_SIZE];

        code_make(code, b->plans[i].kind->family, b->plans[i].serial);
        bytes_add(bodies, code, CODE_SIZE);
        add_registers(bodies, b->plans[i].kind);
        status = add_memory(bodies, b, &b->plans[i]);
    }
    return status;
}

/* The devices of the image that there is, then those of the plans. */
static void add_devices(struct bytes *image, const struct bench *b, const uint8_t *bodies)
{
    struct device list[2 * MOST_PLANNED];
    size_t count = b->others ? image_devices(b->others, list) : 0;

    for (size_t i = 0; i < b->count; i++) {
        list[count++] = (struct device){ .kind = b->plans[i].kind, .flat = b->plans[i].flat, .body = bodies };
        bodies += kind_body_size(b->plans[i].kind);
    }
    image_of(image, list, count);
}

int bench_image(struct bytes *image, struct bench *b, const char *name)
{
    struct bytes bodies = { 0 };

    number_devices(b);

    const int status = add_bodies(&bodies, b);

    if (status == DONE)
        add_devices(image, b, bodies.data);
    bytes_free(&bodies);

    const uint32_t refusal = status == DONE ? image_refusal(image) : 0;

    return refusal ? image_refused(name, image, refusal) : status;
}

void bench_free(struct bench *b)
{
    for (size_t i = 0; i < b->count; i++)
        free(b->plans[i].memory);
    b->count = 0;
}
