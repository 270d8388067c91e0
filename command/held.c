#include "fields.h"
#include "image.h"
#include "status.h"
#include "verdict.h"

#include <string.h>
#include <strings.h>

static int expect_field(struct reader *r, const struct device *device, struct field field)
{
    const char *const word = next_word(r);
    struct pattern pattern = { 0 };
    size_t address;

    if (!word || !hex_parse(&address, word, field.digits) || address >= field.size)
        return wrong_line(r, "expect: an address of the %s of a %s expected, %0*X to %0*zX", field.name,
                          device->kind->name, field.digits, 0u, field.digits, field.size - 1);

    int status = pattern_read(&pattern, r, next_word(r));

    if (status == DONE && pattern.values.length > field.size - address)
        status = wrong_line(r, "expect: %zu bytes, and from %0*zX on the %s of a %s has %zu", pattern.values.length,
                            field.digits, address, field.name, device->kind->name, field.size - address);
    if (status == DONE)
        status = compare(r, &pattern, device->body + field.place + address);
    pattern_free(&pattern);
    return status;
}

static int expect_number(struct reader *r, const char *what, size_t got, int digits)
{
    const char *const word = next_word(r);
    size_t number;
    char expected[20], found[20];

    if (!word || !hex_parse(&number, word, digits))
        return wrong(r, what, digits == 4 ? "four hexadecimal digits" : "two hexadecimal digits", word);
    snprintf(expected, sizeof expected, "%0*zX", digits, number);
    snprintf(found, sizeof found, "%0*zX", digits, got);
    conclude(r, number == got, expected, found);
    return nothing_after(r, what);
}

static void print_flag(struct bytes *text, bool on, const char *name)
{
    bytes_print(text, "%s%s%s", text->length > 0 ? " " : "", on ? "" : "no ", name);
}

/* Flags of E/S, each by name, or with "no" before it. */
static int expect_flags(struct reader *r, const char *word, uint8_t es)
{
    struct bytes expected = { 0 }, got = { 0 };
    int status = DONE;
    bool met = true;

    for (; word && status == DONE; word = next_word(r)) {
        const bool wanted = strcasecmp(word, "no") != 0;
        const char *const name = wanted ? word : next_word(r);
        const struct flag *const flag = name ? flag_named(name) : NULL;

        if (!flag) {
            status = wrong(r, "expect", "AA, OF or PF", name);
            break;
        }

        const bool on = es & flag->bit;

        print_flag(&expected, wanted, flag->name);
        print_flag(&got, on, flag->name);
        met = met && on == wanted;
    }
    if (status == DONE)
        conclude(r, met, (const char *)expected.data, (const char *)got.data);
    bytes_free(&expected);
    bytes_free(&got);
    return status;
}

/* What of a device is not as at the start of the session. */
static void print_changed(struct bytes *text, const struct device *before, const struct device *after)
{
    bytes_print(text, "a change of");
    if (!before->kind->add_only && memcmp(before->body + TA1, after->body + TA1, 2) != 0)
        bytes_print(text, " TA");
    if (!before->kind->add_only && before->body[ES] != after->body[ES])
        bytes_print(text, " E/S");
    for (size_t i = 0; i < FIELDS; i++) {
        const struct field field = kind_field(before->kind, i);

        if (memcmp(before->body + field.place, after->body + field.place, field.size) != 0)
            bytes_print(text, " %s", field.name);
    }
}

static int expect_unchanged(struct reader *r, const struct device *after)
{
    const struct device before = image_device(&r->session->image, after->number - 1);
    const bool met = memcmp(before.body, after->body, kind_body_size(before.kind)) == 0;
    struct bytes got = { 0 };

    print_changed(&got, &before, after);
    conclude(r, met, "no change", (const char *)got.data);
    bytes_free(&got);
    return nothing_after(r, "expect unchanged");
}

/* Of a device with a scratchpad. */
static int expect_registers(struct reader *r, const char *word, const uint8_t *body)
{
    if (strcasecmp(word, "TA") == 0)
        return expect_number(r, "expect TA", body[TA1] + 256u * body[TA2], 4);
    if (strcasecmp(word, "E/S") == 0)
        return expect_number(r, "expect E/S", body[ES], 2);
    return expect_flags(r, word, body[ES]);
}

static bool is_register(const char *word)
{
    return strcasecmp(word, "TA") == 0 || strcasecmp(word, "E/S") == 0 || strcasecmp(word, "no") == 0 ||
           flag_named(word);
}

/* The devices are as the events so far leave them. */
int expect_held(struct reader *r, const char *word)
{
    size_t index;

    if (device_find(r, "expect", word, &index) != DONE)
        return BAD;
    (void)sofar_reach(&r->sofar, &r->session->events);

    const struct device device = image_device(&r->sofar.image, index);
    const char *const what = next_word(r);

    for (size_t i = 0; what && i < FIELDS; i++)
        if (strcasecmp(what, kind_field(device.kind, i).name) == 0)
            return expect_field(r, &device, kind_field(device.kind, i));
    if (what && strcasecmp(what, "unchanged") == 0)
        return expect_unchanged(r, &device);
    if (what && !device.kind->add_only && is_register(what))
        return expect_registers(r, what, device.body);
    return wrong(r, "expect",
                 device.kind->add_only ? "status, data or unchanged of a DS1982"
                                       : "memory, scratchpad, TA, E/S, AA, OF, PF, no, or unchanged",
                 what);
}
