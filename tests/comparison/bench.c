#include "bench.h"

#include <string.h>

/* ------------------------------------------------------------------ */
/* Kinds and codes                                                     */

const char *kind_name(enum kind kind)
{
    static const char *const names[KINDS] = { "DS1992", "DS1993", "DS1996",
                                              "DS1982" };

    return names[kind];
}

uint8_t kind_family(enum kind kind)
{
    static const uint8_t families[KINDS] = { 0x08, 0x06, 0x0C, 0x09 };

    return families[kind];
}

size_t kind_memory_bytes(enum kind kind)
{
    static const size_t bytes[KINDS] = { 128, 512, 8192, DATA_BYTES };

    return bytes[kind];
}

size_t kind_body_bytes(enum kind kind)
{
    return (kind == DS1982 ? DATA : MEMORY) + kind_memory_bytes(kind);
}

uint8_t crc_of(const uint8_t *bytes, size_t count)
{
    unsigned crc = 0;

    for (size_t i = 0; i < 8 * count; i++) {
        const unsigned bit = (bytes[i / 8] >> i % 8 ^ crc) & 1;

        crc = crc >> 1 ^ (bit ? 0x8C : 0);
    }
    return (uint8_t)crc;
}

void code_write(uint8_t *code, uint8_t family, uint64_t serial)
{
    code[0] = family;
    for (unsigned i = 0; i < 6; i++)
        code[1 + i] = (uint8_t)(serial >> 8 * i);
    code[7] = crc_of(code, 7);
}

int code_order(const void *left, const void *right)
{
    for (size_t i = 0; i < CODE_BITS; i++) {
        const unsigned a = ((const uint8_t *)left)[i / 8] >> i % 8 & 1;
        const unsigned b = ((const uint8_t *)right)[i / 8] >> i % 8 & 1;

        if (a != b)
            return a < b ? -1 : 1;
    }
    return 0;
}

/* ------------------------------------------------------------------ */
/* Layout and contents                                                 */

static size_t bytes_of(const enum kind *kinds, size_t count)
{
    size_t bytes = TABLE;

    for (size_t i = 0; i < count; i++)
        bytes += ENTRY_BYTES + kind_body_bytes(kinds[i]);
    return bytes;
}

void kinds_within(enum kind *kinds, size_t count, size_t bytes)
{
    size_t now = bytes_of(kinds, count);

    for (size_t i = count; i > 0 && now > bytes; i--)
        if (kinds[i - 1] == DS1996) {
            kinds[i - 1] = DS1992;
            now -= kind_body_bytes(DS1996) - kind_body_bytes(DS1992);
        }
}

void kinds_of_crowd(enum kind *kinds, size_t count, size_t way)
{
    for (size_t i = 0; i < count; i++)
        kinds[i] = (enum kind)(way < KINDS ? way : i % KINDS);
    kinds_within(kinds, count, MOST_IMAGE_BYTES);
}

void bench_lay_out(struct bench *b, const enum kind *kinds, size_t count)
{
    size_t offset = TABLE + ENTRY_BYTES * count;

    for (size_t i = 0; i < count; i++) {
        b->kinds[i] = kinds[i];
        b->flat[i] = 0;
        b->bodies[i] = offset;
        offset += kind_body_bytes(kinds[i]);
    }
    b->count = count;
    b->length = offset;
    memset(b->bytes, 0, b->length);
    b->bytes[COUNT] = (uint8_t)count;
    b->bytes[EDITION] = 1;
    for (size_t i = 0; i < count; i++) {
        uint8_t *const entry = b->bytes + TABLE + ENTRY_BYTES * i;

        entry[0] = kind_family(kinds[i]);
        entry[2] = (uint8_t)b->bodies[i];
        entry[3] = (uint8_t)(b->bodies[i] >> 8);
    }
}

void bench_to_edition_2(struct bench *b)
{
    b->bytes[EDITION] = 2;
}

void bench_flatten(struct bench *b, size_t device)
{
    bench_to_edition_2(b);
    if (b->kinds[device] == DS1982)
        return;
    b->flat[device] = 1;
    b->bytes[TABLE + ENTRY_BYTES * device + 1] = 1;
}

void bench_set_batteries(struct bench *b, size_t way)
{
    if (way == 0)
        return;
    bench_to_edition_2(b);
    for (size_t i = 0; i < b->count && i < 64; i++)
        if ((uint64_t)(way - 1) >> i & 1)
            bench_flatten(b, i);
}

const uint8_t *bench_see(const struct bench *b, size_t device, size_t offset)
{
    return b->bytes + b->bodies[device] + offset;
}

uint8_t *bench_at(struct bench *b, size_t device, size_t offset)
{
    return b->bytes + b->bodies[device] + offset;
}

static int has_code_of_earlier(const struct bench *b, size_t device)
{
    for (size_t i = 0; i < device; i++)
        if (memcmp(bench_see(b, i, 0), bench_see(b, device, 0), CODE_BYTES)
            == 0)
            return 1;
    return 0;
}

void bench_give_code(struct bench *b, size_t device, uint64_t serial)
{
    do
        code_write(bench_at(b, device, 0), kind_family(b->kinds[device]),
                   serial++);
    while (has_code_of_earlier(b, device));
}

void bench_make(struct bench *b, const enum kind *kinds, size_t count,
                uint64_t number)
{
    struct dice dice = dice_for(0, number);

    bench_lay_out(b, kinds, count);
    for (size_t i = 0; i < count; i++) {
        dice_fill(&dice, bench_at(b, i, 0), kind_body_bytes(kinds[i]));
        bench_give_code(b, i, dice_roll(&dice));
    }
}

void bench_take_out(struct bench *b, size_t device)
{
    static struct bench whole;
    enum kind kinds[MOST_ENTRIES] = { DS1992 };
    size_t count = 0;

    whole = *b;
    for (size_t i = 0; i < whole.count; i++)
        if (i != device)
            kinds[count++] = whole.kinds[i];
    bench_lay_out(b, kinds, count);
    b->bytes[EDITION] = whole.bytes[EDITION];
    for (size_t i = 0; i < count; i++) {
        const size_t was = i + (i >= device);

        memcpy(bench_at(b, i, 0), bench_see(&whole, was, 0),
               kind_body_bytes(kinds[i]));
        if (whole.flat[was])
            bench_flatten(b, i);
    }
}

int bench_takes_pulses(const struct bench *b)
{
    for (size_t i = 0; i < b->count; i++)
        if (b->kinds[i] != DS1982)
            return 0;
    return 1;
}

/* ------------------------------------------------------------------ */
/* Names, and showing                                                  */

static void name_table_byte(size_t place, char *name, size_t room)
{
    static const char *const parts[ENTRY_BYTES] = {
        "family", "battery", "low byte of the offset",
        "high byte of the offset"
    };

    if (place == COUNT)
        snprintf(name, room, "the count");
    else if (place == EDITION)
        snprintf(name, room, "the edition");
    else
        snprintf(name, room, "entry %zu, %s", (place - TABLE) / ENTRY_BYTES,
                 parts[(place - TABLE) % ENTRY_BYTES]);
}

struct part {
    size_t start;
    const char *name;
    int indexed; /* whether it has several bytes */
};

/* The parts of a body, the last one first. */
static const struct part *parts_of(enum kind kind)
{
    static const struct part sram[] = {
        { MEMORY, "memory byte", 1 }, { SCRATCHPAD, "scratchpad byte", 1 },
        { ES, "E/S", 0 },             { TA2, "TA2", 0 },
        { TA1, "TA1", 0 },            { 0, "code byte", 1 }
    };
    static const struct part eprom[] = { { DATA, "data byte", 1 },
                                         { STATUS, "status byte", 1 },
                                         { 0, "code byte", 1 } };

    return kind == DS1982 ? eprom : sram;
}

static void name_body_byte(enum kind kind, size_t device, size_t place,
                           char *name, size_t room)
{
    const struct part *part = parts_of(kind);
    char index[40] = "";

    while (place < part->start)
        part++;
    if (part->indexed)
        snprintf(index, sizeof index, " %zu (%02zXh)", place - part->start,
                 place - part->start);
    snprintf(name, room, "device %zu, a %s, %s%s", device, kind_name(kind),
             part->name, index);
}

void bench_name_byte(const struct bench *b, size_t place, char *name,
                     size_t room)
{
    if (place < TABLE + ENTRY_BYTES * b->count) {
        name_table_byte(place, name, room);
        return;
    }
    for (size_t i = 0; i < b->count; i++)
        if (place - b->bodies[i] < kind_body_bytes(b->kinds[i])) {
            name_body_byte(b->kinds[i], i, place - b->bodies[i], name, room);
            return;
        }
    snprintf(name, room, "after the last body");
}

void show_bytes(FILE *out, const uint8_t *bytes, size_t count)
{
    for (size_t i = 0; i < count; i++)
        fprintf(out, " %02X", bytes[i]);
}

static void show_device(FILE *out, const struct bench *b, size_t i)
{
    fprintf(out, "    device %zu: %s%s at %zu, code", i,
            b->flat[i] ? "flat " : "", kind_name(b->kinds[i]), b->bodies[i]);
    show_bytes(out, bench_see(b, i, 0), CODE_BYTES);
    if (b->kinds[i] == DS1982) {
        fprintf(out, ", status");
        show_bytes(out, bench_see(b, i, STATUS), STATUS_BYTES);
    } else {
        fprintf(out, ", TA1 TA2 E/S");
        show_bytes(out, bench_see(b, i, TA1), 3);
    }
    fputc('\n', out);
}

void bench_show(FILE *out, const struct bench *b)
{
    enum { MOST_SHOWN = 16 };
    const size_t shown = b->count < MOST_SHOWN ? b->count : MOST_SHOWN;
    const size_t start = b->length < 16 ? b->length : 16;

    fprintf(out, "image before the call, %zu bytes:", b->length);
    show_bytes(out, b->bytes, start);
    fprintf(out, "%s\n", start < b->length ? " ..." : "");
    fprintf(out, "devices laid out: %zu\n", b->count);
    for (size_t i = 0; i < shown; i++)
        show_device(out, b, i);
    if (shown < b->count)
        fprintf(out, "    and %zu devices more\n", b->count - shown);
}
