/*
 * Self test: the data sheets' worked example and codes, each rule of the
 * devices on bytes worked out here, every refusal alone and together, the
 * master's ends, and searches that are replayed.  Document 01's examples are
 * proved of the library, and comparing it with this program carries them over.
 * Prints what it checks; exits 1 if anything failed.
 */
#include "second.h"

#include <stdio.h>
#include <stdlib.h>
#include <string.h>

enum { ROOM = 66000, EVENTS = 32768, CODE = 8 };

/* ------------------------------------------------------------------ */
/* Reporting                                                           */

struct report {
    unsigned checks, failures;
};

static void check_at(struct report *r, int ok, const char *what, int line)
{
    r->checks++;
    if (!ok) {
        r->failures++;
        printf("  FAILED line %d: %s\n", line, what);
    }
}

#define CHECK(r, condition) check_at(r, (condition) != 0, #condition, __LINE__)

static void title(const char *text)
{
    printf("%s\n", text);
}

/* ------------------------------------------------------------------ */
/* Codes and images                                                    */

/* The CRC by the definition, bit by bit. */
static uint8_t crc_bit_by_bit(uint8_t crc, const uint8_t *bytes, size_t count)
{
    for (size_t i = 0; i < 8 * count; i++) {
        const unsigned bit = (bytes[i / 8] >> (i % 8) ^ crc) & 1;

        crc = (uint8_t)(crc >> 1 ^ (bit ? 0x8C : 0));
    }
    return crc;
}

static void make_code(uint8_t *code, uint8_t family, uint64_t serial)
{
    code[0] = family;
    for (unsigned i = 0; i < 6; i++)
        code[1 + i] = (uint8_t)(serial >> (8 * i));
    code[7] = crc_bit_by_bit(0, code, 7);
}

static size_t body_size(uint8_t family)
{
    switch (family) {
    case 0x08:
        return 171;
    case 0x06:
        return 555;
    case 0x0C:
        return 8235;
    default:
        return 144;
    }
}

struct image {
    uint8_t bytes[ROOM];
    size_t length;
    size_t body[64];
};

/* Fills a body past its code with bytes that differ from one another. */
static void fill_body(uint8_t *body, uint8_t family, size_t seed)
{
    for (size_t i = CODE; i < body_size(family); i++)
        body[i] = (uint8_t)(7 * i + 31 * seed + 3);
}

static void make_image(struct image *im, const uint8_t *families, size_t n)
{
    size_t offset = 2 + 4 * n;

    memset(im, 0, sizeof *im);
    im->bytes[0] = (uint8_t)n;
    im->bytes[1] = 1;
    for (size_t i = 0; i < n; i++) {
        uint8_t *const entry = im->bytes + 2 + 4 * i;

        entry[0] = families[i];
        entry[2] = (uint8_t)offset;
        entry[3] = (uint8_t)(offset >> 8);
        im->body[i] = offset;
        make_code(im->bytes + offset, families[i], 0x1234567890 + 77 * i);
        fill_body(im->bytes + offset, families[i], i);
        offset += body_size(families[i]);
    }
    im->length = offset;
}

static void one_device(struct image *im, uint8_t family)
{
    make_image(im, &family, 1);
}

/* Device i's bytes from an offset in its body. */
static uint8_t *at(struct image *im, size_t i, size_t offset)
{
    return im->bytes + im->body[i] + offset;
}

enum { TA1 = 8, TA2 = 9, ES = 10, PAD = 11, MEM = 43, STATUS = 8, DATA = 16 };

/* ------------------------------------------------------------------ */
/* Scripts: a trace written byte by byte, and its answers              */

/* More bytes than any trace can copy. */
#define UNWRITTEN UINT64_C(0xEEEEEEEEEEEEEEEE)

struct script {
    size_t length;
    uint8_t trace[EVENTS];
    uint8_t answers[EVENTS + 4];
    uint64_t copied;
};

static void event(struct script *s, uint8_t e)
{
    s->trace[s->length++] = e;
}

static void bits(struct script *s, uint64_t value, unsigned count)
{
    for (unsigned i = 0; i < count; i++)
        event(s, value >> i & 1);
}

/* Sends bytes; gives the place of the first event. */
static size_t send(struct script *s, const uint8_t *bytes, size_t count)
{
    const size_t place = s->length;

    for (size_t i = 0; i < count; i++)
        bits(s, bytes[i], 8);
    return place;
}

#define SEND(s, ...) \
    send(s, (const uint8_t[]){ __VA_ARGS__ }, \
         sizeof((const uint8_t[]){ __VA_ARGS__ }))

/* Sends read slots; gives the place of the first. */
static size_t slots(struct script *s, size_t count)
{
    const size_t place = s->length;

    for (size_t i = 0; i < count; i++)
        event(s, 1);
    return place;
}

static size_t read_bytes(struct script *s, size_t count)
{
    return slots(s, 8 * count);
}

static void restart(struct script *s)
{
    s->length = 0;
}

/* A reset and Skip ROM. */
static void address_all(struct script *s)
{
    event(s, 2);
    SEND(s, 0xCC);
}

/* A reset and Match ROM with a device's code. */
static void address_one(struct script *s, const uint8_t *code)
{
    event(s, 2);
    SEND(s, 0x55);
    send(s, code, CODE);
}

static uint32_t play(struct script *s, struct image *im)
{
    memset(s->answers, 0xEE, sizeof s->answers);
    s->copied = UNWRITTEN;
    return second_run(im->bytes, im->length, s->trace, s->length, s->answers,
                      s->length, &s->copied);
}

/* A run without a script.  A refusal, and only that, leaves the sum alone. */
static uint32_t run(struct report *r, struct image *im, const uint8_t *trace,
                    size_t length, uint8_t *answers, size_t room)
{
    uint64_t copied = UNWRITTEN;
    const uint32_t number = second_run(im->bytes, im->length, trace, length,
                                       answers, room, &copied);

    CHECK(r, (number != 0) == (copied == UNWRITTEN));
    return number;
}

/* The byte answered from a place on. */
static uint8_t answered(const struct script *s, size_t place)
{
    unsigned value = 0;

    for (unsigned i = 0; i < 8; i++)
        value |= (unsigned)s->answers[place + i] << i;
    return (uint8_t)value;
}

static int all_ones(const struct script *s, size_t place, size_t count)
{
    for (size_t i = 0; i < count; i++)
        if (s->answers[place + i] != 1)
            return 0;
    return 1;
}

static int all_zeros(const struct script *s, size_t place, size_t count)
{
    for (size_t i = 0; i < count; i++)
        if (s->answers[place + i] != 0)
            return 0;
    return 1;
}

static int answered_bytes(const struct script *s, size_t place,
                          const uint8_t *bytes, size_t count)
{
    for (size_t i = 0; i < count; i++)
        if (answered(s, place + 8 * i) != bytes[i])
            return 0;
    return 1;
}

/* Everything a test works on, once. */
struct bench {
    struct image image, before;
    struct script script;
};

static void keep(struct bench *b)
{
    b->before = b->image;
}

static int unchanged(const struct bench *b)
{
    return memcmp(b->image.bytes, b->before.bytes, ROOM) == 0;
}

/* ------------------------------------------------------------------ */
/* The data sheets                                                     */

static void published_codes(struct report *r)
{
    static const uint8_t codes[][CODE] = {
        { 0x09, 0x2B, 0xC5, 0xFB, 0x00, 0x00, 0x00, 0x97 }, /* 004 */
        { 0x09, 0xB3, 0xD8, 0xFB, 0x00, 0x00, 0x00, 0x17 }, /* 004 */
        { 0x0C, 0x2B, 0xC5, 0xFB, 0x00, 0x00, 0x00, 0x5E }, /* 001 */
        { 0x02, 0x1C, 0xB8, 0x01, 0x00, 0x00, 0x00, 0xA2 }, /* note 27 */
        { 0, 0, 0, 0, 0, 0, 0, 0 }
    };
    uint8_t code[CODE + 1] = { 0 };

    title("published codes and the registration check");
    for (size_t i = 0; i < sizeof codes / sizeof *codes; i++) {
        CHECK(r, second_registration_check(codes[i], CODE) == 1);
        for (unsigned bit = 0; bit < 64; bit++) {
            memcpy(code, codes[i], CODE);
            code[bit / 8] ^= (uint8_t)(1u << (bit % 8));
            CHECK(r, second_registration_check(code, CODE) == 0);
        }
        CHECK(r, second_registration_check(codes[i], CODE - 1) == 0);
    }
    memset(code, 0, sizeof code);
    CHECK(r, second_registration_check(code, CODE + 1) == 0);
    CHECK(r, second_registration_check(NULL, 0) == 0);
    for (unsigned byte = 0; byte < 256; byte++) {
        memset(code, 0, sizeof code);
        code[6] = (uint8_t)byte;
        code[7] = crc_bit_by_bit(0, code, 7);
        CHECK(r, second_registration_check(code, CODE) == 1);
        code[7]++;
        CHECK(r, second_registration_check(code, CODE) == 0);
    }
}

static void worked_example(struct report *r, struct bench *b, uint8_t family)
{
    static const uint8_t registers[] = { 0x26, 0x00, 0x07 };
    static const uint8_t data[] = { 0xC3, 0x5A };
    /* a trace is too short for all of a DS1996 */
    const size_t size = family == 0x08 ? 128 : 512;
    const size_t after = family == 0x0C ? 0 : 20;
    struct script *const s = &b->script;
    uint8_t memory[512];
    size_t back, all;

    printf("the sheets' worked example: two bytes to 0026h, family %02Xh\n",
           family);
    one_device(&b->image, family);
    memcpy(memory, at(&b->image, 0, MEM), size);
    memcpy(memory + 0x26, data, 2);
    restart(s);
    address_all(s);
    SEND(s, 0x0F, 0x26, 0x00);
    send(s, data, 2);
    address_all(s);
    SEND(s, 0xAA);
    back = read_bytes(s, 5);
    address_all(s);
    SEND(s, 0x55);
    send(s, registers, 3);
    address_all(s);
    SEND(s, 0xF0, 0x00, 0x00);
    all = read_bytes(s, size);
    slots(s, after);
    event(s, 2);
    CHECK(r, play(s, &b->image) == 0);
    CHECK(r, answered_bytes(s, back, registers, 3));
    CHECK(r, answered_bytes(s, back + 24, data, 2));
    CHECK(r, answered_bytes(s, all, memory, size));
    CHECK(r, all_ones(s, all + 8 * size, after));
    CHECK(r, s->answers[s->length - 1] == 0);
    CHECK(r, memcmp(at(&b->image, 0, MEM), memory, size) == 0);
    CHECK(r, memcmp(at(&b->image, 0, TA1), "\x00\x00\x87", 3) == 0);
    CHECK(r, s->copied == 2);
}

/* ------------------------------------------------------------------ */
/* ROM functions                                                       */

static void rom_functions(struct report *r, struct bench *b)
{
    static const uint8_t families[] = { 0x08, 0x09, 0x06 };
    struct script *const s = &b->script;
    size_t rom, memory, mismatch, unknown;

    title("Read ROM, Match ROM, a mismatch, an unknown command");
    one_device(&b->image, 0x06);
    restart(s);
    event(s, 2);
    SEND(s, 0x33);
    rom = read_bytes(s, 8);
    SEND(s, 0xF0, 0x10, 0x00);
    memory = read_bytes(s, 2);
    CHECK(r, play(s, &b->image) == 0);
    CHECK(r, answered_bytes(s, rom, at(&b->image, 0, 0), 8));
    CHECK(r, answered_bytes(s, memory, at(&b->image, 0, MEM + 0x10), 2));

    make_image(&b->image, families, 3);
    for (size_t i = 0; i < 3; i += 2) {
        restart(s);
        address_one(s, at(&b->image, i, 0));
        SEND(s, 0xF0, 0x08, 0x00);
        memory = read_bytes(s, 4);
        CHECK(r, play(s, &b->image) == 0);
        CHECK(r, answered_bytes(s, memory, at(&b->image, i, MEM + 8), 4));
    }
    restart(s);
    make_code(b->before.bytes, 0x08, 99);
    address_one(s, b->before.bytes);
    SEND(s, 0xF0, 0x08, 0x00);
    mismatch = slots(s, 80);
    event(s, 2);
    SEND(s, 0xEC);
    unknown = slots(s, 200);
    CHECK(r, play(s, &b->image) == 0);
    CHECK(r, all_ones(s, mismatch, 80) && all_ones(s, unknown, 200));
}

/* Reading the ROM of three devices at once gives the AND of their codes. */
static void colliding_codes(struct report *r, struct bench *b)
{
    static const uint8_t families[] = { 0x08, 0x09, 0x06 };
    struct script *const s = &b->script;
    uint8_t both[CODE];
    size_t rom;

    title("Read ROM with three devices: wired AND");
    make_image(&b->image, families, 3);
    for (size_t i = 0; i < CODE; i++)
        both[i] = *at(&b->image, 0, i) & *at(&b->image, 1, i)
                  & *at(&b->image, 2, i);
    restart(s);
    event(s, 2);
    SEND(s, 0x33);
    rom = read_bytes(s, 8);
    CHECK(r, play(s, &b->image) == 0);
    CHECK(r, answered_bytes(s, rom, both, CODE));
}

/* ------------------------------------------------------------------ */
/* How many devices are looked at                                      */

/* What a trace looks at, event by event, with no room to spare. */
static uint32_t look(struct script *s, const struct image *im)
{
    memset(s->answers, 0xEE, sizeof s->answers);
    return second_looked(im->bytes, im->length, s->trace, s->length,
                         s->answers, s->length);
}

static int all_counts(const struct script *s, size_t place, size_t count,
                      size_t looked)
{
    for (size_t i = 0; i < count; i++)
        if (s->answers[place + i] != looked)
            return 0;
    return 1;
}

/* n DS1992 whose memory is FFh, but for that of some device of them. */
static void one_of_them_low(struct image *im, size_t n, size_t low)
{
    uint8_t families[64];

    memset(families, 0x08, sizeof families);
    make_image(im, families, n);
    for (size_t i = 0; i < n; i++)
        memset(at(im, i, MEM), i == low ? 0x00 : 0xFF, 128);
}

static void looked_at_in_order(struct report *r, struct bench *b)
{
    struct script *const s = &b->script;
    size_t place;

    title("looked at: up to the first that pulls low, or all of 1 to 64");
    for (size_t n = 1; n <= 64; n++)
        for (size_t low = 0; low <= n; low += n < 8 ? 1 : n / 8) {
            one_of_them_low(&b->image, n, low);
            if (low + 2 < n)
                memset(at(&b->image, low + 2, MEM), 0x00, 128);
            keep(b);
            restart(s);
            address_all(s);
            SEND(s, 0xF0, 0x00, 0x00);
            place = slots(s, 20);
            bits(s, 0x0, 3);
            CHECK(r, look(s, &b->image) == 0);
            CHECK(r, s->answers[0] == 255);
            CHECK(r, all_counts(s, place, 20, low < n ? low + 1 : n));
            CHECK(r, all_counts(s, place + 20, 3, 0));
            CHECK(r, s->answers[s->length] == 0xEE && unchanged(b));
        }
}

static void looked_at_while_waiting(struct report *r, struct bench *b)
{
    struct script *const s = &b->script;
    size_t place;

    title("looked at: devices that wait count, pulses and resets do not");
    one_of_them_low(&b->image, 5, 3);
    restart(s);
    event(s, 2);
    SEND(s, 0xEC);
    place = slots(s, 10);
    address_one(s, at(&b->image, 3, 0));
    SEND(s, 0xF0, 0x00, 0x00);
    slots(s, 20);
    CHECK(r, look(s, &b->image) == 0);
    CHECK(r, all_counts(s, place, 10, 5));
    CHECK(r, all_counts(s, s->length - 20, 20, 4));

    make_image(&b->image, (const uint8_t[]){ 0x09, 0x09 }, 2);
    restart(s);
    address_all(s);
    event(s, 3);
    slots(s, 1);
    CHECK(r, look(s, &b->image) == 0);
    CHECK(r, all_counts(s, 9, 1, 255) && all_counts(s, 10, 1, 2));
    CHECK(r, second_looked(b->image.bytes, b->image.length, s->trace,
                           s->length, s->answers, s->length - 1) == 7);
    make_image(&b->image, NULL, 0);
    CHECK(r, look(s, &b->image) == 0);
    CHECK(r, all_counts(s, 10, 1, 0));
}

/* ------------------------------------------------------------------ */
/* DS1992 and DS1993                                                   */

/* Every number of data bits: what is stored, E/S with and without a reset. */
static void scratchpad_bits(struct report *r, struct bench *b)
{
    struct script *const s = &b->script;

    title("scratchpad: 0 to 40 data bits at 003Dh, cut by a reset or the end");
    for (unsigned count = 0; count <= 40; count++) {
        const unsigned whole = count / 8, rest = count % 8;
        const unsigned last = count == 0 ? 29 : 29 + (count - 1) / 8;
        const unsigned es = count > 24 ? 0x40 | 31 : last;
        const unsigned pf = rest && count < 24 ? 0x20 : 0;

        one_device(&b->image, 0x06);
        keep(b);
        for (unsigned i = 0; i < whole && i < 3; i++)
            *at(&b->before, 0, PAD + 29 + i) = (uint8_t)(0x96 + i);
        if (whole < 3)
            *at(&b->before, 0, PAD + 29 + whole) =
                (uint8_t)((*at(&b->before, 0, PAD + 29 + whole)
                           & ~((1u << rest) - 1))
                          | ((0x96 + whole) & ((1u << rest) - 1)));
        *at(&b->before, 0, TA1) = 0x3D;
        *at(&b->before, 0, TA2) = 0x00;
        *at(&b->before, 0, ES) = (uint8_t)es;

        restart(s);
        address_all(s);
        SEND(s, 0x0F, 0x3D, 0x00);
        bits(s, 0x9A99989796, count);
        CHECK(r, play(s, &b->image) == 0);
        CHECK(r, unchanged(b));

        one_device(&b->image, 0x06);
        *at(&b->before, 0, ES) = (uint8_t)(es | pf);
        event(s, 2);
        CHECK(r, play(s, &b->image) == 0);
        CHECK(r, unchanged(b));
    }
}

/* Nothing changes before the 16th address bit of a write or a read. */
static void address_cut_short(struct report *r, struct bench *b)
{
    static const uint8_t commands[] = { 0x0F, 0xF0 };
    struct script *const s = &b->script;

    title("0Fh and F0h: nothing loads before the 16th address bit");
    for (unsigned i = 0; i < 2 * 16; i++) {
        one_device(&b->image, 0x08);
        keep(b);
        restart(s);
        address_all(s);
        SEND(s, commands[i / 16]);
        bits(s, 0x5555, i % 16);
        event(s, 2);
        CHECK(r, play(s, &b->image) == 0);
        CHECK(r, unchanged(b));
    }
}

/* Reads some bytes from an address: what comes, and what it leaves. */
static void read_memory_at(struct report *r, struct bench *b, uint8_t family,
                           uint16_t address)
{
    enum { READ = 5 };
    const size_t size = body_size(family) - MEM;
    struct script *const s = &b->script;
    uint8_t bytes[READ];
    size_t place;

    one_device(&b->image, family);
    for (size_t i = 0; i < READ; i++)
        bytes[i] = address + i < size ? *at(&b->image, 0, MEM + address + i)
                                      : 0xFF;
    keep(b);
    *at(&b->before, 0, TA1) = (uint8_t)address;
    *at(&b->before, 0, TA2) = (uint8_t)(address >> 8);
    restart(s);
    address_all(s);
    SEND(s, 0xF0, (uint8_t)address, (uint8_t)(address >> 8));
    place = read_bytes(s, READ);
    CHECK(r, play(s, &b->image) == 0);
    CHECK(r, answered_bytes(s, place, bytes, READ));
    CHECK(r, unchanged(b));
    s->length = place;
    one_device(&b->image, family);
    CHECK(r, play(s, &b->image) == 0);
    CHECK(r, unchanged(b));
}

static void read_memory(struct report *r, struct bench *b)
{
    title("read memory: the target is the address as sent, E/S stays");
    for (unsigned address = 0; address < 520; address++) {
        read_memory_at(r, b, 0x08, (uint16_t)address);
        read_memory_at(r, b, 0x06, (uint16_t)address);
    }
    read_memory_at(r, b, 0x08, 0x8000);
    read_memory_at(r, b, 0x06, 0xFFFF);
    for (unsigned address = 0x01F0; address < 0x2010; address += 7)
        read_memory_at(r, b, 0x0C, (uint16_t)address);
    for (unsigned address = 0x1FF0; address < 0x2010; address++)
        read_memory_at(r, b, 0x0C, (uint16_t)address);
    read_memory_at(r, b, 0x0C, 0xFFFF);
}

/* Copies with a pattern; gives the place of 16 read slots after it. */
static size_t copy(struct script *s, uint8_t ta1, uint8_t ta2, uint8_t es)
{
    address_all(s);
    SEND(s, 0x55, ta1, ta2, es);
    return slots(s, 16);
}

/*
 * Two bytes at 0026h, and a read of 0048h: the old pattern does not match any
 * more, the scratchpad is read from offset 8 on, and a copy has nothing to do.
 */
static void copy_after_a_read(struct report *r, struct bench *b)
{
    static const uint8_t moved[] = { 0x48, 0x00, 0x07 };
    struct script *const s = &b->script;
    size_t back, old, new;

    title("read memory: the old pattern stops matching, the new copies none");
    one_device(&b->image, 0x06);
    keep(b);
    restart(s);
    address_all(s);
    SEND(s, 0x0F, 0x26, 0x00, 0xC3, 0x5A);
    address_all(s);
    SEND(s, 0xF0, 0x48, 0x00);
    read_bytes(s, 3);
    address_all(s);
    SEND(s, 0xAA);
    back = read_bytes(s, 4);
    old = copy(s, 0x26, 0x00, 0x07);
    new = copy(s, 0x48, 0x00, 0x07);
    CHECK(r, play(s, &b->image) == 0);
    CHECK(r, answered_bytes(s, back, moved, 3));
    CHECK(r, answered(s, back + 24) == *at(&b->before, 0, PAD + 8));
    CHECK(r, all_ones(s, old, 16) && all_zeros(s, new, 16));
    CHECK(r, s->copied == 0);
    memcpy(at(&b->before, 0, TA1), "\x48\x00\x87", 3);
    memcpy(at(&b->before, 0, PAD + 6), "\xC3\x5A", 2);
    CHECK(r, unchanged(b));
}

static void read_scratchpad(struct report *r, struct bench *b)
{
    struct script *const s = &b->script;
    size_t place;

    title("scratchpad: read from T4:T0 to offset 31, then ones");
    for (unsigned first = 0; first < 32; first++) {
        one_device(&b->image, 0x08);
        *at(&b->image, 0, TA1) = (uint8_t)(0xE0 | first);
        *at(&b->image, 0, ES) = 0xA5;
        keep(b);
        restart(s);
        address_all(s);
        SEND(s, 0xAA);
        place = read_bytes(s, 3 + 34);
        CHECK(r, play(s, &b->image) == 0);
        CHECK(r, answered_bytes(s, place, at(&b->image, 0, TA1), 3));
        CHECK(r, answered_bytes(s, place + 24, at(&b->image, 0, PAD + first),
                                32 - first));
        CHECK(r, all_ones(s, place + 8 * (35 - first), 8 * (2 + first)));
        CHECK(r, unchanged(b));
    }
}

/* A copy from registers set in the image; expects so many bytes written. */
static void copy_from(struct report *r, struct bench *b, uint8_t family,
                      uint16_t target, uint8_t es, size_t written)
{
    struct script *const s = &b->script;
    size_t place;

    one_device(&b->image, family);
    *at(&b->image, 0, TA1) = (uint8_t)target;
    *at(&b->image, 0, TA2) = (uint8_t)(target >> 8);
    *at(&b->image, 0, ES) = es;
    keep(b);
    *at(&b->before, 0, ES) = es | 0x80;
    if (written)
        memcpy(at(&b->before, 0, MEM + target),
               at(&b->before, 0, PAD + target % 32), written);
    restart(s);
    place = copy(s, (uint8_t)target, (uint8_t)(target >> 8), es);
    slots(s, 100);
    event(s, 2);
    CHECK(r, play(s, &b->image) == 0);
    CHECK(r, all_zeros(s, place, 116));
    CHECK(r, s->copied == written);
    CHECK(r, unchanged(b));
}

static void copies(struct report *r, struct bench *b)
{
    title("copy: flags set, nothing to copy, target past memory");
    copy_from(r, b, 0x08, 0x0060, 0x1F, 32);
    copy_from(r, b, 0x06, 0x01FF, 0x1F, 1);
    copy_from(r, b, 0x06, 0x01E3, 0x23, 1);
    copy_from(r, b, 0x06, 0x0105, 0xFF, 27);
    copy_from(r, b, 0x08, 0x0027, 0x06, 0);
    copy_from(r, b, 0x08, 0x0027, 0x02, 0);
    copy_from(r, b, 0x06, 0x001F, 0x00, 0);
    copy_from(r, b, 0x08, 0x0080, 0x1F, 0);
    copy_from(r, b, 0x06, 0x0200, 0x1F, 0);
    copy_from(r, b, 0x06, 0xFFE0, 0x1F, 0);
    copy_from(r, b, 0x0C, 0x0200, 0x1F, 32);
    copy_from(r, b, 0x0C, 0x1FFF, 0x1F, 1);
    copy_from(r, b, 0x0C, 0x1FE5, 0x66, 2);
    copy_from(r, b, 0x0C, 0x2000, 0x1F, 0);
    copy_from(r, b, 0x0C, 0x1FE5, 0x04, 0);
}

/* A pattern is compared whole, flags as well: any wrong bit spoils it. */
static void wrong_patterns(struct report *r, struct bench *b)
{
    static const uint8_t registers[] = { 0x26, 0x00, 0xE7 };
    struct script *const s = &b->script;
    uint8_t pattern[3];
    size_t place;

    title("copy: a pattern wrong in one bit gives ones and copies nothing");
    for (unsigned bit = 0; bit < 24; bit++) {
        memcpy(pattern, registers, 3);
        pattern[bit / 8] ^= (uint8_t)(1u << (bit % 8));
        one_device(&b->image, 0x06);
        memcpy(at(&b->image, 0, TA1), registers, 3);
        keep(b);
        restart(s);
        place = copy(s, pattern[0], pattern[1], pattern[2]);
        CHECK(r, play(s, &b->image) == 0);
        CHECK(r, all_ones(s, place, 16));
        CHECK(r, s->copied == 0);
        CHECK(r, unchanged(b));
    }
}

/*
 * A DS1992 and a DS1993 under Skip ROM: first both have the target, then it is
 * past the end of the DS1992, then it lies behind the ending offset.
 */
static void copies_add_up(struct report *r, struct bench *b)
{
    struct script *const s = &b->script;

    title("copy: the bytes of all devices and of the whole trace add up");
    make_image(&b->image, (const uint8_t[]){ 0x08, 0x06 }, 2);
    restart(s);
    CHECK(r, play(s, &b->image) == 0 && s->copied == 0);
    address_all(s);
    SEND(s, 0x0F, 0x45, 0x00, 1, 2, 3);
    copy(s, 0x45, 0x00, 0x07);
    CHECK(r, play(s, &b->image) == 0 && s->copied == 2 * 3);
    copy(s, 0x45, 0x00, 0x07);
    CHECK(r, play(s, &b->image) == 0 && s->copied == 2 * 3);
    copy(s, 0x45, 0x00, 0x87);
    CHECK(r, play(s, &b->image) == 0 && s->copied == 4 * 3);
    address_all(s);
    SEND(s, 0x0F, 0x81, 0x00, 1, 2, 3, 4, 5);
    copy(s, 0x81, 0x00, 0x05);
    CHECK(r, play(s, &b->image) == 0 && s->copied == 4 * 3 + 5);
    address_all(s);
    SEND(s, 0xF0, 0x1E, 0x00);
    copy(s, 0x1E, 0x00, 0x85);
    CHECK(r, play(s, &b->image) == 0 && s->copied == 4 * 3 + 5);
    address_one(s, at(&b->image, 1, 0));
    SEND(s, 0xF0, 0xE0, 0x01);
    copy(s, 0xE0, 0x01, 0x85);
    CHECK(r, play(s, &b->image) == 0 && s->copied == 4 * 3 + 5 + 6);
}

/* Device i's battery goes flat, which only edition 2 can say. */
static void flatten(struct image *im, size_t i)
{
    im->bytes[1] = 2;
    im->bytes[3 + 4 * i] = 1;
}

/* The ways to come to the memory command: all devices, or that of a code. */
static void address_by(struct script *s, unsigned way, const uint8_t *code)
{
    event(s, 2);
    switch (way) {
    case 0:
        SEND(s, 0xCC);
        break;
    case 1:
        SEND(s, 0x55);
        send(s, code, CODE);
        break;
    case 2:
        SEND(s, 0x33);
        read_bytes(s, CODE);
        break;
    default:
        SEND(s, 0xF0);
        for (unsigned i = 0; i < 64; i++) {
            slots(s, 2);
            bits(s, code[i / 8] >> i % 8, 1);
        }
    }
}

/* Every ROM function is carried out, and no memory command after it. */
static void flat_alone(struct report *r, struct bench *b, uint8_t family)
{
    struct script *const s = &b->script;
    const uint8_t *code;
    size_t place;

    printf("flat: ROM functions, and no memory command, family %02Xh\n",
           family);
    one_device(&b->image, family);
    memcpy(at(&b->image, 0, TA1), "\x26\x00\x07", 3);
    flatten(&b->image, 0);
    keep(b);
    code = at(&b->image, 0, 0);
    for (unsigned way = 0; way < 4; way++)
        for (unsigned command = 0; command < 256; command++) {
            restart(s);
            address_by(s, way, code);
            SEND(s, (uint8_t)command);
            place = SEND(s, 0x26, 0x00, 0x07);
            slots(s, 100);
            event(s, 2);
            CHECK(r, play(s, &b->image) == 0 && s->copied == 0);
            CHECK(r, way != 2 || answered_bytes(s, 9, code, CODE));
            CHECK(r, answered(s, place) == 0x26);
            CHECK(r, answered(s, place + 16) == 0x07);
            CHECK(r, all_ones(s, place + 24, 100));
            CHECK(r, s->answers[s->length - 1] == 0 && unchanged(b));
        }
}

/* One flat beside one good: only the good one takes the write and the copy. */
static void flat_beside_good(struct report *r, struct bench *b)
{
    struct script *const s = &b->script;

    title("flat: the good neighbour takes what both are sent");
    for (size_t flat = 0; flat < 2; flat++) {
        make_image(&b->image, (const uint8_t[]){ 0x06, 0x08 }, 2);
        flatten(&b->image, flat);
        keep(b);
        restart(s);
        address_all(s);
        SEND(s, 0x0F, 0x41, 0x00, 0xC3, 0x5A);
        copy(s, 0x41, 0x00, 0x02);
        CHECK(r, play(s, &b->image) == 0 && s->copied == 2);
        memcpy(at(&b->before, 1 - flat, TA1), "\x41\x00\x82", 3);
        memcpy(at(&b->before, 1 - flat, PAD + 1), "\xC3\x5A", 2);
        memcpy(at(&b->before, 1 - flat, MEM + 0x41), "\xC3\x5A", 2);
        CHECK(r, unchanged(b));
    }
}

/* A device that listens takes the level of the line. */
static void listening(struct report *r, struct bench *b)
{
    static const uint8_t families[] = { 0x08, 0x09 };
    static const uint8_t command[] = { 0x0F, 0x00, 0x00, 0xFF };
    struct script *const s = &b->script;
    uint8_t crc;
    size_t place;

    title("a listening device takes the line's level, not the master's bit");
    make_image(&b->image, families, 2);
    crc = crc_bit_by_bit(0, command, 4);
    restart(s);
    address_all(s);
    send(s, command, 4);
    place = SEND(s, 0xFF);
    CHECK(r, play(s, &b->image) == 0);
    CHECK(r, answered(s, place) == crc);
    CHECK(r, *at(&b->image, 0, PAD) == 0xFF);
    CHECK(r, *at(&b->image, 0, PAD + 1) == crc);
}

/* ------------------------------------------------------------------ */
/* Overdrive                                                           */

/* Turns the events of a script from a place on into those at overdrive. */
static void hurry(struct script *s, size_t from)
{
    for (size_t i = from; i < s->length; i++)
        s->trace[i] = (uint8_t)(s->trace[i] + 4);
}

/* A reset and 3Ch; gives the place from which on all is at overdrive. */
static size_t overdrive_all(struct script *s)
{
    event(s, 2);
    SEND(s, 0x3C);
    return s->length;
}

/* Two bytes written, read back, copied and read, after 3Ch. */
static void overdrive_session(struct script *s)
{
    const size_t from = overdrive_all(s);

    SEND(s, 0x0F, 0x26, 0x00, 0xC3, 0x5A);
    address_all(s);
    SEND(s, 0xAA);
    read_bytes(s, 5);
    address_all(s);
    SEND(s, 0x55, 0x26, 0x00, 0x07);
    slots(s, 10);
    event(s, 2);
    SEND(s, 0xF0);
    slots(s, 30);
    address_all(s);
    SEND(s, 0xF0, 0x24, 0x00);
    read_bytes(s, 5);
    hurry(s, from);
}

static void overdrive_example(struct report *r, struct bench *b)
{
    struct script *const s = &b->script;
    const size_t back = 9 + 40 + 17, again = 9 + 40 + 17 + 40 + 9 + 32 + 10;

    title("overdrive: 3Ch, then two bytes written, read back and copied");
    one_device(&b->image, 0x0C);
    keep(b);
    restart(s);
    overdrive_session(s);
    event(s, 2);
    CHECK(r, play(s, &b->image) == 0 && s->copied == 2);
    CHECK(r, s->answers[0] == 0 && s->answers[9 + 40] == 0);
    CHECK(r, answered_bytes(s, back, (const uint8_t *)"\x26\x00\x07\xC3\x5A",
                            5));
    CHECK(r, all_zeros(s, again - 10, 11));
    CHECK(r, answered_bytes(s, s->length - 1 - 24,
                            (const uint8_t *)"\xC3\x5A", 2));
    memcpy(at(&b->before, 0, TA1), "\x24\x00\x87", 3);
    memcpy(at(&b->before, 0, PAD + 6), "\xC3\x5A", 2);
    memcpy(at(&b->before, 0, MEM + 0x26), "\xC3\x5A", 2);
    CHECK(r, unchanged(b));
}

/* A write, and a read of the scratchpad: 116 events at regular speed. */
enum { REGULAR_EVENTS = 9 + 40 + 17 + 50 };

static void regular_session(struct script *s)
{
    restart(s);
    address_all(s);
    SEND(s, 0x0F, 0x26, 0x00, 0xC3, 0x5A);
    address_all(s);
    SEND(s, 0xAA);
    slots(s, 50);
}

/* A device that is not at overdrive hears nothing of it, in any stage. */
static void not_heard(struct report *r, struct bench *b, uint8_t family)
{
    struct script *const s = &b->script;
    uint8_t plain[REGULAR_EVENTS];

    printf("overdrive: events 4, 5, 6 are not heard, family %02Xh\n", family);
    for (size_t place = 1; place <= REGULAR_EVENTS; place++)
        for (uint8_t e = 4; e <= 6; e++) {
            const size_t rest = REGULAR_EVENTS - place;

            regular_session(s);
            one_device(&b->before, family);
            CHECK(r, play(s, &b->before) == 0);
            memcpy(plain, s->answers, REGULAR_EVENTS);
            memmove(s->trace + place + 1, s->trace + place, rest);
            s->trace[place] = e;
            s->length++;
            one_device(&b->image, family);
            CHECK(r, play(s, &b->image) == 0);
            CHECK(r, s->answers[place] == (e != 4));
            CHECK(r, memcmp(s->answers, plain, place) == 0);
            CHECK(r, memcmp(s->answers + place + 1, plain + place, rest) == 0);
            CHECK(r, unchanged(b));
        }
}

/* 3Ch and 69h are unknown commands for all but a DS1996. */
static void overdrive_unknown(struct report *r, struct bench *b)
{
    static const uint8_t families[] = { 0x08, 0x06, 0x09 };
    struct script *const s = &b->script;
    size_t place;

    title("overdrive: unknown commands for the others");
    for (unsigned i = 0; i < 6; i++) {
        one_device(&b->image, families[i % 3]);
        keep(b);
        restart(s);
        event(s, 2);
        SEND(s, i < 3 ? 0x3C : 0x69);
        place = s->length;
        if (i >= 3)
            send(s, at(&b->image, 0, 0), CODE);
        hurry(s, place);
        event(s, 6);
        SEND(s, 0xF0, 0x00, 0x00);
        slots(s, 40);
        CHECK(r, play(s, &b->image) == 0);
        CHECK(r, all_ones(s, s->length - 40, 40) && unchanged(b));
        CHECK(r, s->answers[s->length - 40 - 24 - 1] == 1);
    }
}

/* At which speed a device is: whether it hears a short reset. */
static int hears_short_reset(struct report *r, struct bench *b)
{
    event(&b->script, 6);
    CHECK(r, play(&b->script, &b->image) == 0);
    return b->script.answers[--b->script.length] == 0;
}

/* 69h at either speed, and so many bits of a code that is wrong at a bit. */
static void send_match(struct script *s, const uint8_t *code, int before,
                       unsigned wrong, unsigned count)
{
    size_t from = before ? overdrive_all(s) : s->length;

    event(s, 2);
    SEND(s, 0x69);
    if (before)
        hurry(s, from);
    from = s->length;
    for (unsigned i = 0; i < count; i++)
        bits(s, (code[i / 8] >> i % 8 & 1) ^ (i == wrong), 1);
    hurry(s, from);
}

/* Every wrong bit, or none, and every number of bits sent. */
static void overdrive_match(struct report *r, struct bench *b, int before,
                            int flat)
{
    struct script *const s = &b->script;
    size_t from;

    printf("overdrive: 69h, the match from %s speed%s\n",
           before ? "overdrive" : "regular", flat ? ", flat" : "");
    for (unsigned wrong = 0; wrong <= 64; wrong++)
        for (unsigned count = 0; count <= 64; count++) {
            one_device(&b->image, 0x0C);
            if (flat)
                flatten(&b->image, 0);
            restart(s);
            send_match(s, at(&b->image, 0, 0), before, wrong, count);
            CHECK(r, hears_short_reset(r, b) == (count <= wrong || before));
            if (count < 64)
                continue;
            from = s->length;
            SEND(s, 0xF0, 0x10, 0x00);
            read_bytes(s, 3);
            hurry(s, from);
            CHECK(r, play(s, &b->image) == 0);
            if (wrong == 64 && !flat)
                CHECK(r, answered_bytes(s, from + 24,
                                        at(&b->image, 0, MEM + 0x10), 3));
            else
                CHECK(r, all_ones(s, from + 24, 24));
            CHECK(r, hears_short_reset(r, b) == (wrong == 64 || before));
        }
}

/*
 * A regular slot at any place of a session at overdrive: the device is left as
 * if the trace ended there, and hears a regular reset next.
 */
static void falling_back(struct report *r, struct bench *b)
{
    struct script *const s = &b->script;
    size_t length;

    title("overdrive: a regular slot at every place, then deaf, PF as it was");
    restart(s);
    overdrive_session(s);
    length = s->length;
    for (size_t place = 9; place <= length; place++)
        for (uint8_t bit = 0; bit < 2; bit++) {
            restart(s);
            overdrive_session(s);
            s->length = place;
            one_device(&b->image, 0x0C);
            CHECK(r, play(s, &b->image) == 0);
            keep(b);
            event(s, bit);
            for (unsigned i = 0; i < 30; i++)
                event(s, 4 + i % 3);
            event(s, 2);
            one_device(&b->image, 0x0C);
            CHECK(r, play(s, &b->image) == 0);
            CHECK(r, s->answers[place] == bit);
            for (unsigned i = 0; i < 30; i++)
                CHECK(r, s->answers[place + 1 + i] == (i % 3 != 0));
            CHECK(r, s->answers[s->length - 1] == 0);
            CHECK(r, unchanged(b));
        }
}

/* 0 to 16 data bits at overdrive, and what ends them. */
static void partial_bytes(struct report *r, struct bench *b)
{
    struct script *const s = &b->script;

    title("overdrive: PF by a short and by a regular reset, not by a slot");
    for (unsigned count = 0; count <= 16; count++)
        for (unsigned way = 0; way < 6; way++) {
            const size_t from = (restart(s), overdrive_all(s));

            SEND(s, 0x0F, 0x26, 0x00);
            bits(s, 0x5AC3, count);
            hurry(s, from);
            one_device(&b->image, 0x0C);
            if (way == 1 || way > 3)
                event(s, way == 1 ? 1 : 0);
            if (way == 2 || way == 4)
                event(s, 6);
            if (way == 3 || way == 5)
                event(s, 2);
            CHECK(r, play(s, &b->image) == 0);
            CHECK(r, *at(&b->image, 0, ES)
                         == (count == 0 ? 6 : 6 + (count - 1) / 8)
                                + (count % 8 && (way == 2 || way == 3) ? 0x20
                                                                       : 0));
        }
}

/* 3Ch at overdrive, and ROM functions that fail there: the speed stays. */
static void staying_at_overdrive(struct report *r, struct bench *b)
{
    static const uint8_t commands[] = { 0x3C, 0x33, 0x55, 0xF0, 0xCC, 0xEC };
    struct script *const s = &b->script;
    size_t from;

    title("overdrive: the speed stays over short resets and failed commands");
    for (size_t i = 0; i < sizeof commands; i++) {
        one_device(&b->image, 0x0C);
        restart(s);
        from = overdrive_all(s);
        event(s, 2);
        SEND(s, commands[i]);
        bits(s, 0, 64);
        hurry(s, from);
        CHECK(r, hears_short_reset(r, b));
        event(s, 2);
        CHECK(r, !hears_short_reset(r, b));
        SEND(s, 0x33);
        read_bytes(s, 8);
        CHECK(r, play(s, &b->image) == 0);
        CHECK(r, answered_bytes(s, s->length - 64, at(&b->image, 0, 0), 8));
    }
}

/*
 * A DS1993 and two DS1996, one of them flat.  At overdrive the good one is
 * written, and both give their codes; at regular speed the good ones are.
 */
static void side_by_side(struct report *r, struct bench *b)
{
    struct script *const s = &b->script;
    size_t from, codes;

    title("overdrive: devices of both speeds side by side, and a flat one");
    make_image(&b->image, (const uint8_t[]){ 0x06, 0x0C, 0x0C }, 3);
    flatten(&b->image, 2);
    keep(b);
    restart(s);
    from = overdrive_all(s);
    SEND(s, 0x0F, 0x41, 0x00, 0x77);
    event(s, 2);
    SEND(s, 0x33);
    codes = read_bytes(s, 8);
    hurry(s, from);
    CHECK(r, play(s, &b->image) == 0);
    for (size_t i = 0; i < CODE; i++)
        CHECK(r, answered(s, codes + 8 * i)
                     == (*at(&b->image, 1, i) & *at(&b->image, 2, i)));
    memcpy(at(&b->before, 1, TA1), "\x41\x00\x01", 3);
    *at(&b->before, 1, PAD + 1) = 0x77;
    CHECK(r, unchanged(b));

    restart(s);
    address_all(s);
    SEND(s, 0x0F, 0x42, 0x00, 0x88);
    CHECK(r, play(s, &b->image) == 0);
    for (size_t i = 0; i < 2; i++) {
        memcpy(at(&b->before, i, TA1), "\x42\x00\x02", 3);
        *at(&b->before, i, PAD + 2) = 0x88;
    }
    CHECK(r, unchanged(b));
}

static void looked_at_overdrive(struct report *r, struct bench *b)
{
    struct script *const s = &b->script;
    size_t from;

    title("overdrive: looked at, those that do not hear count");
    make_image(&b->image, (const uint8_t[]){ 0x06, 0x0C, 0x08, 0x0C, 0x09 },
               5);
    memset(at(&b->image, 1, MEM), 0xFF, 32);
    memset(at(&b->image, 3, MEM), 0x0F, 32);
    restart(s);
    from = overdrive_all(s);
    SEND(s, 0xF0, 0x00, 0x00);
    read_bytes(s, 1);
    bits(s, 0, 2);
    event(s, 2);
    hurry(s, from);
    slots(s, 2);
    CHECK(r, look(s, &b->image) == 0);
    CHECK(r, all_counts(s, from + 24, 4, 5));
    CHECK(r, all_counts(s, from + 28, 4, 4));
    CHECK(r, all_counts(s, from + 32, 2, 0));
    CHECK(r, all_counts(s, from + 34, 1, 255));
    CHECK(r, all_counts(s, from + 35, 2, 5));
}

static void overdrive(struct report *r, struct bench *b)
{
    overdrive_example(r, b);
    not_heard(r, b, 0x06);
    not_heard(r, b, 0x0C);
    overdrive_unknown(r, b);
    for (int flat = 0; flat < 2; flat++)
        for (int before = 0; before < 2; before++)
            overdrive_match(r, b, before, flat);
    falling_back(r, b);
    partial_bytes(r, b);
    staying_at_overdrive(r, b);
    side_by_side(r, b);
    looked_at_overdrive(r, b);
}

/* ------------------------------------------------------------------ */
/* DS1982                                                              */

/* What a read command sends from an address on; gives the length. */
static size_t expected_read(struct image *im, uint8_t command,
                            uint16_t address, uint8_t *out)
{
    const int status = command == 0xAA;
    const size_t size = status ? 8 : 128;
    const uint8_t *const field = at(im, 0, status ? STATUS : DATA);
    const uint8_t cut[] = { command, (uint8_t)(address % size), 0 };
    size_t first = address % size, used = 0;

    out[used++] = crc_bit_by_bit(0, cut, 3);
    while (first < size) {
        const size_t end = command == 0xC3 ? first / 32 * 32 + 32 : size;

        memcpy(out + used, field + first, end - first);
        used += end - first;
        out[used++] = crc_bit_by_bit(0, field + first, end - first);
        first = end;
    }
    return used;
}

static void eprom_reads(struct report *r, struct bench *b)
{
    static const uint8_t commands[] = { 0xF0, 0xAA, 0xC3 };
    static const uint16_t addresses[] = { 0,      1,      7,     8,     31,
                                          32,     63,     90,    127,   128,
                                          0x0085, 0x00FF, 0x100, 0xFFFF };
    struct script *const s = &b->script;
    uint8_t bytes[140];

    title("DS1982: F0h, AAh and C3h from many addresses");
    for (size_t i = 0; i < 3; i++)
        for (size_t j = 0; j < sizeof addresses / sizeof *addresses; j++) {
            const uint16_t a = addresses[j];
            size_t count, place;

            one_device(&b->image, 0x09);
            keep(b);
            count = expected_read(&b->image, commands[i], a, bytes);
            restart(s);
            address_all(s);
            SEND(s, commands[i], (uint8_t)a, (uint8_t)(a >> 8));
            place = read_bytes(s, count);
            slots(s, 70);
            CHECK(r, play(s, &b->image) == 0);
            CHECK(r, answered_bytes(s, place, bytes, count));
            CHECK(r, all_ones(s, place + 8 * count, 70));
            CHECK(r, unchanged(b));
        }
}

/* Writes a run of bytes to the end of a field, pulse after pulse. */
static void eprom_write(struct report *r, struct bench *b, uint8_t command,
                        uint16_t address)
{
    const int status = command == 0x55;
    const size_t size = status ? 8 : 128;
    struct script *const s = &b->script;
    size_t a = address % size, count = 0, place[8], after;
    uint8_t first[] = { command, (uint8_t)a, 0, 0 };
    uint8_t *field;

    one_device(&b->image, 0x09);
    *at(&b->image, 0, STATUS) = 0xFF;
    keep(b);
    field = at(&b->before, 0, status ? STATUS : DATA);
    restart(s);
    address_all(s);
    SEND(s, command, (uint8_t)address, (uint8_t)(address >> 8));
    for (; a + count < size; count++) {
        const uint8_t byte = (uint8_t)(0xD3 - 5 * count);

        SEND(s, byte);
        place[count] = read_bytes(s, 1);
        event(s, 3);
        read_bytes(s, 1);
        field[a + count] &= byte;
    }
    after = SEND(s, 0xFF, 0xFF);
    event(s, 3);
    slots(s, 70);
    CHECK(r, play(s, &b->image) == 0);
    for (size_t i = 0; i < count; i++) {
        const uint8_t byte = (uint8_t)(0xD3 - 5 * i);

        first[3] = byte;
        CHECK(r, answered(s, place[i])
                     == (i == 0 ? crc_bit_by_bit(0, first, 4)
                                : crc_bit_by_bit((uint8_t)(a + i), &byte, 1)));
        CHECK(r, answered(s, place[i] + 9) == field[a + i]);
    }
    CHECK(r, all_ones(s, after, 16 + 1 + 70));
    CHECK(r, s->copied == 0);
    CHECK(r, unchanged(b));
}

static void eprom_writes(struct report *r, struct bench *b)
{
    title("DS1982: writes to the field's end, CRCs, AND, waiting after it");
    eprom_write(r, b, 0x0F, 0x007F);
    eprom_write(r, b, 0x0F, 0x007A);
    eprom_write(r, b, 0x0F, 0xFFF9);
    eprom_write(r, b, 0x55, 0x0007);
    eprom_write(r, b, 0x55, 0x0000);
    eprom_write(r, b, 0x55, 0x0F09);
}

static void eprom_pulses(struct report *r, struct bench *b)
{
    struct script *const s = &b->script;
    size_t place;

    title("DS1982: a slot where a pulse is due, pulses elsewhere");
    one_device(&b->image, 0x09);
    *at(&b->image, 0, STATUS) = 0xFF;
    *at(&b->image, 0, DATA) = 0xFF;
    keep(b);
    restart(s);
    address_all(s);
    SEND(s, 0x0F, 0x00, 0x00, 0x00);
    read_bytes(s, 1);
    place = slots(s, 1);
    event(s, 3);
    slots(s, 40);
    CHECK(r, play(s, &b->image) == 0);
    CHECK(r, all_ones(s, place, 42));
    CHECK(r, unchanged(b));

    restart(s);
    event(s, 2);
    event(s, 3);
    bits(s, 0xC, 4);
    event(s, 3);
    bits(s, 0xC, 4);
    event(s, 3);
    SEND(s, 0x0F, 0x00);
    event(s, 3);
    SEND(s, 0x00);
    event(s, 3);
    SEND(s, 0x5A);
    event(s, 3);
    slots(s, 7);
    event(s, 3);
    slots(s, 1);
    CHECK(r, play(s, &b->image) == 0);
    CHECK(r, unchanged(b));
    event(s, 3);
    event(s, 3);
    place = read_bytes(s, 1);
    CHECK(r, play(s, &b->image) == 0);
    CHECK(r, answered(s, place) == 0x5A);
    CHECK(r, *at(&b->image, 0, DATA) == 0x5A);
}

/* Protection set by Write Status earlier in the same trace counts. */
static void protection_in_trace(struct report *r, struct bench *b)
{
    struct script *const s = &b->script;

    title("DS1982: protection is looked up at the pulse");
    one_device(&b->image, 0x09);
    memset(at(&b->image, 0, STATUS), 0xFF, 8 + 128);
    keep(b);
    restart(s);
    for (unsigned page = 0; page < 4; page++) {
        address_all(s);
        SEND(s, 0x55, 0x00, 0x00, (uint8_t)~(1u << page));
        read_bytes(s, 1);
        event(s, 3);
        for (unsigned other = 0; other < 4; other++) {
            address_all(s);
            SEND(s, 0x0F, (uint8_t)(32 * other + page), 0x00, 0x00);
            read_bytes(s, 1);
            event(s, 3);
            if (other > page)
                *at(&b->before, 0, DATA + 32 * other + page) = 0;
        }
    }
    *at(&b->before, 0, STATUS) = 0xF0;
    CHECK(r, play(s, &b->image) == 0);
    CHECK(r, unchanged(b));
}

/* One pulse serves every device for which it is due. */
static void shared_pulse(struct report *r, struct bench *b)
{
    static const uint8_t families[] = { 0x09, 0x09 };
    struct script *const s = &b->script;
    size_t place;

    title("DS1982: two devices programmed by one pulse");
    make_image(&b->image, families, 2);
    for (size_t i = 0; i < 2; i++) {
        *at(&b->image, i, STATUS) = 0xFF;
        *at(&b->image, i, DATA + 64) = i ? 0xF3 : 0x3F;
    }
    restart(s);
    address_all(s);
    SEND(s, 0x0F, 64, 0x00, 0xAA);
    read_bytes(s, 1);
    event(s, 3);
    place = read_bytes(s, 1);
    CHECK(r, play(s, &b->image) == 0);
    CHECK(r, *at(&b->image, 0, DATA + 64) == 0x2A);
    CHECK(r, *at(&b->image, 1, DATA + 64) == 0xA2);
    CHECK(r, answered(s, place) == 0x22);
}

static void views(struct report *r)
{
    title("views of a DS1982's fields");
    for (unsigned command = 0; command < 256; command++)
        for (unsigned a = 0; a < 65536; a += 37) {
            const int data = command == 0xF0 || command == 0xC3;
            const int status = command == 0xAA;
            const struct second_view v = second_remaining(
                (uint8_t)command, (uint16_t)a, 128, 8);

            if (data)
                CHECK(r, v.field == 0 && v.start == (a & 127)
                             && v.length == 128 - (a & 127));
            else if (status)
                CHECK(r, v.field == 1 && v.start == (a & 7)
                             && v.length == 8 - (a & 7));
            else
                CHECK(r, v.field == -1 && v.length == 0);
        }
    CHECK(r, second_remaining(0xF0, 0, 127, 8).field == -1);
    CHECK(r, second_remaining(0xF0, 0, 128, 9).field == -1);
    CHECK(r, second_remaining(0xAA, 0, 0, 8).field == -1);
    CHECK(r, second_remaining(0xAA, 0, 128, 0).field == -1);
}

/* ------------------------------------------------------------------ */
/* Refusals                                                            */

/* Runs and searches; expects the same refusal of both and no change. */
static void both_refuse(struct report *r, struct bench *b, uint32_t number)
{
    static const uint8_t trace[] = { 2, 1 };
    uint8_t answers[2] = { 9, 9 }, codes[512], sent[201 * 64];
    uint64_t passes = 5, resets = 6, count = 7;

    memset(codes, 9, sizeof codes);
    memset(sent, 9, sizeof sent);
    keep(b);
    CHECK(r, run(r, &b->image, trace, 2, answers, 2) == number);
    CHECK(r, second_search(b->image.bytes, b->image.length, codes,
                           sizeof codes, sent, sizeof sent, &passes, &resets,
                           &count)
                 == number);
    CHECK(r, unchanged(b));
    if (number == 0)
        return;
    CHECK(r, answers[0] == 9 && answers[1] == 9 && codes[0] == 9);
    CHECK(r, sent[0] == 9 && passes == 5 && resets == 6 && count == 7);
}

static const uint8_t four[] = { 0x08, 0x06, 0x09, 0x09 };

static void refusal_1(struct report *r, struct bench *b)
{
    uint64_t copied = UNWRITTEN;

    title("refusal 1: the table");
    for (size_t length = 0; length < 18; length++) {
        make_image(&b->image, four, 4);
        b->image.length = length;
        both_refuse(r, b, 1);
    }
    CHECK(r, second_run(NULL, 0, NULL, 0, NULL, 0, &copied) == 1);
    CHECK(r, copied == UNWRITTEN);
    for (unsigned edition = 0; edition < 256; edition++) {
        make_image(&b->image, four, 4);
        b->image.bytes[1] = (uint8_t)edition;
        both_refuse(r, b, edition != 1 && edition != 2);
    }
    for (unsigned family = 0; family < 256; family++)
        if (body_size((uint8_t)family) == 144 && family != 0x09) {
            make_image(&b->image, four, 4);
            b->image.bytes[2 + 4 * 3] = (uint8_t)family;
            both_refuse(r, b, 1);
        }
    for (unsigned n = 65; n < 256; n++) {
        make_image(&b->image, four, 4);
        b->image.bytes[0] = (uint8_t)n;
        b->image.length = ROOM;
        both_refuse(r, b, 1);
    }
}

/* The second byte of each entry, in editions that are and are not known. */
static void refusal_1_of_batteries(struct report *r, struct bench *b)
{
    title("refusal 1: the second entry byte in editions 0 to 3");
    for (unsigned battery = 0; battery < 256; battery++)
        for (unsigned edition = 0; edition < 4; edition++)
            for (size_t i = 0; i < 4; i++) {
                const int good = edition >= 1 && edition <= 2 && battery == 0;
                const int flat = edition == 2 && battery == 1;

                make_image(&b->image, four, 4);
                b->image.bytes[1] = (uint8_t)edition;
                b->image.bytes[3 + 4 * i] = (uint8_t)battery;
                both_refuse(r, b, !good && !(flat && four[i] != 0x09));
            }
}

static void refusals_2_3_4(struct report *r, struct bench *b)
{
    title("refusals 2, 3, 4: layout, codes, equal codes");
    for (size_t i = 0; i < 8; i++) {
        make_image(&b->image, four, 4);
        b->image.bytes[2 + 4 * (i / 2) + 2 + i % 2]++;
        both_refuse(r, b, 2);
    }
    make_image(&b->image, four, 4);
    b->image.length++;
    both_refuse(r, b, 2);
    b->image.length -= 2;
    both_refuse(r, b, 2);
    b->image.length = 18;
    both_refuse(r, b, 2);
    make_image(&b->image, four, 0);
    b->image.length = 3;
    both_refuse(r, b, 2);
    for (size_t i = 0; i < 4 * 64; i++) {
        make_image(&b->image, four, 4);
        *at(&b->image, i / 64, i % 64 / 8) ^= (uint8_t)(1u << (i % 8));
        both_refuse(r, b, 3);
    }
    make_image(&b->image, four, 4);
    make_code(at(&b->image, 0, 0), 0x06, 5);
    both_refuse(r, b, 3);
    make_image(&b->image, (const uint8_t[]){ 0x09, 0x08, 0x06, 0x09 }, 4);
    memcpy(at(&b->image, 0, 0), at(&b->image, 3, 0), CODE);
    both_refuse(r, b, 4);
    make_image(&b->image, four, 4);
    both_refuse(r, b, 0);
}

/* The kinds of an image of so many bytes with seven DS1996; gives how many. */
static size_t kinds_for_length(uint8_t *families, size_t length)
{
    const size_t rest = length - 2 - 7 * (4 + 8235);

    for (size_t a = 0; a <= 14; a++)
        for (size_t b = 0; a + b <= 57; b++) {
            const size_t others = 559 * a + 175 * b;
            const size_t c = others > rest ? 0 : (rest - others) / 148;

            if (others + 148 * c != rest || a + b + c > 57)
                continue;
            memset(families, 0x0C, 7);
            memset(families + 7, 0x06, a);
            memset(families + 7 + a, 0x08, b);
            memset(families + 7 + a + b, 0x09, c);
            return 7 + a + b + c;
        }
    return 0;
}

/* Lengths about the most there can be, and eight DS1996. */
static void refusal_2_of_large_images(struct report *r, struct bench *b)
{
    uint8_t families[64];
    size_t tried = 0;

    title("refusal 2: images of over 65,535 bytes");
    for (size_t length = 65500; length < 65600; length++) {
        const size_t n = kinds_for_length(families, length);

        if (n == 0)
            continue;
        make_image(&b->image, families, n);
        CHECK(r, b->image.length == length);
        both_refuse(r, b, length <= 65535 ? 0 : 2);
        tried += length == 65535 || length == 65536;
    }
    CHECK(r, tried == 2);
    memset(families, 0x0C, 8);
    make_image(&b->image, families, 8);
    both_refuse(r, b, 2);
    b->image.bytes[1] = 3;
    both_refuse(r, b, 1);
    make_image(&b->image, families, 7);
    both_refuse(r, b, 0);
}

static void refusals_5_6_7(struct report *r, struct bench *b)
{
    static uint8_t trace[EVENTS + 1], answers[EVENTS + 1];
    uint8_t *const bytes = b->image.bytes;
    uint64_t a = 5, c = 6, d = 7;
    uint8_t codes[32], sent[201 * 4];

    title("refusals 5, 6, 7: the trace, pulses, room");
    make_image(&b->image, four, 4);
    keep(b);
    trace[0] = 2;
    memset(answers, 9, sizeof answers);
    CHECK(r, run(r, &b->image, trace, EVENTS + 1, answers, EVENTS + 1) == 5);
    for (unsigned e = 7; e < 256; e++) {
        trace[EVENTS - 1] = (uint8_t)e;
        CHECK(r, run(r, &b->image, trace, EVENTS, answers, EVENTS) == 5);
    }
    trace[EVENTS - 1] = 3;
    CHECK(r, run(r, &b->image, trace, EVENTS, answers, EVENTS) == 6);
    trace[EVENTS - 1] = 2;
    CHECK(r, run(r, &b->image, trace, EVENTS, answers, EVENTS - 1) == 7);
    CHECK(r, unchanged(b) && answers[0] == 9);
    CHECK(r, run(r, &b->image, trace, EVENTS, answers, EVENTS) == 0);
    CHECK(r, unchanged(b) && answers[EVENTS - 1] == 0
                 && answers[EVENTS] == 9);
    CHECK(r, second_search(bytes, b->image.length, codes, 31, sent, 804, &a,
                           &c, &d) == 7);
    CHECK(r, second_search(bytes, b->image.length, codes, 32, sent, 803, &a,
                           &c, &d) == 7);
    CHECK(r, a == 5 && c == 6 && d == 7);
    CHECK(r, second_search(bytes, b->image.length, codes, 32, sent, 804, &a,
                           &c, &d) == 0);
    make_image(&b->image, four, 0);
    CHECK(r, second_search(bytes, 2, NULL, 0, NULL, 0, &a, &c, &d) == 7);
    trace[1] = 3;
    CHECK(r, run(r, &b->image, trace, 2, answers, 2) == 0);
    CHECK(r, answers[0] == 1 && answers[1] == 1);
    make_image(&b->image, (const uint8_t[]){ 0x09, 0x0C }, 2);
    CHECK(r, run(r, &b->image, trace, 2, answers, 2) == 6);
    trace[0] = 6;
    CHECK(r, run(r, &b->image, trace, 2, answers, 2) == 11);
}

/* A capture that begins within a transaction; no capture at all is none. */
static void refusal_11(struct report *r, struct bench *b)
{
    uint8_t trace[] = { 2, 0, 2, 1 }, answers[4];

    title("refusal 11: the first event is no reset");
    for (unsigned first = 0; first <= 6; first++)
        for (size_t length = 0; length <= 4; length++)
            for (size_t n = 0; n <= 4; n += 4) {
                make_image(&b->image, four, n);
                keep(b);
                memset(answers, 9, 4);
                trace[0] = (uint8_t)first;
                CHECK(r, run(r, &b->image, trace, length, answers, 4)
                             == (length > 0 && first != 2 ? 11 : 0));
                CHECK(r, (first == 2 && length > 0) == (answers[0] != 9));
                CHECK(r, unchanged(b));
            }
    make_image(&b->image, four, 4);
    CHECK(r, second_looked(b->image.bytes, b->image.length, trace, 4, answers,
                           4) == 11);
}

/* Puts causes into an image; bit k of causes is refusal k + 1. */
static void put_causes(struct image *im, unsigned causes)
{
    make_image(im, four, 4);
    if (causes & 1)
        im->bytes[2 + 4 * 3 + 1] = 1;
    if (causes & 2)
        im->bytes[2 + 4 * 2 + 2]++;
    if (causes & 4)
        *at(im, 0, 3) ^= 1;
    if (causes & 8)
        memcpy(at(im, 3, 0), at(im, 2, 0), CODE);
}

/* The first of the refusals that has its cause; bit 7 is that of 11. */
static uint32_t first_of(unsigned causes)
{
    static const uint8_t order[] = { 1, 2, 3, 4, 5, 11, 6, 7 };

    for (size_t i = 0; i < sizeof order; i++)
        if (causes >> (order[i] == 11 ? 7 : order[i] - 1) & 1)
            return order[i];
    return 0;
}

static void refusals_together(struct report *r, struct bench *b)
{
    uint8_t trace[4], answers[4], codes[32], sent[804];
    uint64_t a, c, d;

    title("every set of causes 1 to 7 together, with 11 between 5 and 6");
    for (unsigned causes = 0; causes < 256; causes++) {
        const unsigned of_search = causes & (15 | 64);

        memcpy(trace, "\2\0\1\1", 4);
        memset(answers, 9, 4);
        if (causes & 16)
            trace[3] = 7;
        if (causes & 32)
            trace[1] = 3;
        if (causes & 128)
            trace[0] = causes & 32 ? 3 : 1;
        put_causes(&b->image, causes);
        keep(b);
        CHECK(r, run(r, &b->image, trace, 4, answers, causes & 64 ? 3 : 4)
                     == first_of(causes));
        CHECK(r, (causes != 0) == (memcmp(answers, "\11\11\11\11", 4) == 0));
        CHECK(r, unchanged(b));
        sent[0] = 9;
        CHECK(r, second_search(b->image.bytes, b->image.length, codes,
                               causes & 64 ? 31 : 32, sent, 804, &a, &c, &d)
                     == first_of(of_search));
        CHECK(r, (sent[0] == 9) == (of_search != 0));
    }
}

/* ------------------------------------------------------------------ */
/* Judging a recorded session                                          */

enum { CAREFUL, RULE_1, RULE_2, RULE_3 };

struct verdict {
    uint32_t number;
    uint64_t rule, event;
};

/* The image is only read, and work is taken to its end and no further. */
static struct verdict judge_answers(struct report *r, const struct script *s,
                                    const struct image *im, size_t answers)
{
    static struct image given, work;
    struct verdict v = { 99, UNWRITTEN, UNWRITTEN };

    given = *im;
    memset(work.bytes, 0xEE, ROOM);
    v.number = second_judge(given.bytes, given.length, s->trace, s->length,
                            s->answers, answers, work.bytes, given.length + 5,
                            &v.rule, &v.event);
    CHECK(r, memcmp(given.bytes, im->bytes, ROOM) == 0);
    if (v.number != 0) {
        CHECK(r, v.rule == UNWRITTEN && v.event == UNWRITTEN);
        CHECK(r, work.bytes[0] == 0xEE);
        return v;
    }
    CHECK(r, work.bytes[given.length] == 0xEE);
    second_run(given.bytes, given.length, s->trace, s->length,
               (uint8_t[EVENTS]){ 0 }, EVENTS, &(uint64_t){ 0 });
    CHECK(r, memcmp(given.bytes, work.bytes, given.length) == 0);
    return v;
}

/* Records the answers of the bus itself; the image stays as it was. */
static void record(struct report *r, struct script *s, const struct image *im)
{
    static struct image copy;

    copy = *im;
    CHECK(r, play(s, &copy) == 0);
}

/* Judges a session with the answers of the bus itself. */
static void expect(struct report *r, struct bench *b, uint64_t rule,
                   uint64_t event)
{
    struct verdict v;

    record(r, &b->script, &b->image);
    v = judge_answers(r, &b->script, &b->image, b->script.length);
    CHECK(r, v.number == 0);
    CHECK(r, v.rule == rule);
    CHECK(r, v.event == (rule == CAREFUL ? 0 : event));
}

/* Transactions of device i by Match ROM; the last gives its last event. */
static void write_to(struct bench *b, size_t i, uint8_t target,
                     const uint8_t *bytes, size_t count)
{
    address_one(&b->script, at(&b->image, i, 0));
    SEND(&b->script, 0x0F, target, 0x00);
    send(&b->script, bytes, count);
}

static size_t read_back(struct bench *b, size_t i, size_t slots_read)
{
    address_one(&b->script, at(&b->image, i, 0));
    SEND(&b->script, 0xAA);
    return slots(&b->script, slots_read);
}

static size_t copy_to(struct bench *b, size_t i, uint8_t target, uint8_t es)
{
    address_one(&b->script, at(&b->image, i, 0));
    SEND(&b->script, 0x55, target, 0x00, es);
    slots(&b->script, 8);
    return b->script.length - 9;
}

static const uint8_t two[] = { 0xC3, 0x5A };

/*
 * A device whose registers and scratchpad are from the start as a write of two
 * bytes to 0026h leaves them, beside one of another kind.
 */
static void bench_to_judge(struct bench *b, uint8_t family)
{
    const uint8_t families[] = { family, 0x09 };

    make_image(&b->image, families, 2);
    memcpy(at(&b->image, 0, TA1), "\x26\x00\x07", 3);
    memcpy(at(&b->image, 0, PAD + 6), two, 2);
    restart(&b->script);
}

static void careful_sessions(struct report *r, struct bench *b)
{
    title("judge: written, read back and copied; other sessions");
    for (unsigned i = 0; i < 2; i++) {
        bench_to_judge(b, i ? 0x06 : 0x08);
        expect(r, b, CAREFUL, 0);
        write_to(b, 0, 0x26, two, 2);
        expect(r, b, CAREFUL, 0);
        read_back(b, 0, 40);
        expect(r, b, CAREFUL, 0);
        copy_to(b, 0, 0x26, 0x07);
        expect(r, b, CAREFUL, 0);
        read_back(b, 0, 40); /* shows AA */
        copy_to(b, 0, 0x26, 0x87);
        expect(r, b, CAREFUL, 0);
        address_one(&b->script, at(&b->image, 1, 0));
        SEND(&b->script, 0x0F, 0x10, 0x00, 0x00, 0xFF, 0xFF, 0xFF);
        expect(r, b, CAREFUL, 0);
    }
    make_image(&b->image, NULL, 0);
    expect(r, b, CAREFUL, 0);
    restart(&b->script);
    expect(r, b, CAREFUL, 0);
}

static void unlike_answers(struct report *r, struct bench *b)
{
    struct script *const s = &b->script;
    struct verdict v;
    size_t shared;

    title("judge: rule A, the first answer that differs, before B and C");
    bench_to_judge(b, 0x06);
    address_all(s);
    SEND(s, 0x0F, 0x26, 0x00, 0xC3, 0x5A);
    shared = 16;
    copy_to(b, 0, 0x26, 0x07);
    expect(r, b, RULE_2, shared);
    for (size_t i = 0; i < s->length; i++)
        for (unsigned change = 1; change < 256; change += i < 20 ? 1 : 127) {
            record(r, s, &b->image);
            s->answers[i] ^= (uint8_t)change;
            s->answers[s->length - 1] ^= 1;
            v = judge_answers(r, s, &b->image, s->length);
            if (i == s->length - 1 && change == 1)
                CHECK(r, v.rule == RULE_2 && v.event == shared);
            else
                CHECK(r, v.rule == RULE_1 && v.event == i);
        }
}

/* Every command byte with two at the memory command, none of them flat. */
static void shared_commands(struct report *r, struct bench *b)
{
    static const uint8_t kinds[] = { 0x08, 0x06, 0x09 };

    title("judge: rule B, 0Fh and 55h with more than one at the command");
    for (unsigned pair = 0; pair < 9; pair++)
        for (unsigned flat = 0; flat < 4; flat++)
            for (unsigned command = 0; command < 256; command++) {
                const uint8_t both[] = { kinds[pair % 3], kinds[pair / 3] };
                const int shared = command == 0x0F || command == 0x55;

                make_image(&b->image, both, 2);
                for (size_t i = 0; i < 2; i++)
                    if (flat >> i & 1 && both[i] != 0x09)
                        flatten(&b->image, i);
                restart(&b->script);
                address_all(&b->script);
                bits(&b->script, command, 7);
                expect(r, b, CAREFUL, 0);
                bits(&b->script, command >> 7, 1);
                expect(r, b,
                       shared && !b->image.bytes[3] && !b->image.bytes[7]
                           ? RULE_2
                           : CAREFUL,
                       16);
                restart(&b->script);
                address_one(&b->script, at(&b->image, 1, 0));
                SEND(&b->script, (uint8_t)command);
                expect(r, b, CAREFUL, 0);
            }
}

static void unchecked_copies(struct report *r, struct bench *b)
{
    size_t copied;

    title("judge: rule C, no write, no read, a read before the write");
    bench_to_judge(b, 0x08);
    expect(r, b, RULE_3, copied = copy_to(b, 0, 0x26, 0x07));
    copy_to(b, 0, 0x26, 0x87);
    expect(r, b, RULE_3, copied);

    bench_to_judge(b, 0x08);
    read_back(b, 0, 40);
    expect(r, b, RULE_3, copied = copy_to(b, 0, 0x26, 0x07));

    bench_to_judge(b, 0x08);
    read_back(b, 0, 40);
    write_to(b, 0, 0x26, two, 2);
    expect(r, b, RULE_3, copied = copy_to(b, 0, 0x26, 0x07));

    title("judge: rule C, a second copy, a target that was moved");
    bench_to_judge(b, 0x08);
    write_to(b, 0, 0x26, two, 2);
    read_back(b, 0, 40);
    copy_to(b, 0, 0x26, 0x07);
    copy_to(b, 0, 0x26, 0x07); /* does not match: is not accepted */
    expect(r, b, CAREFUL, 0);
    expect(r, b, RULE_3, copied = copy_to(b, 0, 0x26, 0x87));

    for (uint8_t target = 0; target < 128; target++) {
        bench_to_judge(b, 0x06);
        write_to(b, 0, 0x26, two, 2);
        read_back(b, 0, 40);
        address_one(&b->script, at(&b->image, 0, 0));
        SEND(&b->script, 0xF0, target, 0x00);
        slots(&b->script, 9);
        copied = copy_to(b, 0, target, 0x07);
        expect(r, b, target == 0x26 ? CAREFUL : RULE_3, copied);
    }
}

/* Reads of every length, and a 0 of the master in every slot of a read. */
static void reads_cut_and_disturbed(struct report *r, struct bench *b)
{
    size_t place, copied;

    title("judge: rule C, a read that is cut, one that the master disturbs");
    for (size_t count = 0; count <= 48; count++)
        for (unsigned good = 0; good < 3; good++) {
            bench_to_judge(b, 0x06);
            write_to(b, 0, 0x26, two, 2);
            if (good == 1)
                read_back(b, 0, 40);
            read_back(b, 0, count);
            if (good == 2)
                read_back(b, 0, 40);
            copied = copy_to(b, 0, 0x26, 0x07);
            expect(r, b, good || count >= 40 ? CAREFUL : RULE_3, copied);
        }
    for (size_t slot = 0; slot < 48; slot++) {
        int harm;

        bench_to_judge(b, 0x06);
        write_to(b, 0, 0x26, two, 2);
        place = read_back(b, 0, 48);
        copied = copy_to(b, 0, 0x26, 0x07);
        record(r, &b->script, &b->image);
        harm = slot < 40 && b->script.answers[place + slot] == 1;
        b->script.trace[place + slot] = 0;
        expect(r, b, harm ? RULE_3 : CAREFUL, copied);
    }
}

/* E/S after so many bits of an address 0026h and of data, and a reset. */
static uint8_t es_after(unsigned count)
{
    const unsigned data = count - 16;

    return (uint8_t)(data == 0 ? 0x06
                               : (0x06 + (data - 1) / 8)
                                     | (data % 8 ? 0x20 : 0x00));
}

/* So many bits of another write of the same bytes come before the copy. */
static void writes_cut(struct report *r, struct bench *b)
{
    title("judge: rule C, a write is one from its 16th address bit on");
    for (unsigned count = 0; count <= 32; count++)
        for (unsigned again = 0; again < 2; again++) {
            bench_to_judge(b, 0x06);
            write_to(b, 0, 0x26, two, 2);
            read_back(b, 0, 40);
            address_one(&b->script, at(&b->image, 0, 0));
            SEND(&b->script, 0x0F);
            bits(&b->script, 0x5AC30026, count);
            if (again)
                read_back(b, 0, 40);
            expect(r, b, again || count < 16 ? CAREFUL : RULE_3,
                   copy_to(b, 0, 0x26, count < 16 ? 0x07 : es_after(count)));
        }
}

/*
 * No bytes lie between: the registers are enough.  A target past memory still
 * needs its bytes.
 */
static void copies_of_nothing(struct report *r, struct bench *b)
{
    struct script *const s = &b->script;

    title("judge: rule C, no bytes between, and a target past memory");
    for (unsigned count = 23; count <= 24; count++) {
        bench_to_judge(b, 0x08);
        write_to(b, 0, 0x26, two, 2);
        address_one(s, at(&b->image, 0, 0));
        SEND(s, 0xF0, 0x48, 0x00);
        read_back(b, 0, count);
        expect(r, b, count == 24 ? CAREFUL : RULE_3,
               copy_to(b, 0, 0x48, 0x07));
    }
    for (unsigned count = 24; count <= 32; count += 8) {
        bench_to_judge(b, 0x08);
        write_to(b, 0, 0x86, two, 1);
        read_back(b, 0, count);
        expect(r, b, count == 32 ? CAREFUL : RULE_3,
               copy_to(b, 0, 0x86, 0x06));
    }
}

/* A write, a read or a copy of one device is none of the other's. */
static void devices_apart(struct report *r, struct bench *b)
{
    struct script *const s = &b->script;
    size_t copied;

    title("judge: rule C, each device by itself, and two that read at once");
    for (unsigned other = 0; other < 2; other++) {
        make_image(&b->image, (const uint8_t[]){ 0x06, 0x06 }, 2);
        restart(s);
        write_to(b, 0, 0x26, two, 2);
        write_to(b, 1, 0x26, two, 2);
        read_back(b, other, 40);
        copied = copy_to(b, 0, 0x26, 0x07);
        expect(r, b, other ? RULE_3 : CAREFUL, copied);
    }
    for (uint8_t byte = 0; byte < 255; byte++) {
        const uint8_t mine = 0xF0;

        make_image(&b->image, (const uint8_t[]){ 0x08, 0x06 }, 2);
        restart(s);
        write_to(b, 0, 0x41, &mine, 1);
        write_to(b, 1, 0x41, &byte, 1);
        address_all(s);
        SEND(s, 0xAA);
        slots(s, 32);
        copied = copy_to(b, 0, 0x41, 0x01);
        expect(r, b, (mine & byte) == mine ? CAREFUL : RULE_3, copied);
    }
}

/* The first of B and C, whichever it is. */
static void rules_in_order(struct report *r, struct bench *b)
{
    struct script *const s = &b->script;
    size_t copied, shared;

    title("judge: the earlier of B and C");
    bench_to_judge(b, 0x06);
    copied = copy_to(b, 0, 0x26, 0x07);
    address_all(s);
    SEND(s, 0x55);
    expect(r, b, RULE_3, copied);
    bench_to_judge(b, 0x06);
    address_all(s);
    SEND(s, 0x55, 0x26, 0x00, 0x07);
    shared = 16;
    expect(r, b, RULE_2, shared);
}

/* Puts an event into a script, before the one at a place. */
static void put_in(struct script *s, size_t place, uint8_t e)
{
    memmove(s->trace + place + 1, s->trace + place, s->length - place);
    s->trace[place] = e;
    s->length++;
}

/* To the memory command by Skip ROM at a speed; gives the next place. */
static size_t address_at(struct script *s, int overdrive)
{
    if (overdrive)
        return overdrive_all(s);
    address_all(s);
    return s->length;
}

/* A write, a read and a copy, each at a speed; gives the last pattern bit. */
static size_t change_at(struct script *s, unsigned speeds, size_t *read)
{
    size_t from = address_at(s, speeds & 1);

    SEND(s, 0x0F, 0x26, 0x00, 0xC3, 0x5A);
    if (speeds & 1)
        hurry(s, from);
    from = address_at(s, speeds >> 1 & 1);
    SEND(s, 0xAA);
    *read = slots(s, 40);
    if (speeds & 2)
        hurry(s, from);
    from = address_at(s, speeds >> 2 & 1);
    SEND(s, 0x55, 0x26, 0x00, 0x07);
    if (speeds & 4)
        hurry(s, from);
    return s->length - 1;
}

/* Every transaction at either speed, and an event too many in the read. */
static void judged_at_both_speeds(struct report *r, struct bench *b)
{
    struct script *const s = &b->script;
    size_t read, last;

    title("judge: overdrive, a careful session, and a read that is cut by it");
    one_device(&b->image, 0x0C);
    for (unsigned speeds = 0; speeds < 8; speeds++)
        for (size_t slot = 0; slot <= 41; slot++)
            for (uint8_t e = 0; e < 7; e++) {
                const int fast = speeds >> 1 & 1;
                const int heard = fast || e < 4;

                if (e == 3 || e == (fast ? 4 : 0) || e == (fast ? 5 : 1))
                    continue;
                restart(s);
                last = change_at(s, speeds, &read);
                if (slot < 41)
                    put_in(s, read + slot, e);
                expect(r, b, slot < 40 && heard ? RULE_3 : CAREFUL,
                       last + 1);
            }
}

static void overdrive_rules(struct report *r, struct bench *b)
{
    static const uint8_t pairs[][2] = { { 0x0C, 0x0C }, { 0x0C, 0x06 },
                                        { 0x09, 0x0C } };
    struct script *const s = &b->script;
    size_t from, last;

    title("judge: overdrive, rules B and C");
    for (unsigned pair = 0; pair < 3; pair++)
        for (unsigned command = 0; command < 256; command++) {
            const int shared = command == 0x0F || command == 0x55;

            make_image(&b->image, pairs[pair], 2);
            restart(s);
            from = overdrive_all(s);
            SEND(s, (uint8_t)command);
            hurry(s, from);
            expect(r, b, shared && pair == 0 ? RULE_2 : CAREFUL, 16);
            if (pair > 0)
                continue;
            from = s->length;
            event(s, 2);
            SEND(s, 0xCC, 0x55);
            hurry(s, from);
            expect(r, b, RULE_2, shared ? 16 : 16 + 17);
            flatten(&b->image, command % 2);
            expect(r, b, CAREFUL, 0);
        }
    bench_to_judge(b, 0x0C);
    from = overdrive_all(s);
    SEND(s, 0x55, 0x26, 0x00, 0x07);
    hurry(s, from);
    last = s->length - 1;
    expect(r, b, RULE_3, last);
}

static void judge_refusals(struct report *r, struct bench *b)
{
    struct script *const s = &b->script;
    static struct image work;
    uint64_t rule = 5, at_event = 6;

    title("judge: refusals, answers of another length, work too short");
    make_image(&b->image, four, 4);
    restart(s);
    address_all(s);
    record(r, s, &b->image);
    for (size_t i = 0; i < 12; i++)
        CHECK(r, judge_answers(r, s, &b->image, i).number
                     == (i == s->length ? 0u : 7u));
    CHECK(r, b->image.length == 1032);
    for (size_t room = 0; room < 1032; room++)
        CHECK(r, second_judge(b->image.bytes, 1032, s->trace, 9, s->answers, 9,
                              work.bytes, room, &rule, &at_event) == 7);
    CHECK(r, rule == 5 && at_event == 6 && work.bytes[0] == 0);
    CHECK(r, second_judge(b->image.bytes, 1032, s->trace, 9, s->answers, 9,
                          work.bytes, 1032, &rule, &at_event) == 0);
    CHECK(r, rule == 0 && at_event == 0);
    for (unsigned causes = 1; causes < 256; causes++) {
        restart(s);
        address_all(s);
        if (causes & 16)
            s->trace[3] = 7;
        if (causes & 32)
            s->trace[1] = 3;
        if (causes & 128)
            s->trace[0] = 0;
        put_causes(&b->image, causes);
        CHECK(r, judge_answers(r, s, &b->image, causes & 64 ? 10 : 9).number
                     == first_of(causes));
    }
}

/* The trace of a search with what it saw. */
static void judge_search(struct report *r, struct bench *b)
{
    struct script *const s = &b->script;
    uint64_t passes, resets, count;
    uint8_t codes[32];

    title("judge: a search is careful");
    make_image(&b->image, four, 4);
    CHECK(r, second_search(b->image.bytes, b->image.length, codes, 32,
                           s->trace, EVENTS, &passes, &resets, &count) == 0);
    s->length = 804;
    expect(r, b, CAREFUL, 0);
}

static void judging(struct report *r, struct bench *b)
{
    careful_sessions(r, b);
    unlike_answers(r, b);
    shared_commands(r, b);
    unchecked_copies(r, b);
    reads_cut_and_disturbed(r, b);
    writes_cut(r, b);
    copies_of_nothing(r, b);
    devices_apart(r, b);
    rules_in_order(r, b);
    judged_at_both_speeds(r, b);
    overdrive_rules(r, b);
    judge_refusals(r, b);
    judge_search(r, b);
}

/* ------------------------------------------------------------------ */
/* Master and search                                                   */

static unsigned code_bit(const uint8_t *code, unsigned i)
{
    return code[i / 8] >> (i % 8) & 1;
}

/* The order of a search: 0 first at the lowest bit that differs. */
static int by_bit_order(const void *left, const void *right)
{
    for (unsigned i = 0; i < 64; i++)
        if (code_bit(left, i) != code_bit(right, i))
            return code_bit(left, i) ? 1 : -1;
    return 0;
}

/*
 * The levels a bus with these sorted codes gives to the pass that finds code
 * k, worked out from the codes alone; gives their number.
 */
static size_t pass_levels(uint8_t (*codes)[CODE], size_t n, size_t k,
                          uint8_t *levels)
{
    size_t used = 0;

    levels[used++] = 0;
    for (unsigned i = 0; i < 8; i++)
        levels[used++] = 0xF0 >> i & 1;
    for (unsigned i = 0; i < 64; i++) {
        unsigned zeros = 0, ones = 0;

        for (size_t j = 0; j < n; j++) {
            unsigned agree = 0;

            while (agree < i
                   && code_bit(codes[j], agree) == code_bit(codes[k], agree))
                agree++;
            if (agree == i)
                *(code_bit(codes[j], i) ? &ones : &zeros) += 1;
        }
        levels[used++] = zeros == 0;
        levels[used++] = ones == 0;
        levels[used++] = (uint8_t)code_bit(codes[k], i);
    }
    return used;
}

static void many_codes(uint8_t (*codes)[CODE], size_t n, uint64_t seed)
{
    static const uint8_t families[] = { 0x08, 0x06, 0x09, 0x0C };
    const size_t kinds = n <= 24 ? 4 : 3; /* few DS1996 fit an image */

    for (size_t i = 0; i < n; i++) {
        seed = seed * 6364136223846793005u + 1442695040888963407u;
        make_code(codes[i], families[i % kinds], seed >> 16);
    }
    qsort(codes, n, CODE, by_bit_order);
}

struct feed_buffers {
    uint8_t levels[201 * 65], trace[12864 + 1], found[512 + 1];
};

static struct second_fed feed(struct feed_buffers *f, size_t count)
{
    memset(f->trace, 9, sizeof f->trace);
    memset(f->found, 9, sizeof f->found);
    return second_feed(f->levels, count, f->trace, f->found);
}

static void master_end_none_and_8(struct report *r, struct feed_buffers *f)
{
    struct second_fed fed;
    uint8_t codes[3][CODE];
    size_t used = 0;

    title("master: no levels, no presence, end 8");
    fed = second_feed(NULL, 0, f->trace, f->found);
    CHECK(r, !fed.ended && fed.number == 0 && fed.events == 1 && !fed.codes);
    CHECK(r, f->trace[0] == 2);
    f->levels[0] = 1;
    fed = feed(f, 10);
    CHECK(r, fed.ended && fed.number == 0 && fed.events == 1 && !fed.codes);
    CHECK(r, f->trace[1] == 9);

    memset(f->levels, 0, 9);
    f->levels[9] = f->levels[10] = 0x80;
    fed = feed(f, 100);
    CHECK(r, fed.ended && fed.number == 8 && fed.events == 11 && !fed.codes);
    CHECK(r, memcmp(f->trace, "\2\0\0\0\0\1\1\1\1\1\1\11", 12) == 0);
    CHECK(r, feed(f, 10).ended == 0 && feed(f, 10).events == 11);

    many_codes(codes, 3, 4);
    used = pass_levels(codes, 3, 0, f->levels);
    f->levels[used++] = 1;
    fed = feed(f, used);
    CHECK(r, fed.ended && fed.number == 8 && fed.codes == 1);
    CHECK(r, fed.events == 202);
    CHECK(r, memcmp(f->found, codes[0], CODE) == 0 && f->found[CODE] == 9);

    used = pass_levels(codes, 3, 0, f->levels);
    pass_levels(codes, 3, 1, f->levels + used);
    f->levels[used + 9 + 3 * 63] = f->levels[used + 9 + 3 * 63 + 1] = 1;
    fed = feed(f, 402);
    CHECK(r, fed.ended && fed.number == 8 && fed.codes == 1);
    CHECK(r, fed.events == 401);
}

static void master_end_9(struct report *r, struct feed_buffers *f)
{
    struct second_fed fed;
    uint8_t codes[2][CODE];

    title("master: end 9");
    memset(f->levels, 0, sizeof f->levels);
    fed = feed(f, sizeof f->levels);
    CHECK(r, fed.ended && fed.number == 9 && fed.codes == 1);
    CHECK(r, fed.events == 402);
    CHECK(r, memcmp(f->found, "\0\0\0\0\0\0\0\0\11", 9) == 0);
    CHECK(r, f->trace[402] == 9);

    many_codes(codes, 1, 3);
    codes[0][7] ^= 1;
    pass_levels(codes, 1, 0, f->levels);
    fed = feed(f, 201);
    CHECK(r, fed.ended && fed.number == 9 && !fed.codes && fed.events == 201);
    CHECK(r, feed(f, 200).ended == 0 && f->found[0] == 9);
}

static void master_end_10(struct report *r, struct feed_buffers *f)
{
    static uint8_t codes[65][CODE];
    struct second_fed fed;
    size_t used = 0;

    title("master: end 10, and end 9 before it");
    many_codes(codes, 65, 12345);
    for (size_t k = 0; k < 64; k++)
        used += pass_levels(codes, 65, k, f->levels + used);
    fed = feed(f, used);
    CHECK(r, fed.ended && fed.number == 10 && fed.codes == 64);
    CHECK(r, fed.events == 12864 && f->trace[12864] == 9);
    CHECK(r, memcmp(f->found, codes, 512) == 0 && f->found[512] == 9);

    codes[63][7] ^= 0x80;
    for (size_t k = 0, at_level = 0; k < 64; k++)
        at_level += pass_levels(codes, 65, k, f->levels + at_level);
    fed = feed(f, used);
    CHECK(r, fed.ended && fed.number == 9 && fed.codes == 63);
    CHECK(r, memcmp(f->found, codes, 504) == 0 && f->found[504] == 9);
}

/* An accepted image with these codes, in an order that is not sorted. */
static void image_of(struct image *im, uint8_t (*codes)[CODE], size_t n)
{
    uint8_t families[64];

    for (size_t i = 0; i < n; i++)
        families[i] = codes[(7 * i + 3) % n][0];
    make_image(im, families, n);
    for (size_t i = 0; i < n; i++)
        memcpy(at(im, i, 0), codes[(7 * i + 3) % n], CODE);
}

/* Searches n devices, runs the trace sent, feeds the answers to a master. */
static void search_and_replay(struct report *r, struct bench *b,
                              struct feed_buffers *f, size_t n, uint64_t seed,
                              int flat)
{
    static uint8_t codes[64][CODE], found[513], expected[12864];
    struct script *const s = &b->script;
    const size_t events = n == 0 ? 1 : 201 * n;
    uint64_t passes, resets, count;
    struct second_fed fed;

    printf("search and replay: devices %u%s\n", (unsigned)n,
           flat ? ", some of them flat" : "");
    many_codes(codes, n, seed);
    image_of(&b->image, codes, n);
    for (size_t i = 0; flat && i < n; i++)
        if (i % 3 != 0 && at(&b->image, i, 0)[0] != 0x09)
            flatten(&b->image, i);
    keep(b);
    memset(found, 9, sizeof found);
    memset(s->trace, 9, sizeof s->trace);
    CHECK(r, second_search(b->image.bytes, b->image.length, found,
                           sizeof found, s->trace, sizeof s->trace, &passes,
                           &resets, &count) == 0);
    CHECK(r, passes == n && resets == (n ? n : 1) && count == 200 * n);
    CHECK(r, memcmp(found, codes, CODE * n) == 0 && found[CODE * n] == 9);
    CHECK(r, s->trace[events] == 9);
    CHECK(r, unchanged(b));

    s->length = events;
    CHECK(r, play(s, &b->image) == 0);
    CHECK(r, unchanged(b));
    expected[0] = 1;
    for (size_t k = 0; k < n; k++)
        pass_levels(codes, n, k, expected + 201 * k);
    CHECK(r, memcmp(s->answers, expected, events) == 0);
    CHECK(r, s->answers[events] == 0xEE);

    memcpy(f->levels, s->answers, events);
    fed = feed(f, events);
    CHECK(r, fed.ended && fed.number == 0);
    CHECK(r, fed.events == events && fed.codes == n);
    CHECK(r, memcmp(f->trace, s->trace, events) == 0);
    CHECK(r, memcmp(f->found, codes, CODE * n) == 0);
    CHECK(r, !feed(f, events - 1).ended);
}

/* ------------------------------------------------------------------ */

static void published(struct report *r, struct bench *b)
{
    published_codes(r);
    worked_example(r, b, 0x08);
    worked_example(r, b, 0x06);
    worked_example(r, b, 0x0C);
}

static void devices(struct report *r, struct bench *b)
{
    rom_functions(r, b);
    colliding_codes(r, b);
    looked_at_in_order(r, b);
    looked_at_while_waiting(r, b);
    scratchpad_bits(r, b);
    address_cut_short(r, b);
    read_memory(r, b);
    copy_after_a_read(r, b);
    read_scratchpad(r, b);
    copies(r, b);
    wrong_patterns(r, b);
    copies_add_up(r, b);
    flat_alone(r, b, 0x08);
    flat_alone(r, b, 0x06);
    flat_alone(r, b, 0x0C);
    flat_beside_good(r, b);
    listening(r, b);
    overdrive(r, b);
    eprom_reads(r, b);
    eprom_writes(r, b);
    eprom_pulses(r, b);
    protection_in_trace(r, b);
    shared_pulse(r, b);
    views(r);
}

int main(void)
{
    static struct bench bench;
    static struct feed_buffers buffers;
    struct report report = { 0, 0 };

    published(&report, &bench);
    devices(&report, &bench);
    refusal_1(&report, &bench);
    refusal_1_of_batteries(&report, &bench);
    refusals_2_3_4(&report, &bench);
    refusal_2_of_large_images(&report, &bench);
    refusals_5_6_7(&report, &bench);
    refusal_11(&report, &bench);
    refusals_together(&report, &bench);
    judging(&report, &bench);
    master_end_none_and_8(&report, &buffers);
    master_end_9(&report, &buffers);
    master_end_10(&report, &buffers);
    search_and_replay(&report, &bench, &buffers, 0, 1, 0);
    search_and_replay(&report, &bench, &buffers, 1, 2, 0);
    search_and_replay(&report, &bench, &buffers, 24, 6, 0);
    search_and_replay(&report, &bench, &buffers, 24, 7, 1);
    search_and_replay(&report, &bench, &buffers, 40, 3, 0);
    search_and_replay(&report, &bench, &buffers, 64, 4, 0);
    search_and_replay(&report, &bench, &buffers, 64, 5, 1);
    printf("%u checks, %u failed\n", report.checks, report.failures);
    return report.failures != 0;
}
