/*
 * The line of examples/line.c against one long run. A host that sends random sessions over the line gets the levels,
 * and has the image, that a run of all its events has, whatever resets lie between; it is told of a trace's end.
 * line [SEEDS]: how many random sessions, by default 500.
 */
#include "../examples/line.h"

#include <stdio.h>
#include <stdlib.h>
#include <string.h>

enum { DEVICES = 6, SESSION = 3000 };

/* The line under test, and all that was sent over it since it was opened, with the levels. */
struct host {
    struct line line;
    uint8_t first[LINE_IMAGE];
    uint8_t events[TROUGHIRON_MOST_EVENTS], levels[TROUGHIRON_MOST_EVENTS];
    size_t count;
};

static struct host host;

static void check(int fine, const char *what)
{
    if (fine)
        return;
    printf("tests/line: %s, after %zu events\n", what, host.count);
    exit(1);
}

/* ------------------------------------------------------------------ */
/* Benches                                                             */

static uint8_t crc8(const uint8_t *bytes, size_t count)
{
    uint8_t crc = 0;

    for (size_t i = 0; i < count; i++) {
        crc ^= bytes[i];
        for (int bit = 0; bit < 8; bit++)
            crc = crc & 1 ? (uint8_t)(crc >> 1 ^ 0x8C) : crc >> 1;
    }
    return crc;
}

static size_t body_size(uint8_t family)
{
    return family == TROUGHIRON_DS1992   ? 171
           : family == TROUGHIRON_DS1993 ? 555
           : family == TROUGHIRON_DS1996 ? 8235
                                         : 144;
}

static size_t new_image(uint8_t *image, const uint8_t *families, size_t count)
{
    size_t offset = 2 + 4 * count;

    memset(image, 0, LINE_IMAGE);
    image[0] = (uint8_t)count;
    image[1] = 1;
    for (size_t i = 0; i < count; i++) {
        uint8_t *const body = image + offset;

        image[2 + 4 * i] = families[i];
        image[4 + 4 * i] = (uint8_t)offset;
        image[5 + 4 * i] = (uint8_t)(offset >> 8);
        if (families[i] == TROUGHIRON_DS1982)
            memset(body + 8, 0xFF, 136);
        body[0] = families[i];
        body[1] = (uint8_t)(i + 1);
        memset(body + 2, 0, 5);
        body[7] = crc8(body, 7);
        offset += body_size(families[i]);
    }
    return offset;
}

static uint8_t *body_of(uint8_t *image, size_t index)
{
    return image + image[4 + 4 * index] + 256 * image[5 + 4 * index];
}

static void open_bench(const uint8_t *families, size_t count)
{
    const size_t length = new_image(host.first, families, count);

    host.count = 0;
    check(line_open(&host.line, host.first, length) == 0, "a bench is refused");
}

/* ------------------------------------------------------------------ */
/* What the host sends, kept beside the line                           */

static void keep(uint8_t event, int level)
{
    check(level == 0 || level == 1, "no level");
    host.events[host.count] = event;
    host.levels[host.count++] = (uint8_t)level;
}

static void reset(void)
{
    const int presence = line_reset(&host.line);

    check(presence == 0 || presence == 1, "no presence");
    keep(TROUGHIRON_RESET, !presence);
}

static void overdrive_reset(void)
{
    const int presence = line_overdrive_reset(&host.line);

    check(presence == 0 || presence == 1, "no presence at overdrive");
    keep(TROUGHIRON_OVERDRIVE_RESET, !presence);
}

/* A slot at the speed of the line. */
static uint8_t slot(int value)
{
    return (uint8_t)((host.line.overdrive ? TROUGHIRON_OVERDRIVE_ZERO : TROUGHIRON_WRITE_ZERO) + value);
}

static void bit(int value)
{
    keep(slot(value), line_bit(&host.line, value));
}

static void byte(uint8_t value)
{
    const int levels = line_byte(&host.line, value);

    check(levels >= 0, "a byte is refused");
    for (int i = 0; i < 8; i++)
        keep(slot(value >> i & 1), levels >> i & 1);
}

static void read_bytes(size_t count)
{
    uint8_t bytes[64];

    check(line_read(&host.line, bytes, count) == 0, "a read is refused");
    for (size_t i = 0; i < 8 * count; i++)
        keep(slot(1), bytes[i / 8] >> i % 8 & 1);
}

static void pulse(void)
{
    keep(TROUGHIRON_PULSE, line_pulse(&host.line));
}

/* One long run of all that was sent. */
static void compare(void)
{
    static uint8_t image[LINE_IMAGE], answers[TROUGHIRON_MOST_EVENTS];
    const size_t length = host.line.length;
    uint64_t copied;

    memcpy(image, host.first, length);

    const uint32_t refusal =
        troughiron_run(image, length, host.events, host.count, answers, sizeof answers, &copied);

    check(refusal == TROUGHIRON_ANSWERED, "the long run is refused");
    check(memcmp(answers, host.levels, host.count) == 0, "levels differ from those of one long run");
    check(memcmp(image, host.line.image, length) == 0, "the image differs from that of one long run");
    check(copied == host.line.copied, "the bytes copied are not those of one long run");
}

/* ------------------------------------------------------------------ */
/* Random sessions                                                     */

static uint64_t state;

static unsigned below(unsigned most)
{
    state = state * 6364136223846793005u + 1442695040888963407u;
    return (unsigned)(state >> 33) % most;
}

static void some_bytes(unsigned most)
{
    for (unsigned n = below(most + 1); n > 0; n--)
        byte((uint8_t)below(256));
}

static void some_bits(void)
{
    for (unsigned n = below(8); n > 0; n--)
        bit((int)below(2));
}

static void address_device(void)
{
    const uint8_t *const code = body_of(host.first, below(host.first[0]));

    if (below(3) > 0) {
        byte(0xCC);
        return;
    }
    if (below(2)) {
        byte(below(2) ? 0x69 : 0x3C);
        host.line.overdrive = 1;
    } else {
        byte(0x55);
    }
    for (int i = 0; i < 8; i++)
        byte(code[i]);
}

/* A copy with what a device's registers have now. */
static void copy(void)
{
    const uint8_t *const body = body_of(host.line.image, below(host.first[0]));

    byte(0x55);
    for (int i = 0; i < 3; i++)
        byte(body[8 + i]);
    read_bytes(1 + below(2));
}

static void command(int pulses)
{
    static const uint8_t commands[] = { 0x0F, 0x0F, 0x0F, 0xAA, 0xF0, 0xC3, 0x55 };

    if (below(4) == 0) {
        copy();
        return;
    }
    byte(commands[below(sizeof commands)]);
    byte((uint8_t)below(256));
    byte((uint8_t)below(3));
    some_bytes(below(5) == 0 ? 34 : 3);
    if (pulses && below(2)) {
        read_bytes(1);
        pulse();
        read_bytes(1);
    }
    some_bits();
    if (below(2))
        read_bytes(1 + below(6));
}

static void transaction(int pulses)
{
    if (host.count == 0 || below(20) > 8)
        reset();
    else if (below(4) > 0)
        overdrive_reset();
    if (below(30) == 0)
        host.line.overdrive = !host.line.overdrive;
    if (below(10) > 0)
        address_device();
    if (below(10) > 0)
        command(pulses);
    if (below(8) == 0)
        some_bits();
    if (pulses && below(10) == 0)
        pulse();
    if (below(4) == 0)
        compare();
}

static void random_session(uint64_t seed)
{
    static const uint8_t all[] = { TROUGHIRON_DS1992, TROUGHIRON_DS1993, TROUGHIRON_DS1996, TROUGHIRON_DS1982 };
    uint8_t families[DEVICES];

    state = seed;

    const int pulses = below(2) > 0;
    const size_t devices = 1 + below(DEVICES);

    for (size_t i = 0; i < devices; i++)
        families[i] = pulses ? TROUGHIRON_DS1982 : all[below(4)];
    open_bench(families, devices);
    while (host.count < SESSION)
        transaction(pulses);
    compare();
    reset();
    compare();
}

/* ------------------------------------------------------------------ */
/* The end of a trace                                                  */

/* Whatever is asked for past the end is reported, and leaves every byte of the line as it is. */
static void at_the_end(void)
{
    static struct line before;
    struct line *const l = &host.line;
    uint8_t bytes[8] = { 0x5A, 0x5A }, kept[8] = { 0x5A, 0x5A };

    before = *l;
    check(line_bit(l, 0) == -TROUGHIRON_REFUSED_TRACE, "a slot past the end is not reported");
    check(line_bit(l, 1) == -TROUGHIRON_REFUSED_TRACE, "a read slot past the end is not reported");
    check(line_byte(l, 0xFF) == -TROUGHIRON_REFUSED_TRACE, "a byte past the end is not reported");
    check(line_read(l, bytes, sizeof bytes) == -TROUGHIRON_REFUSED_TRACE, "a read past the end is not reported");
    check(line_read(l, bytes, SIZE_MAX) == -TROUGHIRON_REFUSED_TRACE, "a read without end is not reported");
    check(line_pulse(l) == -TROUGHIRON_REFUSED_TRACE, "a pulse past the end is not reported");
    check(line_overdrive_reset(l) == -TROUGHIRON_REFUSED_TRACE, "a reset at overdrive past the end is not reported");
    check(memcmp(bytes, kept, sizeof bytes) == 0, "a refused read wrote bytes");
    check(memcmp(l, &before, sizeof before) == 0, "what was refused changed the line");
}

/* A write of the scratchpad, at the end slot by slot. The reset still fits; as OF is set, it sets no PF. */
static void limit_by_bits(void)
{
    open_bench((const uint8_t[]){ TROUGHIRON_DS1992 }, 1);
    reset();
    byte(0xCC);
    byte(0x0F);
    byte(0x26);
    byte(0x00);
    while (host.count < 400)
        bit(host.count % 3 == 0);
    while (host.count + 8 * 64 + 100 < TROUGHIRON_MOST_EVENTS)
        read_bytes(64);
    while (host.count < TROUGHIRON_MOST_EVENTS - 1)
        bit(host.count % 3 == 0);
    compare();
    at_the_end();
    compare();
    reset();
    compare();
    check(body_of(host.line.image, 0)[10] == (TROUGHIRON_ES_OF | 0x1F), "E/S after an overflow");
    check(line_bit(&host.line, 1) == 1, "no slot after the reset that follows an end");
}

/* Reads by the byte: where eight slots do not fit any more, single ones do. */
static void limit_by_bytes(void)
{
    open_bench((const uint8_t[]){ TROUGHIRON_DS1982, TROUGHIRON_DS1982 }, 2);
    reset();
    byte(0xCC);
    byte(0xF0);
    byte(0x00);
    byte(0x00);
    while (host.line.count + 8 * 64 < TROUGHIRON_MOST_EVENTS)
        read_bytes(64);
    while (host.line.count + 8 < TROUGHIRON_MOST_EVENTS)
        byte(0xFF);
    check(line_byte(&host.line, 0xFF) == -TROUGHIRON_REFUSED_TRACE, "a byte that does not fit is not reported");
    while (host.line.count + 1 < TROUGHIRON_MOST_EVENTS)
        bit(1);
    at_the_end();
    compare();
    reset();
    compare();
}

/* ------------------------------------------------------------------ */
/* Refusals                                                            */

/* Whatever is sent before the first reset is refused, and the line goes on as if it had not been asked for. */
static void before_a_reset(void)
{
    const int refused = -TROUGHIRON_REFUSED_NO_RESET;
    struct line *const l = &host.line;
    uint8_t bytes[2] = { 0x5A, 0x5A };

    open_bench((const uint8_t[]){ TROUGHIRON_DS1982, TROUGHIRON_DS1992 }, 2);
    check(line_bit(l, 0) == refused && line_bit(l, 1) == refused, "a slot before a reset is not refused");
    check(line_byte(l, 0xF0) == refused, "a byte before a reset is not refused");
    check(line_read(l, bytes, sizeof bytes) == refused, "a read before a reset is not refused");
    check(bytes[0] == 0x5A && bytes[1] == 0x5A, "a refused read wrote bytes");
    check(line_pulse(l) == refused, "a pulse before a reset is refused for its device");
    check(line_overdrive_reset(l) == refused, "a reset at overdrive before a regular one is not refused");
    compare();
    reset();
    byte(0x33);
    read_bytes(8);
    compare();
}

static void refused_pulse(void)
{
    open_bench((const uint8_t[]){ TROUGHIRON_DS1982, TROUGHIRON_DS1992 }, 2);
    reset();
    byte(0xCC);
    byte(0x0F);
    byte(0x26);
    byte(0x00);
    byte(0x41);
    check(line_pulse(&host.line) == -TROUGHIRON_REFUSED_PULSE, "a pulse is not refused");
    compare();
    byte(0x37);
    reset();
    compare();
}

static void refused_images(void)
{
    static uint8_t image[LINE_IMAGE + 1];
    const uint8_t families[2] = { TROUGHIRON_DS1992, TROUGHIRON_DS1982 };
    const size_t length = new_image(image, families, 2);
    struct line *const l = &host.line;

    check(line_open(l, NULL, 0) == -TROUGHIRON_REFUSED_TABLE, "no image");
    check(line_reset(l) == -TROUGHIRON_REFUSED_TABLE, "a reset after a refused image");
    check(line_open(l, image, length - 1) == -TROUGHIRON_REFUSED_LAYOUT, "an image that is cut");
    check(line_bit(l, 1) < 0 && line_byte(l, 1) < 0, "slots after a refused image");
    check(line_read(l, image, 1) < 0 && line_pulse(l) < 0, "a read and a pulse after a refused image");
    check(line_open(l, image, sizeof image) == -TROUGHIRON_REFUSED_LAYOUT, "an image that is too long");
    image[1] = 3;
    check(line_open(l, image, sizeof image) == -TROUGHIRON_REFUSED_TABLE, "a long image of another edition");
    image[1] = 1;
    body_of(image, 1)[7] ^= 1;
    check(line_open(l, image, length) == -TROUGHIRON_REFUSED_CODE, "an image with a wrong CRC");
    new_image(image, (const uint8_t[]){ TROUGHIRON_DS1992, TROUGHIRON_DS1992 }, 2);
    memcpy(body_of(image, 1), body_of(image, 0), 8);
    check(line_open(l, image, 2 + 8 + 2 * 171) == -TROUGHIRON_REFUSED_ALIKE, "two codes alike");
    new_image(image, families, 0);
    check(line_open(l, image, 2) == 0 && line_reset(l) == 0 && line_read(l, image, 0) == 0, "the empty bench");
}

int main(int argc, char **argv)
{
    const unsigned long seeds = argc > 1 ? strtoul(argv[1], NULL, 10) : 500;

    refused_images();
    before_a_reset();
    refused_pulse();
    for (unsigned long seed = 0; seed < seeds; seed++)
        random_session(seed);
    limit_by_bits();
    limit_by_bytes();
    printf("%lu sessions, and the end of a trace\n", seeds);
    return 0;
}
