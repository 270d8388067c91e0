/*
 * Forty devices of three kinds on one line. A search finds each code once, in the order of its bits from bit 0 on, 0
 * before 1; the trace that it sent is run again on the same bench and answers what the search saw. A host's own search,
 * slot by slot over a line, finds the same.
 */
#include "line.h"

#include <stdio.h>
#include <stdlib.h>
#include <string.h>

enum { DEVICES = 40, ENTRY = 4, CODE = 8, PASS = 201, ROOM = 2 + DEVICES * (ENTRY + 555) };

struct kind {
    uint8_t family;
    size_t body;
    const char *name;
};

static const struct kind kinds[] = {
    {TROUGHIRON_DS1992, 171, "DS1992"}, {TROUGHIRON_DS1993, 555, "DS1993"}, {TROUGHIRON_DS1982, 144, "DS1982"}};

/* The CRC-8 of a registration code, as a host has it. */
static uint8_t crc8(const uint8_t *bytes, size_t n)
{
    uint8_t crc = 0;
    for (size_t i = 0; i < n; i++) {
        crc ^= bytes[i];
        for (int bit = 0; bit < 8; bit++)
            crc = crc & 1 ? (uint8_t)(crc >> 1 ^ 0x8C) : crc >> 1;
    }
    return crc;
}

/* Forty devices, the kinds in turn, with serial numbers that share long runs of bits; returns the image's length. */
static size_t new_image(uint8_t image[ROOM])
{
    size_t start = 2 + ENTRY * DEVICES;
    memset(image, 0, ROOM);
    image[0] = DEVICES;
    image[1] = 1;
    for (size_t i = 0; i < DEVICES; i++) {
        const struct kind *kind = &kinds[i % 3];
        uint8_t *entry = image + 2 + ENTRY * i, *code = image + start;
        entry[0] = kind->family;
        entry[2] = (uint8_t)(start % 256);
        entry[3] = (uint8_t)(start / 256);
        code[0] = kind->family;
        code[1] = (uint8_t)(16 * (i % 4));
        code[5] = (uint8_t)(i / 4);
        code[7] = crc8(code, 7);
        start += kind->body;
    }
    return start;
}

static const char *name_of(uint8_t family)
{
    for (size_t k = 0; k < sizeof kinds / sizeof kinds[0]; k++)
        if (kinds[k].family == family)
            return kinds[k].name;
    return "?";
}

/* A code as a person reads it: family, serial number, CRC, the highest byte of the serial number first. */
static void print_code(const uint8_t *code)
{
    printf("%02X ", code[0]);
    for (int i = 6; i > 0; i--)
        printf("%02X", code[i]);
    printf(" %02X  %s\n", code[7], name_of(code[0]));
}

/* Whether code a comes before code b: it has the 0 at the lowest bit where they differ. */
static int precedes(const uint8_t *a, const uint8_t *b)
{
    for (int i = 0; i < 64; i++) {
        int x = a[i / 8] >> i % 8 & 1, y = b[i / 8] >> i % 8 & 1;
        if (x != y)
            return x < y;
    }
    return 0;
}

static void check(const char *what, int fine)
{
    printf("%s: %s\n", what, fine ? "fine" : "NOT FINE");
    if (!fine)
        exit(1);
}

/*
 * One pass of a host's search: at a fork it goes as the last code did before the last fork, 1 at it, and 0 after it.
 * Returns the fork where it took 0 last, -1 where there is none, or -2 where the line answers nothing or is refused.
 */
static int host_pass(struct line *l, uint8_t code[CODE], int last_fork)
{
    int fork = -1;
    if (line_reset(l) != 1 || line_byte(l, 0xF0) < 0)
        return -2;
    for (int i = 0; i < 64; i++) {
        int bit = line_bit(l, 1), complement = line_bit(l, 1);
        if (bit < 0 || complement < 0 || (bit && complement))
            return -2;
        if (!bit && !complement) {
            bit = i < last_fork ? code[i / 8] >> i % 8 & 1 : i == last_fork;
            fork = bit ? fork : i;
        }
        code[i / 8] = (uint8_t)((code[i / 8] & ~(1 << i % 8)) | bit << i % 8);
        if (line_bit(l, bit) != bit)
            return -2;
    }
    return fork;
}

/* Returns how many codes the host's search finds. */
static size_t host_search(struct line *l, uint8_t codes[CODE * DEVICES])
{
    uint8_t code[CODE] = {0};
    size_t found = 0;
    int fork = -1;
    do {
        fork = host_pass(l, code, fork);
        if (fork < -1 || found == DEVICES)
            return 0;
        memcpy(codes + CODE * found++, code, CODE);
    } while (fork >= 0);
    return found;
}

static void check_codes(const uint8_t *codes, uint64_t passes)
{
    int ordered = 1, valid = 1;
    for (size_t i = 0; i < passes; i++) {
        ordered &= i == 0 || precedes(codes + CODE * (i - 1), codes + CODE * i);
        valid &= troughiron_registration_check(codes + CODE * i, CODE) == 1;
    }
    check("forty codes", passes == DEVICES);
    check("each valid", valid);
    check("each before the next", ordered);
}

/* The directions of a pass are its code: what the master wrote is what the line answered in these slots. */
static void check_answers(const uint8_t *codes, uint64_t passes, const uint8_t *answers)
{
    int same = 1;
    for (size_t pass = 0; pass < passes; pass++)
        for (size_t bit = 0; bit < 64; bit++) {
            size_t slot = PASS * pass + 9 + 3 * bit + 2;
            same &= answers[slot] == (codes[CODE * pass + bit / 8] >> bit % 8 & 1);
        }
    check("the line answered each code", same);
}

static void check_own_search(const uint8_t *image, size_t length, const uint8_t codes[CODE * DEVICES])
{
    static struct line line;
    uint8_t found[CODE * DEVICES];
    check("the devices on a line", line_open(&line, image, length) == 0);
    check("a host's own search", host_search(&line, found) == DEVICES);
    check("it finds the same codes", memcmp(found, codes, sizeof found) == 0);
}

int main(void)
{
    static uint8_t image[ROOM], before[ROOM], codes[CODE * DEVICES], trace[PASS * DEVICES], answers[PASS * DEVICES];
    uint64_t passes, resets, slots, copied;
    size_t length = new_image(image);
    memcpy(before, image, sizeof image);

    uint32_t refusal = troughiron_search(image, length, codes, sizeof codes, trace, sizeof trace, &passes, &resets,
                                         &slots);
    if (refusal) {
        fprintf(stderr, "refused: %u\n", (unsigned)refusal);
        return 1;
    }
    for (size_t i = 0; i < passes; i++)
        print_code(codes + CODE * i);
    printf("%llu passes, %llu resets, %llu slots\n", (unsigned long long)passes, (unsigned long long)resets,
           (unsigned long long)slots);
    check_codes(codes, passes);

    refusal = troughiron_run(image, length, trace, sizeof trace, answers, sizeof answers, &copied);
    check("the trace runs again", refusal == 0);
    check("nothing copied", copied == 0);
    check("image as it was", memcmp(image, before, sizeof image) == 0);
    check_answers(codes, passes, answers);
    check_own_search(image, length, codes);
    return 0;
}
