#include "bench_damage.h"

#include "digit.h"

#include <string.h>

static size_t packed_length(const struct bench *b)
{
    return b->count == 0 ? TABLE
                         : b->bodies[b->count - 1]
                               + kind_body_bytes(b->kinds[b->count - 1]);
}

static uint8_t *entry(struct bench *b, size_t i)
{
    return b->bytes + TABLE + ENTRY_BYTES * i;
}

/* ------------------------------------------------------------------ */
/* Refusal 1                                                           */

static int table_cut(struct bench *b, size_t choice)
{
    b->length = digit(&choice, TABLE + ENTRY_BYTES * b->count);
    return 1;
}

static int count_over_64(struct bench *b, size_t choice)
{
    const size_t over = MOST_ENTRIES - MOST_DEVICES;

    b->bytes[COUNT] = (uint8_t)(MOST_DEVICES + 1 + digit(&choice, over));
    return 1;
}

/* A byte from a least one on: mostly that or the last, at times any. */
static uint8_t mostly_at_the_ends(size_t choice, size_t least, size_t last)
{
    switch (digit(&choice, 5)) {
    case 0:
    case 1:
        return (uint8_t)least;
    case 2:
    case 3:
        return (uint8_t)last;
    default:
        return (uint8_t)(least + digit(&choice, last - least + 1));
    }
}

/* From 3 on to 255, and on to 0. */
static int other_edition(struct bench *b, size_t choice)
{
    b->bytes[EDITION] = mostly_at_the_ends(choice, 3, 256);
    return 1;
}

/* Edition 1 knows no flat battery. */
static int flat_in_edition_1(struct bench *b, size_t choice)
{
    (void)choice; /* there is one way only */
    for (size_t i = 0; i < b->count; i++)
        if (b->flat[i]) {
            b->bytes[EDITION] = 1;
            return 1;
        }
    return 0;
}

/* A 1 is no damage where the device can be flat in this edition. */
static int other_second_byte(struct bench *b, size_t choice)
{
    size_t device, least;

    if (b->count == 0)
        return 0;
    device = digit(&choice, b->count);
    least = b->bytes[EDITION] == 1 || b->kinds[device] == DS1982 ? 1 : 2;
    entry(b, device)[1] = mostly_at_the_ends(choice, least, 255);
    return 1;
}

static int is_family(uint8_t byte)
{
    for (enum kind kind = 0; kind < KINDS; kind++)
        if (byte == kind_family(kind))
            return 1;
    return 0;
}

static int unknown_family(struct bench *b, size_t choice)
{
    size_t device, family;

    if (b->count == 0)
        return 0;
    device = digit(&choice, b->count);
    family = digit(&choice, 256);
    while (is_family((uint8_t)family))
        family++;
    entry(b, device)[0] = (uint8_t)family;
    return 1;
}

/* ------------------------------------------------------------------ */
/* Refusal 2                                                           */

static int wrong_offset(struct bench *b, size_t choice)
{
    size_t device, bit;

    if (b->count == 0)
        return 0;
    device = digit(&choice, b->count);
    bit = digit(&choice, 16);
    entry(b, device)[2 + bit / 8] ^= (uint8_t)(1u << bit % 8);
    return 1;
}

static int bytes_after_the_last(struct bench *b, size_t choice)
{
    const size_t packed = packed_length(b);
    const size_t more = 1 + digit(&choice, 100);

    memset(b->bytes + packed, 0, more);
    b->length = packed + more;
    return 1;
}

static int bodies_cut(struct bench *b, size_t choice)
{
    const size_t packed = packed_length(b);

    if (b->count == 0)
        return 0;
    b->length =
        packed - 1
        - digit(&choice, packed - TABLE - ENTRY_BYTES * b->count);
    return 1;
}

/* ------------------------------------------------------------------ */
/* Refusals 3 and 4                                                    */

static int wrong_code_bit(struct bench *b, size_t choice)
{
    size_t device, bit;

    if (b->count == 0)
        return 0;
    bit = digit(&choice, CODE_BITS);
    device = digit(&choice, b->count);
    *bench_at(b, device, bit / 8) ^= (uint8_t)(1u << bit % 8);
    return 1;
}

/* The code is valid, but of a family that is not the entry's. */
static int code_of_other_family(struct bench *b, size_t choice)
{
    size_t device, family;

    if (b->count == 0)
        return 0;
    device = digit(&choice, b->count);
    family = digit(&choice, 256);
    if (family == kind_family(b->kinds[device]))
        family++;
    code_write(bench_at(b, device, 0), (uint8_t)family, choice);
    return 1;
}

/* Two devices of a kind have the same code, not always neighbours. */
static int equal_codes(struct bench *b, size_t choice)
{
    size_t first, steps;

    if (b->count < 2)
        return 0;
    first = digit(&choice, b->count);
    steps = 1 + digit(&choice, b->count - 1);
    for (size_t i = 0; i < b->count; i++) {
        const size_t other = (first + steps + i) % b->count;

        if (other != first && b->kinds[other] == b->kinds[first]) {
            memcpy(bench_at(b, other, 0), bench_see(b, first, 0), CODE_BYTES);
            return 1;
        }
    }
    return 0;
}

/* ------------------------------------------------------------------ */

static const struct {
    unsigned number;
    int (*act)(struct bench *, size_t);
} damages[] = {
    { 1, table_cut },
    { 1, count_over_64 },
    { 1, other_edition },
    { 1, flat_in_edition_1 },
    { 1, other_second_byte },
    { 1, unknown_family },
    { 2, wrong_offset },
    { 2, bytes_after_the_last },
    { 2, bodies_cut },
    { 3, wrong_code_bit },
    { 3, code_of_other_family },
    { 4, equal_codes },
};

size_t bench_damage_count(void)
{
    return sizeof damages / sizeof *damages;
}

unsigned bench_damage_number(size_t damage)
{
    return damages[damage].number;
}

int bench_damage_do(size_t damage, struct bench *b, size_t choice)
{
    return damages[damage].act(b, choice);
}
