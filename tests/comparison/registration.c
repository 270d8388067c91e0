/* The registration check: 1 for 8 bytes whose CRC comes out zero, else 0. */
#include "bench.h"
#include "dice.h"
#include "digit.h"
#include "second.h"
#include "subject.h"
#include "trial.h"
#include "troughiron.h"

#include <string.h>

enum { MOST_BYTES = 16 };

static void library_check(struct given *g)
{
    g->numbers[0] =
        troughiron_registration_check(g->buffers[0], g->lengths[0]);
}

static void check_of_second(struct given *g)
{
    g->numbers[0] = second_registration_check(g->buffers[0], g->lengths[0]);
}

static const struct form form = {
    .functions = { library_check, check_of_second },
    .buffers = { { "code", MOST_BYTES, 1 } },
    .numbers = { "returned" },
};

struct registration {
    struct trial trial;
    uint8_t bytes[MOST_BYTES];
    size_t length;
    unsigned expected; /* 0, 1 or ANY_NUMBER */
    int null;          /* whether no bytes are a null pointer */
    uint64_t answers[2];
};

static void *registration_create(void)
{
    struct registration *const r =
        subject_allocate("registration check", sizeof *r);

    trial_create(&r->trial, &form);
    return r;
}

/* ------------------------------------------------------------------ */
/* Small cases                                                         */

enum { SOME_CODES = 24 };

/* A valid code, and valid bytes after it: 16 whose CRC is zero as well. */
static void two_codes(struct registration *r, size_t which)
{
    static const uint8_t families[] = { 0x00, 0x02, 0x06, 0x08, 0x09, 0xFF };
    struct dice dice = dice_for(7, which);

    for (int i = 0; i < 2; i++)
        code_write(r->bytes + CODE_BYTES * i,
                   families[which % sizeof families],
                   which < sizeof families ? 0 : dice_roll(&dice));
    r->length = CODE_BYTES;
    r->expected = 1;
}

/* Every length, of valid codes and of zeros. */
static int check_lengths(struct registration *r, size_t number)
{
    two_codes(r, digit(&number, SOME_CODES));
    if (digit(&number, 2) == 1)
        memset(r->bytes, 0, MOST_BYTES);
    r->length = digit(&number, MOST_BYTES + 1);
    r->null = digit(&number, 2) == 0;
    r->expected = r->length == CODE_BYTES;
    return number == 0;
}

/* Seven, nine or more bytes whose CRC comes out zero are no code. */
static int check_zero_crc_of_other_lengths(struct registration *r,
                                           size_t number)
{
    two_codes(r, digit(&number, SOME_CODES));
    r->length = 1 + digit(&number, MOST_BYTES);
    r->bytes[r->length - 1] = crc_of(r->bytes, r->length - 1);
    r->expected = r->length == CODE_BYTES;
    return number == 0;
}

/* One or two bits of a code the other way: no code has that few changed. */
static int check_damaged(struct registration *r, size_t number)
{
    size_t first, second;

    two_codes(r, digit(&number, SOME_CODES));
    first = digit(&number, CODE_BITS);
    second = digit(&number, CODE_BITS);
    r->bytes[first / 8] ^= (uint8_t)(1u << first % 8);
    if (first != second)
        r->bytes[second / 8] ^= (uint8_t)(1u << second % 8);
    r->expected = 0;
    return number == 0;
}

/* Every value of every byte: one of the 256 is right. */
static int check_bytes(struct registration *r, size_t number)
{
    size_t place;
    uint8_t value;

    two_codes(r, digit(&number, SOME_CODES));
    place = digit(&number, CODE_BYTES);
    value = (uint8_t)digit(&number, 256);
    r->expected = r->bytes[place] == value;
    r->bytes[place] = value;
    return number == 0;
}

static const struct {
    const char *name;
    int (*make)(struct registration *, size_t);
} groups[] = {
    { "check_lengths", check_lengths },
    { "check_zero_crc_of_other_lengths", check_zero_crc_of_other_lengths },
    { "check_bytes", check_bytes },
    { "check_damaged", check_damaged },
};

static const char *registration_group(size_t group)
{
    return GROUP_NAME(groups, group);
}

static int registration_small(void *state, size_t group, size_t number)
{
    struct registration *const r = state;

    r->null = 0;
    return groups[group].make(r, number);
}

/* ------------------------------------------------------------------ */
/* Generated cases                                                     */

/*
 * Any bytes of any length, mostly 8; with a right CRC, or starting with a code
 * that is valid; at times with a wrong bit.
 */
static void registration_generated(void *state, uint64_t seed,
                                   uint64_t number)
{
    struct registration *const r = state;
    struct dice dice = dice_for(seed + 2, ~number);

    dice_fill(&dice, r->bytes, MOST_BYTES);
    r->length = dice_once_in(&dice, 4) ? dice_below(&dice, MOST_BYTES + 1)
                                       : CODE_BYTES;
    if (r->length > 0 && dice_once_in(&dice, 2))
        r->bytes[r->length - 1] = crc_of(r->bytes, r->length - 1);
    if (dice_once_in(&dice, 4))
        code_write(r->bytes, r->bytes[0], dice_roll(&dice));
    if (r->length > 0 && dice_once_in(&dice, 8))
        r->bytes[dice_below(&dice, r->length)] ^=
            (uint8_t)(1u << dice_below(&dice, 8));
    r->expected = ANY_NUMBER;
    r->null = dice_once_in(&dice, 2);
}

/* ------------------------------------------------------------------ */

static struct difference try_case(struct registration *r)
{
    trial_lend(&r->trial, 0, r->bytes, r->length, r->null);
    return trial_expect(&r->trial, trial_call(&r->trial, NULL), r->expected);
}

static int registration_differs(void *state)
{
    struct registration *const r = state;
    const int differs = try_case(r).aspect != ALIKE;

    r->answers[trial_returned(&r->trial) == 1]++;
    return differs;
}

static void registration_explain(void *state, FILE *out)
{
    struct registration *const r = state;

    trial_explain(out, &r->trial, try_case(r));
    fprintf(out, "%zu bytes:", r->length);
    show_bytes(out, r->bytes, r->length);
    fputc('\n', out);
}

static void registration_summary(const void *state, FILE *out)
{
    const struct registration *const r = state;

    fprintf(out, "registration check: yes %llu, no %llu\n",
            (unsigned long long)r->answers[1],
            (unsigned long long)r->answers[0]);
}

const struct subject registration_subject = {
    .name = "registration",
    .create = registration_create,
    .group = registration_group,
    .small = registration_small,
    .generated = registration_generated,
    .differs = registration_differs,
    .explain = registration_explain,
    .summary = registration_summary,
};
