/*
 * The view of a DS1982's fields: the bytes still to be read.  A case is a
 * command and a number of addresses in a row.
 */
#include "bench.h"
#include "dice.h"
#include "digit.h"
#include "probe.h"
#include "second.h"
#include "subject.h"
#include "trace.h"
#include "trial.h"

#include <string.h>

/* Buffers of the call. */
enum { DATA_FIELD, STATUS_FIELD, INTO };

enum { MOST_FIELD_BYTES = 300, MOST_INTO = 200, ADDRESSES = 0x10000 };

struct view_case {
    uint8_t command;
    size_t address, addresses; /* the first, and how many */
    size_t data, status, into; /* bytes of each */
    int null;                  /* whether an empty buffer is a null pointer */
};

/* One address of a case. */
struct question {
    uint8_t command;
    uint16_t address;
};

static void library_view(struct given *g)
{
    const struct question *const q = g->arguments;

    g->numbers[0] = probe_remaining(
        q->command, q->address, g->buffers[DATA_FIELD],
        g->lengths[DATA_FIELD], g->buffers[STATUS_FIELD],
        g->lengths[STATUS_FIELD], g->buffers[INTO], g->lengths[INTO]);
}

/* The second program names a part; here its bytes are copied out. */
static void view_of_second(struct given *g)
{
    const struct question *const q = g->arguments;
    const struct second_view v =
        second_remaining(q->command, q->address, g->lengths[DATA_FIELD],
                         g->lengths[STATUS_FIELD]);
    const size_t most = g->lengths[INTO];

    if (v.length > 0 && most > 0)
        memcpy(g->buffers[INTO], g->buffers[v.field] + v.start,
               v.length < most ? v.length : most);
    g->numbers[0] = v.length;
}

static const struct form form = {
    .functions = { library_view, view_of_second },
    .buffers = { { "data", MOST_FIELD_BYTES, 1 },
                 { "status", MOST_FIELD_BYTES, 1 },
                 { "copied bytes", MOST_INTO, 0 } },
    .numbers = { "bytes to be read" },
};

struct view {
    struct view_case now;
    struct trial trial;
    uint8_t bytes[2][MOST_FIELD_BYTES];
    uint64_t parts, empty;
};

/* No byte of a field comes twice within 256 of them, so a part shows. */
static void fill_fields(struct view *v)
{
    for (size_t i = 0; i < MOST_FIELD_BYTES; i++) {
        v->bytes[DATA_FIELD][i] = (uint8_t)(3 * i + 1);
        v->bytes[STATUS_FIELD][i] = (uint8_t)(200 - 7 * i);
    }
}

static void *view_create(void)
{
    struct view *const v = subject_allocate("view", sizeof *v);

    trial_create(&v->trial, &form);
    fill_fields(v);
    return v;
}

/* ------------------------------------------------------------------ */
/* Small cases                                                         */

static const uint8_t commands[] = { READ_DATA,  READ_DATA_BY_PAGE,
                                    READ_STATUS, WRITE_DATA,
                                    WRITE_STATUS, 0x00 };

enum { COMMANDS = sizeof commands };

/*
 * Every address, for the commands that name a field and some that name none:
 * one high byte of it to a case.
 */
static int view_addresses(struct view_case *c, size_t number)
{
    c->command = commands[digit(&number, COMMANDS)];
    c->address = 256 * digit(&number, 256);
    c->addresses = 256;
    return number == 0;
}

/* Every command, at addresses that have every low and every high byte. */
static int view_commands(struct view_case *c, size_t number)
{
    c->command = (uint8_t)digit(&number, 256);
    c->address = 257 * digit(&number, 256);
    return number == 0;
}

/* Addresses around the ends of the fields and of what can be said. */
static size_t edge_address(size_t which)
{
    static const size_t edges[] = { 0,   1,   5,   7,   8,   9,     126,
                                    127, 128, 129, 255, 256, 0xFFF8, 0xFFFF };

    return edges[which % (sizeof edges / sizeof *edges)];
}

enum { EDGES = 14 };

/* Every length of one field, with the other as it is to be or not. */
static int view_lengths(struct view_case *c, size_t number)
{
    const int of_data = digit(&number, 2) == 0;
    const size_t length = digit(&number, MOST_FIELD_BYTES + 1);
    const size_t off = digit(&number, 2);

    c->command = commands[digit(&number, COMMANDS)];
    c->address = edge_address(digit(&number, EDGES));
    c->data = of_data ? length : DATA_BYTES - off;
    c->status = of_data ? STATUS_BYTES + off : length;
    return number == 0;
}

/* Every room to copy into. */
static int view_rooms(struct view_case *c, size_t number)
{
    c->command = commands[digit(&number, COMMANDS)];
    c->address = edge_address(digit(&number, EDGES));
    c->into = digit(&number, MOST_INTO + 1);
    return number == 0;
}

static const struct {
    const char *name;
    int (*make)(struct view_case *, size_t);
} groups[] = {
    { "view_rooms", view_rooms },
    { "view_commands", view_commands },
    { "view_addresses", view_addresses },
    { "view_lengths", view_lengths },
};

static const char *view_group(size_t group)
{
    return GROUP_NAME(groups, group);
}

/* What a group does not say: one address, fields and room as they are to be. */
static int view_small(void *state, size_t group, size_t number)
{
    struct view_case *const c = &((struct view *)state)->now;

    *c = (struct view_case){ .addresses = 1,
                             .data = DATA_BYTES,
                             .status = STATUS_BYTES,
                             .into = DATA_BYTES,
                             .null = number % 2 == 0 };
    return groups[group].make(c, number);
}

/* ------------------------------------------------------------------ */
/* Generated cases                                                     */

static void view_generated(void *state, uint64_t seed, uint64_t number)
{
    struct view *const v = state;
    struct dice dice = dice_for(seed + 3, ~number);

    dice_fill(&dice, v->bytes[DATA_FIELD], MOST_FIELD_BYTES);
    dice_fill(&dice, v->bytes[STATUS_FIELD], MOST_FIELD_BYTES);
    v->now = (struct view_case){
        .command = dice_once_in(&dice, 4)
                       ? (uint8_t)dice_roll(&dice)
                       : commands[dice_below(&dice, COMMANDS)],
        .address = dice_below(&dice, ADDRESSES),
        .addresses = 1,
        .data = dice_once_in(&dice, 8) ? dice_below(&dice, MOST_FIELD_BYTES)
                                       : DATA_BYTES,
        .status = dice_once_in(&dice, 8) ? dice_below(&dice, MOST_FIELD_BYTES)
                                         : STATUS_BYTES,
        .into = dice_once_in(&dice, 3) ? dice_below(&dice, MOST_INTO)
                                       : DATA_BYTES,
        .null = dice_once_in(&dice, 2),
    };
}

/* ------------------------------------------------------------------ */

static struct difference try_address(struct view *v, size_t address)
{
    const struct view_case *const c = &v->now;
    const struct question q = { c->command, (uint16_t)address };
    struct difference d;

    trial_lend(&v->trial, INTO, NULL, c->into, c->null);
    d = trial_call(&v->trial, &q);
    if (d.aspect != ALIKE)
        return d;
    if (trial_returned(&v->trial) > 0)
        v->parts++;
    else
        v->empty++;
    return trial_expect_kept(&v->trial, d, INTO,
                             (size_t)trial_returned(&v->trial));
}

/* Tries the addresses; those in front of the first that differs are cut. */
static struct difference try_case(struct view *v)
{
    struct view_case *const c = &v->now;
    struct difference d = { .aspect = ALIKE };

    trial_lend(&v->trial, DATA_FIELD, v->bytes[DATA_FIELD], c->data, c->null);
    trial_lend(&v->trial, STATUS_FIELD, v->bytes[STATUS_FIELD], c->status,
               c->null);
    for (size_t i = 0; i < c->addresses; i++) {
        d = try_address(v, c->address + i);
        if (d.aspect != ALIKE) {
            c->address += i;
            c->addresses = 1;
        }
    }
    return d;
}

static int view_differs(void *state)
{
    return try_case(state).aspect != ALIKE;
}

static void view_explain(void *state, FILE *out)
{
    struct view *const v = state;

    trial_explain(out, &v->trial, try_case(v));
    fprintf(out,
            "command %02Xh, address %04zXh%s, data of %zu bytes, status of"
            " %zu, room for %zu\n",
            v->now.command, v->now.address,
            v->now.addresses > 1 ? " and those after it" : "", v->now.data,
            v->now.status, v->now.into);
}

static void view_summary(const void *state, FILE *out)
{
    const struct view *const v = state;

    fprintf(out, "view of a DS1982: %llu parts, %llu of them empty\n",
            (unsigned long long)(v->parts + v->empty),
            (unsigned long long)v->empty);
}

const struct subject view_subject = {
    .name = "view",
    .create = view_create,
    .group = view_group,
    .small = view_small,
    .generated = view_generated,
    .differs = view_differs,
    .explain = view_explain,
    .summary = view_summary,
};
