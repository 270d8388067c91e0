/* How many devices are looked at for the level of each slot of a trace. */
#include "probe.h"
#include "run_trial.h"
#include "second.h"

#include <string.h>

static void library_looked(struct given *g)
{
    g->numbers[RETURNED] =
        probe_looked(g->buffers[IMAGE], g->lengths[IMAGE],
                     g->buffers[TRACE], g->lengths[TRACE],
                     g->buffers[ANSWERS], g->lengths[ANSWERS]);
}

static void looked_of_second(struct given *g)
{
    g->numbers[RETURNED] =
        second_looked(g->buffers[IMAGE], g->lengths[IMAGE],
                      g->buffers[TRACE], g->lengths[TRACE],
                      g->buffers[ANSWERS], g->lengths[ANSWERS]);
}

static const struct form form = {
    .functions = { library_looked, looked_of_second },
    .buffers = { { "image", BENCH_ROOM, 1 },
                 { "trace", TRACE_ROOM, 1 },
                 { "counts", ANSWER_ROOM, 0 } },
    .numbers = { "returned" },
};

static void *looked_create(void)
{
    return run_trial_create("looked", &form, 0);
}

/* ------------------------------------------------------------------ */
/* Small cases                                                         */

/* So many devices by one digit: all of one kind, or of every kind. */
static void bench_of_kinds(struct bench *b, size_t way, size_t count)
{
    enum kind kinds[MOST_DEVICES] = { DS1992 };

    kinds_of_crowd(kinds, count, way);
    bench_make(b, kinds, count, count);
}

/* Gives a device memory that pulls low in every slot, or in none. */
static void fill_memory(struct bench *b, size_t device, int low)
{
    const enum kind kind = b->kinds[device];

    memset(bench_at(b, device, kind == DS1982 ? DATA : MEMORY),
           low ? 0x00 : 0xFF, kind_memory_bytes(kind));
}

/* Slots of both bits, in which the devices that send are sending. */
static void slots_of_both_bits(struct trace *t)
{
    trace_read(t, 8); /* a DS1982 sends a CRC first */
    trace_bits(t, 0xB5, 8);
}

static void all_read(struct trace *t)
{
    trace_skip(t);
    trace_byte(t, READ_MEMORY);
    trace_address(t, 0x0000);
    slots_of_both_bits(t);
}

/* Every number of devices, where one of them pulls low, or none does. */
static int one_low(struct run_case *c, size_t number)
{
    const size_t kind = digit(&number, KINDS);
    const size_t count = 1 + digit(&number, MOST_DEVICES);
    const size_t low = digit(&number, MOST_DEVICES + 1);

    bench_of_kinds(&c->bench, kind, count);
    for (size_t i = 0; i < count; i++)
        fill_memory(&c->bench, i, i == low);
    all_read(&c->trace);
    return number == 0;
}

/* Every set of eight devices that pull low at once. */
static int sets_low(struct run_case *c, size_t number)
{
    enum { DEVICES = 8 };
    const size_t way = digit(&number, KINDS + 1);
    const size_t set = digit(&number, 1 << DEVICES);

    bench_of_kinds(&c->bench, way, DEVICES);
    for (size_t i = 0; i < DEVICES; i++)
        fill_memory(&c->bench, i, set >> i & 1);
    all_read(&c->trace);
    return number == 0;
}

/* A device is come to by its code, so that those before and after it wait. */
static void address_by_code(struct trace *t, const uint8_t *code, int search)
{
    if (search)
        trace_search(t, code);
    else
        trace_match(t, code);
}

/*
 * Every place of a device that alone sends memory, or 0 after a copy, with
 * every set of flat ones: a flat one counts as well.
 */
static int others_wait(struct run_case *c, size_t number)
{
    enum { DEVICES = 6 };
    const size_t way = digit(&number, KINDS + 1);
    const int search = digit(&number, 2) == 0;
    const int copy = digit(&number, 2) == 0;
    const size_t device = digit(&number, DEVICES);
    const size_t batteries = digit(&number, 2 + (1 << DEVICES));
    struct trace *const t = &c->trace;

    bench_of_kinds(&c->bench, way, DEVICES);
    bench_set_batteries(&c->bench, batteries);
    trace_event(t, RESET); /* no ROM command follows: all wait */
    trace_byte(t, 0x00);
    trace_bits(t, 0x5, 4);
    address_by_code(t, bench_see(&c->bench, device, 0), search);
    trace_byte(t, copy ? COPY_SCRATCHPAD : READ_MEMORY);
    if (copy)
        trace_bytes(t, bench_see(&c->bench, device, TA1), 3);
    else
        trace_address(t, 0x0010);
    slots_of_both_bits(t);
    trace_event(t, RESET);
    trace_byte(t, READ_ROM);
    trace_read(t, CODE_BITS + 8);
    return number == 0;
}

/* Groups of its own, and some that are the run's. */
static const struct {
    const char *name;
    int (*make)(struct run_case *, size_t);
    const char *of_the_run;
} groups[] = {
    { "looked_one_low", one_low, NULL },
    { "looked_sets_low", sets_low, NULL },
    { "looked_others_wait", others_wait, NULL },
    { "looked_pairs", NULL, "pairs" },
    { "looked_forks", NULL, "forks" },
    { "looked_counts", NULL, "counts" },
    { "looked_cuts", NULL, "cuts_ds1982" },
    { "looked_lengths", NULL, "lengths" },
    { "looked_limits", NULL, "limits" },
    { "looked_refusals", NULL, "refusals" },
    { "looked_refusals_in_pairs", NULL, "refusals_in_pairs" },
    { "looked_first_events", NULL, "first_events" },
    { "looked_short_traces", NULL, "short_traces" },
    { "looked_cuts_overdrive", NULL, "cuts_overdrive" },
    { "looked_cuts_side_by_side", NULL, "cuts_side_by_side" },
    { "looked_overdrive_pairs", NULL, "overdrive_pairs" },
    { "looked_overdrive_matches", NULL, "overdrive_matches" },
    { "looked_large_images", NULL, "large_images" },
};

static const char *looked_group(size_t group)
{
    return GROUP_NAME(groups, group);
}

static size_t group_of_the_run(const char *name)
{
    size_t group = 0;

    while (strcmp(run_small_group(group), name) != 0)
        group++;
    return group;
}

static int looked_small(void *state, size_t group, size_t number)
{
    struct run_case *const c = &((struct run_trial *)state)->now;

    if (!groups[group].make)
        return run_small_case(c, group_of_the_run(groups[group].of_the_run),
                              number);
    return run_case_of(c, groups[group].make, number);
}

/* ------------------------------------------------------------------ */

static void looked_generated(void *state, uint64_t seed, uint64_t number)
{
    run_generated_case(&((struct run_trial *)state)->now, seed + 5, ~number);
}

static void looked_summary(const void *state, FILE *out)
{
    run_trial_summary(out, "looked at", state);
}

const struct subject looked_subject = {
    .name = "looked",
    .create = looked_create,
    .group = looked_group,
    .small = looked_small,
    .generated = looked_generated,
    .differs = run_trial_differs,
    .explain = run_trial_explain,
    .summary = looked_summary,
};
