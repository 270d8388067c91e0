#include "workload.h"

#include "dice.h"

/* ------------------------------------------------------------------ */
/* Kinds                                                               */

const size_t many_devices[SIZES] = { 1, 8, 64 };
const size_t few_devices[SIZES] = { 1, 7 }; /* eight DS1996 are too many */

/* Those of which 64 fit an image. */
static void small_kinds(enum kind *kinds, size_t count)
{
    static const enum kind small[] = { DS1992, DS1993, DS1982 };

    for (size_t i = 0; i < count; i++)
        kinds[i] = small[i % 3];
}

static void ds1993_only(enum kind *kinds, size_t count)
{
    for (size_t i = 0; i < count; i++)
        kinds[i] = DS1993;
}

static void ds1996_only(enum kind *kinds, size_t count)
{
    for (size_t i = 0; i < count; i++)
        kinds[i] = DS1996;
}

static void ds1982_only(enum kind *kinds, size_t count)
{
    for (size_t i = 0; i < count; i++)
        kinds[i] = DS1982;
}

/* ------------------------------------------------------------------ */
/* Mixed sessions                                                      */

static int is_full(const struct trace *t)
{
    return t->length == MOST_EVENTS;
}

static void read_from(struct trace *t, uint8_t command, size_t address,
                      size_t bytes)
{
    trace_byte(t, command);
    trace_address(t, (uint16_t)address);
    trace_read(t, 8 * bytes);
}

/* Sessions being written on a bench. */
struct sessions {
    struct dice dice;
    struct trace *trace;
    const struct bench *bench;
    int alone; /* whether a device is always come to by its code */
};

/* Skip ROM, or Match ROM of a device. */
static void address_device(struct sessions *s, size_t device)
{
    if (!s->alone && dice_once_in(&s->dice, 2))
        trace_skip(s->trace);
    else
        trace_match(s->trace, bench_see(s->bench, device, 0));
}

/* Eight bytes written, read back and copied, then memory read. */
static void use_sram(struct sessions *s, size_t device)
{
    enum { BYTES = 8 };
    const size_t size = kind_memory_bytes(s->bench->kinds[device]);
    const size_t target = dice_below(&s->dice, size / BYTES) * BYTES;
    const uint8_t ending = (uint8_t)(target % PAGE_BYTES + BYTES - 1);
    struct trace *const t = s->trace;

    address_device(s, device);
    trace_byte(t, WRITE_SCRATCHPAD);
    trace_address(t, (uint16_t)target);
    trace_bits(t, dice_roll(&s->dice), 8 * BYTES);
    address_device(s, device);
    trace_byte(t, READ_SCRATCHPAD);
    trace_read(t, 8 * (3 + BYTES));
    address_device(s, device);
    trace_byte(t, COPY_SCRATCHPAD);
    trace_address(t, (uint16_t)target);
    trace_byte(t, ending);
    trace_read(t, 8);
    address_device(s, device);
    read_from(t, READ_MEMORY, target, 2 * BYTES);
}

/* Two bytes written, with their pulses where the bench takes them. */
static void program(struct sessions *s, uint8_t command)
{
    struct trace *const t = s->trace;

    trace_byte(t, command);
    trace_address(t, (uint16_t)dice_below(&s->dice, DATA_BYTES));
    for (int i = 0; i < 2; i++) {
        trace_byte(t, (uint8_t)dice_roll(&s->dice));
        trace_read(t, 8);
        if (bench_takes_pulses(s->bench))
            trace_event(t, PULSE);
        trace_read(t, 8);
    }
}

/* Each command of a DS1982. */
static void use_eprom(struct sessions *s, size_t device)
{
    const size_t address = dice_below(&s->dice, DATA_BYTES - PAGE_BYTES);
    struct trace *const t = s->trace;

    address_device(s, device);
    program(s, WRITE_DATA);
    address_device(s, device);
    program(s, WRITE_STATUS);
    address_device(s, device);
    read_from(t, READ_DATA, address, 16);
    address_device(s, device);
    read_from(t, READ_STATUS, 0, 1 + STATUS_BYTES + 1);
    address_device(s, device);
    read_from(t, READ_DATA_BY_PAGE, address, 1 + PAGE_BYTES);
}

static void write_sessions(struct trace *t, const struct bench *b, int alone)
{
    struct sessions s = { dice_for(1, b->count), t, b, alone };

    while (!is_full(t)) {
        const size_t device = dice_below(&s.dice, b->count);

        if (b->kinds[device] == DS1982)
            use_eprom(&s, device);
        else
            use_sram(&s, device);
    }
}

static void mixed_sessions(struct trace *t, const struct bench *b)
{
    write_sessions(t, b, 0);
}

/* No command goes to several devices, and what is copied was read back. */
static void careful_sessions(struct trace *t, const struct bench *b)
{
    write_sessions(t, b, 1);
}

/* All DS1996 are brought to overdrive, and stay there. */
static void at_overdrive(void (*session)(struct trace *, const struct bench *),
                         struct trace *t, const struct bench *b)
{
    size_t from;

    trace_overdrive_skip(t);
    from = t->length;
    session(t, b);
    trace_hurry(t, from);
}

static void mixed_at_overdrive(struct trace *t, const struct bench *b)
{
    at_overdrive(mixed_sessions, t, b);
}

static void careful_at_overdrive(struct trace *t, const struct bench *b)
{
    at_overdrive(careful_sessions, t, b);
}

/* ------------------------------------------------------------------ */
/* All send, or all but one wait                                       */

/* Skip ROM, and all memory read, again and again. */
static void all_send(struct trace *t, const struct bench *b)
{
    while (!is_full(t)) {
        trace_skip(t);
        read_from(t, READ_MEMORY, 0, kind_memory_bytes(b->kinds[0]));
    }
}

/* Match ROM of one device, and all its memory read, again and again. */
static void all_but_one_wait(struct trace *t, const struct bench *b)
{
    while (!is_full(t)) {
        trace_match(t, bench_see(b, b->count / 2, 0));
        read_from(t, READ_MEMORY, 0, kind_memory_bytes(b->kinds[0]));
    }
}

static void all_send_at_overdrive(struct trace *t, const struct bench *b)
{
    at_overdrive(all_send, t, b);
}

/* ------------------------------------------------------------------ */

const struct workload workloads[] = {
    { "mixed sessions, small kinds", RUN, many_devices, small_kinds,
      mixed_sessions },
    { "mixed sessions, DS1982", RUN, many_devices, ds1982_only,
      mixed_sessions },
    { "all send, DS1993", RUN, many_devices, ds1993_only, all_send },
    { "all send, DS1982", RUN, many_devices, ds1982_only, all_send },
    { "all but one wait, DS1993", RUN, many_devices, ds1993_only,
      all_but_one_wait },
    { "all but one wait, DS1982", RUN, many_devices, ds1982_only,
      all_but_one_wait },
    { "search, small kinds", SEARCH, many_devices, small_kinds, NULL },
    { "mixed sessions, DS1996", RUN, few_devices, ds1996_only,
      mixed_sessions },
    { "the same at overdrive", RUN, few_devices, ds1996_only,
      mixed_at_overdrive },
    { "all send, DS1996", RUN, few_devices, ds1996_only, all_send },
    { "the same at overdrive", RUN, few_devices, ds1996_only,
      all_send_at_overdrive },
    { "all but one wait, DS1996", RUN, few_devices, ds1996_only,
      all_but_one_wait },
    { "search, DS1996", SEARCH, few_devices, ds1996_only, NULL },
    { "careful, small kinds", RUN, many_devices, small_kinds,
      careful_sessions },
    { "the same judged", JUDGE, many_devices, small_kinds, careful_sessions },
    { "careful at overdrive, DS1996", RUN, few_devices, ds1996_only,
      careful_at_overdrive },
    { "the same judged", JUDGE, few_devices, ds1996_only,
      careful_at_overdrive },
    { NULL, RUN, NULL, NULL, NULL },
};

/* Fresh EPROMs: with bytes of any value most sessions would program nothing. */
static void erase_eproms(struct bench *b)
{
    for (size_t i = 0; i < b->count; i++)
        if (b->kinds[i] == DS1982)
            for (size_t k = STATUS; k < kind_body_bytes(DS1982); k++)
                *bench_at(b, i, k) = 0xFF;
}

void workload_make(const struct workload *w, size_t devices, size_t events,
                   struct bench *b, struct trace *t)
{
    enum kind kinds[MOST_DEVICES];

    w->kinds(kinds, devices);
    bench_make(b, kinds, devices, devices);
    erase_eproms(b);
    t->length = 0;
    if (!w->session)
        return;
    w->session(t, b);
    t->length = events;
}
