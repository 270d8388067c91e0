#include "session.h"

#include "second.h"

#include <string.h>

void session_start(struct session *s, struct dice *dice, struct run_case *c)
{
    s->dice = dice;
    s->trace = &c->trace;
    s->bench = &c->bench;
    s->pulses = bench_takes_pulses(&c->bench) || dice_once_in(dice, 40);
    s->overdrive = 0;
    s->start = 0;
    s->fast = s->lapse = SIZE_MAX;
    s->learned = 0;
    c->trace.length = 0;
}

void session_finish(struct session *s)
{
    struct trace *const t = s->trace;

    if (s->fast < t->length)
        trace_hurry(t, s->fast);
    if (s->lapse <= t->length && t->length < MOST_EVENTS)
        trace_cut(t, dice_once_in(s->dice, 2) ? ONE_THERE : ZERO_THERE,
                  s->lapse);
    s->fast = s->lapse = SIZE_MAX;
}

void session_speed_up(struct session *s)
{
    s->overdrive = 1;
    if (s->fast == SIZE_MAX)
        s->fast = s->trace->length;
}

void session_slow_down(struct session *s)
{
    s->overdrive = 0;
}

int session_reset(struct session *s)
{
    session_finish(s);
    if (s->trace->length == MOST_EVENTS)
        return 0;
    if (dice_once_in(s->dice, 6))
        session_slow_down(s);
    s->start = s->trace->length;
    trace_event(s->trace, s->overdrive ? OVERDRIVE_RESET : RESET);
    if (s->overdrive)
        s->fast = s->trace->length;
    return 1;
}

/*
 * The reset of the present transaction is run as well, for what a reset does
 * to a byte cut short.  A part ends with one at regular speed, which is again
 * the first event of the next part, where it does nothing.  A part that is
 * refused teaches nothing.
 */
const uint8_t *session_learn(struct session *s, size_t device)
{
    const size_t length = s->bench->length;
    uint64_t copied;

    if (s->learned == 0)
        memcpy(s->image, s->bench->bytes, length);
    memcpy(s->now, s->image, length);
    second_run(s->now, length, s->trace->events + s->learned,
               s->start + 1 - s->learned, s->answers, sizeof s->answers,
               &copied);
    if (s->trace->events[s->start] == RESET) {
        memcpy(s->image, s->now, length);
        s->learned = s->start;
    }
    return s->now + s->bench->bodies[device];
}

static uint64_t any(struct session *s)
{
    return dice_roll(s->dice);
}

static size_t below(struct session *s, size_t bound)
{
    return dice_below(s->dice, bound);
}

static int once_in(struct session *s, size_t times)
{
    return dice_once_in(s->dice, times);
}

static void send_any_bits(struct session *s, size_t count)
{
    for (size_t i = 0; i < count; i += 64)
        trace_bits(s->trace, any(s), count - i < 64 ? count - i : 64);
}

/* Slots in which the master mostly listens. */
static void listen(struct session *s, size_t slots)
{
    switch (below(s, 20)) {
    case 0:
        send_any_bits(s, slots);
        break;
    case 1:
        trace_repeat(s->trace, WRITE_ZERO, slots);
        break;
    default:
        trace_read(s->trace, slots);
    }
}

/* Slots to read from a field of so many bytes: few, to its end, or past it. */
static size_t some_slots(struct session *s, size_t bytes)
{
    switch (below(s, 12)) {
    case 0:
        return below(s, 8 * bytes + 40);
    case 1:
        return 8 * bytes + below(s, 40);
    case 2:
        return 0;
    default:
        return below(s, 80);
    }
}

/* An address in a field of so many bytes, or around it, or anywhere. */
static uint16_t some_address(struct session *s, size_t bytes)
{
    const size_t within = below(s, bytes);

    switch (below(s, 10)) {
    case 0:
        return (uint16_t)any(s);
    case 1:
        return (uint16_t)(bytes - 4 + below(s, 8));
    case 2:
        return (uint16_t)(within / PAGE_BYTES * PAGE_BYTES);
    case 3:
        return (uint16_t)(within | (PAGE_BYTES - 1));
    case 4: /* would be cut to one within */
        return (uint16_t)(within + bytes * below(s, 1000));
    default:
        return (uint16_t)within;
    }
}

/* ------------------------------------------------------------------ */
/* ROM commands                                                        */

/* A device's code, or any where there is no device. */
static void code_of(struct session *s, size_t device, uint8_t *code)
{
    if (s->bench->count == 0)
        code_write(code, kind_family(DS1992), any(s));
    else
        memcpy(code, bench_see(s->bench, device, 0), CODE_BYTES);
}

static void address_by_code(struct session *s, size_t device, int search)
{
    uint8_t code[CODE_BYTES];

    code_of(s, device, code);
    if (once_in(s, 12)) {
        const size_t bit = below(s, CODE_BITS);

        code[bit / 8] ^= (uint8_t)(1u << bit % 8);
    }
    if (search) {
        trace_byte(s->trace, SEARCH_ROM);
        trace_search_path(s->trace, code);
    } else {
        trace_byte(s->trace, MATCH_ROM);
        trace_bytes(s->trace, code, CODE_BYTES);
    }
}

static int has_overdrive(const struct session *s, size_t device)
{
    return s->bench->count > 0 && s->bench->kinds[device] == DS1996;
}

/* Brings DS1996 to overdrive, all or one, with a wrong code at times. */
static void overdrive_command(struct session *s, size_t device)
{
    uint8_t code[CODE_BYTES];

    if (once_in(s, 2)) {
        trace_byte(s->trace, OVERDRIVE_SKIP_ROM);
        session_speed_up(s);
        return;
    }
    code_of(s, device, code);
    if (once_in(s, 6))
        code[below(s, CODE_BYTES)] ^= (uint8_t)(1u << below(s, 8));
    trace_byte(s->trace, OVERDRIVE_MATCH_ROM);
    session_speed_up(s);
    trace_bytes(s->trace, code, CODE_BYTES);
}

static void rom_command(struct session *s, size_t device)
{
    if (once_in(s, has_overdrive(s, device) ? 3 : 60)) {
        overdrive_command(s, device);
        return;
    }
    switch (below(s, 16)) {
    case 0:
        trace_byte(s->trace, (uint8_t)any(s));
        send_any_bits(s, below(s, 80));
        break;
    case 1:
        trace_byte(s->trace, READ_ROM);
        listen(s, CODE_BITS);
        break;
    case 2:
        address_by_code(s, device, 1);
        break;
    case 3:
    case 4:
    case 5:
    case 6:
    case 7:
        address_by_code(s, device, 0);
        break;
    default:
        trace_byte(s->trace, SKIP_ROM);
    }
}

/* ------------------------------------------------------------------ */
/* Memory commands of a DS1992, DS1993 or DS1996                       */

/* 0 to 300 bits: whole bytes, to the end of the page, past it, or any. */
static size_t some_data_bits(struct session *s, uint16_t address)
{
    const size_t offset = address % PAGE_BYTES;
    const size_t to_the_end = 8 * (PAGE_BYTES - offset);

    switch (below(s, 8)) {
    case 0:
        return below(s, 301);
    case 1:
        return to_the_end;
    case 2:
        return to_the_end + below(s, 20);
    case 3:
        return below(s, 20);
    default:
        return 8 * below(s, 8);
    }
}

static void write_scratchpad(struct session *s, size_t size)
{
    const uint16_t address = some_address(s, size);

    trace_byte(s->trace, WRITE_SCRATCHPAD);
    trace_address(s->trace, address);
    send_any_bits(s, some_data_bits(s, address));
}

/*
 * The pattern of a copy: mostly the registers as they will be, else as they
 * were, with a flag or some bit changed, or anything.
 */
static void some_pattern(struct session *s, size_t device, uint8_t *pattern)
{
    memcpy(pattern, session_learn(s, device) + TA1, 3);
    switch (below(s, 12)) {
    case 0:
        memcpy(pattern, bench_see(s->bench, device, TA1), 3);
        break;
    case 1:
        pattern[2] ^= 0x80; /* as before the last copy, or after one */
        break;
    case 2:
        pattern[2] &= 0x1F;
        break;
    case 3:
        pattern[below(s, 3)] ^= (uint8_t)(1u << below(s, 8));
        break;
    case 4:
        dice_fill(s->dice, pattern, 3);
        break;
    default:
        break;
    }
}

static void copy_scratchpad(struct session *s, size_t device)
{
    uint8_t pattern[3];

    some_pattern(s, device, pattern);
    trace_byte(s->trace, COPY_SCRATCHPAD);
    trace_bytes(s->trace, pattern, 3);
    listen(s, below(s, 40));
}

static void use_sram(struct session *s, size_t device)
{
    const size_t size = kind_memory_bytes(s->bench->kinds[device]);

    switch (below(s, 8)) {
    case 0:
        trace_byte(s->trace, READ_SCRATCHPAD);
        listen(s, some_slots(s, 3 + PAGE_BYTES));
        break;
    case 1:
        trace_byte(s->trace, READ_MEMORY);
        trace_address(s->trace, some_address(s, size));
        listen(s, some_slots(s, size));
        break;
    case 2:
    case 3:
    case 4:
        copy_scratchpad(s, device);
        break;
    default:
        write_scratchpad(s, size);
    }
}

/* ------------------------------------------------------------------ */
/* Memory commands of a DS1982                                         */

static void send_pulse(struct session *s)
{
    if (s->pulses)
        trace_event(s->trace, PULSE);
}

/* One pass of a write: at times its pulse is missing, early, or doubled. */
static void program_pass(struct session *s)
{
    const size_t fate = below(s, 40);

    trace_byte(s->trace, once_in(s, 8) ? 0x00 : (uint8_t)any(s));
    if (fate == 0)
        send_pulse(s);
    listen(s, fate == 1 ? below(s, 12) : 8);
    if (fate != 2)
        send_pulse(s);
    if (fate == 3)
        send_pulse(s);
    listen(s, fate == 4 ? below(s, 12) : 8);
}

static void program(struct session *s, uint8_t command)
{
    const size_t size = command == WRITE_DATA ? DATA_BYTES : STATUS_BYTES;
    const size_t most = once_in(s, 10) ? size + 2 : 5;
    const size_t passes = below(s, most + 1);

    trace_byte(s->trace, command);
    trace_address(s->trace, some_address(s, size));
    for (size_t i = 0; i < passes; i++)
        program_pass(s);
    send_any_bits(s, below(s, 9));
}

static void read_eprom(struct session *s, uint8_t command)
{
    const size_t size = command == READ_STATUS ? STATUS_BYTES : DATA_BYTES;
    const size_t crcs = command == READ_DATA_BY_PAGE ? 5 : 2;

    trace_byte(s->trace, command);
    trace_address(s->trace, some_address(s, size));
    listen(s, some_slots(s, size + crcs));
}

static void use_eprom(struct session *s)
{
    static const uint8_t reads[] = { READ_DATA, READ_STATUS,
                                     READ_DATA_BY_PAGE };

    switch (below(s, 8)) {
    case 0:
    case 1:
    case 2:
        read_eprom(s, reads[below(s, sizeof reads)]);
        break;
    case 3:
    case 4:
        program(s, WRITE_STATUS);
        break;
    default:
        program(s, WRITE_DATA);
    }
}

/* ------------------------------------------------------------------ */
/* Transactions                                                        */

/* Any command, and anything after it. */
static void use_anything(struct session *s)
{
    trace_byte(s->trace, (uint8_t)any(s));
    if (once_in(s, 2))
        send_any_bits(s, below(s, 100));
    else
        listen(s, below(s, 100));
}

static void memory_command(struct session *s, size_t device)
{
    if (s->bench->count == 0 || once_in(s, 16))
        use_anything(s);
    else if (s->bench->kinds[device] == DS1982)
        use_eprom(s);
    else
        use_sram(s, device);
}

/* At times a transaction is cut anywhere, or not all of it is at overdrive. */
static void spoil_transaction(struct session *s)
{
    const size_t events = s->trace->length - s->start;

    if (once_in(s, 8))
        s->trace->length = s->start + 1 + below(s, events);
    if (s->fast != SIZE_MAX && once_in(s, 20))
        s->fast += below(s, 80);
    if (s->fast < s->trace->length && once_in(s, 8))
        s->lapse = once_in(s, 2) ? s->trace->length
                                 : s->fast + below(s, events);
}

void session_transaction(struct session *s, size_t device)
{
    if (!has_overdrive(s, device) && !once_in(s, 4))
        session_slow_down(s);
    if (!session_reset(s))
        return;
    rom_command(s, device);
    memory_command(s, device);
    spoil_transaction(s);
}

size_t session_device(struct session *s, size_t favourite)
{
    return s->bench->count == 0 || once_in(s, 2) ? favourite
                                                 : below(s, s->bench->count);
}

static size_t some_transactions(struct session *s)
{
    if (once_in(s, 400))
        return 10000; /* more than a trace can hold */
    return once_in(s, 20) ? below(s, 60) : below(s, 14);
}

static void transactions(struct session *s)
{
    const size_t favourite = s->bench->count ? below(s, s->bench->count) : 0;
    const size_t count = some_transactions(s);

    if (once_in(s, 100)) /* begins within a transaction: is refused */
        send_any_bits(s, below(s, 40));
    for (size_t i = 0; i < count && s->trace->length < MOST_EVENTS; i++)
        session_transaction(s, session_device(s, favourite));
}

/* The whole search of a master. */
static void search_all(struct session *s)
{
    uint8_t codes[MOST_DEVICES * CODE_BYTES];
    uint64_t passes, resets, slots;

    if (second_search(s->bench->bytes, s->bench->length, codes, sizeof codes,
                      s->answers, sizeof s->answers, &passes, &resets, &slots)
        == 0)
        trace_events(s->trace, s->answers, (size_t)(resets + slots));
}

void session_disturb(struct session *s)
{
    struct trace *const t = s->trace;
    const size_t place = below(s, t->length + 1);
    uint8_t event = (uint8_t)below(s, NO_EVENT);

    if (event == PULSE && !s->pulses)
        event = RESET;
    if (place == t->length || once_in(s, 2)) {
        if (t->length == MOST_EVENTS)
            return;
        memmove(t->events + place + 1, t->events + place, t->length - place);
        t->length++;
    }
    t->events[place] = event;
}

void some_session(struct dice *dice, struct run_case *c)
{
    struct session s;

    session_start(&s, dice, c);
    if (dice_once_in(dice, 100))
        search_all(&s);
    transactions(&s);
    session_finish(&s);
    if (dice_once_in(dice, 8))
        for (size_t i = dice_below(dice, 6); i > 0; i--)
            session_disturb(&s);
}
