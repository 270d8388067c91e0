#include "run_overdrive.h"

#include "large_bench.h"
#include "trace.h"

/* ------------------------------------------------------------------ */
/* ROM commands                                                        */

/* What can follow a ROM command before the memory command. */
static void after_rom_command(struct trace *t, const uint8_t *code, size_t way)
{
    switch (way) {
    case 0:
        break;
    case 1:
        trace_bytes(t, code, CODE_BYTES);
        break;
    case 2:
        trace_read(t, CODE_BITS);
        break;
    default:
        trace_search_path(t, code);
    }
}

/* Turns what comes from a place on into overdrive, if it is to be. */
static size_t hurry_if(struct trace *t, size_t from, int overdrive)
{
    if (overdrive)
        trace_hurry(t, from);
    return t->length;
}

/* A short reset, and the code of those that hear it. */
static void show_who_hears(struct trace *t)
{
    const size_t from = t->length;

    trace_event(t, RESET);
    trace_byte(t, READ_ROM);
    trace_read(t, CODE_BITS);
    trace_hurry(t, from);
}

/*
 * Every ROM command byte on each kind, good and flat: the command, what comes
 * after it and the memory command at either speed.
 */
int overdrive_commands(struct run_case *c, size_t number)
{
    const enum kind kind = (enum kind)digit(&number, KINDS);
    const size_t batteries = digit(&number, BATTERIES_OF_ONE);
    const size_t speeds = digit(&number, 8);
    const size_t way = digit(&number, 4);
    const uint8_t command = (uint8_t)digit(&number, 256);
    struct trace *const t = &c->trace;
    size_t from;

    bench_of_one_with(c, kind, batteries);
    if (speeds & 1)
        trace_overdrive_skip(t);
    from = t->length;
    trace_event(t, RESET);
    trace_byte(t, command);
    from = hurry_if(t, from, speeds & 1);
    after_rom_command(t, bench_see(&c->bench, 0, 0), way);
    from = hurry_if(t, from, speeds & 2);
    trace_byte(t, READ_MEMORY);
    trace_address(t, 0x0000);
    trace_read(t, 24);
    hurry_if(t, from, speeds & 4);
    show_who_hears(t);
    return number == 0;
}

/* ------------------------------------------------------------------ */
/* Overdrive Match ROM                                                 */

/* So many bits of a code in which one bit may be wrong. */
static void send_code(struct trace *t, const uint8_t *code, size_t wrong,
                      size_t count)
{
    for (size_t i = 0; i < count; i++)
        trace_bits(t, (code[i / 8] >> i % 8 & 1) ^ (i == wrong), 1);
}

static void read_at_overdrive(struct trace *t)
{
    const size_t from = t->length;

    trace_byte(t, READ_MEMORY);
    trace_address(t, 0x0010);
    trace_read(t, 24);
    trace_hurry(t, from);
}

/* What can follow a match that is whole, or cut. */
static void after_match(struct trace *t, size_t way)
{
    switch (way) {
    case 0:
        break;
    case 1:
        read_at_overdrive(t);
        break;
    case 2: /* loses those that are at overdrive */
        trace_event(t, WRITE_ONE);
        break;
    default:
        trace_event(t, RESET);
        trace_byte(t, READ_ROM);
        trace_read(t, CODE_BITS);
    }
    show_who_hears(t);
}

/*
 * A match from either speed that fails at every bit, or at none: cut before
 * that bit, after it, or whole.  One device, or one beside it.
 */
int overdrive_matches(struct run_case *c, size_t number)
{
    static const enum kind kinds[] = { DS1996, DS1996 };
    const size_t count = 1 + digit(&number, 2);
    const int before = digit(&number, 2) == 1;
    const size_t batteries = digit(&number, BATTERIES_OF_ONE);
    const size_t way = digit(&number, 4);
    const size_t wrong = digit(&number, CODE_BITS + 1);
    const size_t cut = digit(&number, 3);
    const size_t bits = cut == 2 || wrong == CODE_BITS ? CODE_BITS
                                                       : wrong + cut;
    struct trace *const t = &c->trace;
    size_t from;

    bench_of(c, kinds, count);
    bench_set_batteries(&c->bench, batteries);
    if (before)
        trace_overdrive_skip(t);
    from = t->length;
    trace_event(t, RESET);
    trace_byte(t, OVERDRIVE_MATCH_ROM);
    from = hurry_if(t, from, before);
    send_code(t, bench_see(&c->bench, 0, 0), wrong, bits);
    trace_hurry(t, from);
    after_match(t, way);
    return number == 0;
}

/* ------------------------------------------------------------------ */
/* Two devices                                                         */

/* Ways to come to the memory command at overdrive. */
static void come_to_memory(struct trace *t, const struct bench *b, size_t way)
{
    size_t from;

    switch (way) {
    case 0:
        trace_overdrive_skip(t);
        break;
    case 1:
        trace_overdrive_match(t, bench_see(b, 0, 0));
        break;
    default:
        trace_overdrive_skip(t);
        from = t->length;
        if (way == 2)
            trace_skip(t);
        else
            trace_match(t, bench_see(b, 1, 0));
        trace_hurry(t, from);
    }
}

/* What can follow a memory command. */
static void after_memory_command(struct run_case *c, size_t way)
{
    struct trace *const t = &c->trace;

    switch (way) {
    case 0:
        trace_read(t, 300);
        break;
    case 1:
        trace_address(t, 0x001F);
        trace_bits(t, 0x3C5AC3, 27);
        break;
    case 2:
        trace_bytes(t, bench_see(&c->bench, 0, TA1), 3);
        trace_read(t, 16);
        break;
    default:
        trace_address(t, 0x007E);
        trace_read(t, 64);
    }
}

/* Ways to end a transaction at overdrive. */
enum { ENDS = 6 };

static void end_transaction(struct trace *t, size_t way)
{
    static const enum event events[ENDS][2] = {
        { OVERDRIVE_RESET, OVERDRIVE_RESET }, { RESET, RESET },
        { WRITE_ZERO, OVERDRIVE_RESET },      { WRITE_ONE, RESET },
        { OVERDRIVE_ZERO, WRITE_ZERO },       { RESET, OVERDRIVE_RESET }
    };

    trace_event(t, events[way][0]);
    trace_event(t, events[way][1]);
}

/* Every pair of kinds at overdrive, with the memory commands and others. */
int overdrive_pairs(struct run_case *c, size_t number)
{
    static const uint8_t commands[] = { 0x0F, 0x55, 0xAA, 0xF0,
                                        0xC3, 0x3C, 0x69, 0xFF };
    const enum kind kinds[] = { (enum kind)digit(&number, KINDS),
                                (enum kind)digit(&number, KINDS) };
    const size_t batteries = digit(&number, 5);
    const size_t come = digit(&number, 4);
    const uint8_t command = commands[digit(&number, sizeof commands)];
    const size_t after = digit(&number, 4);
    const size_t end = digit(&number, ENDS);
    struct trace *const t = &c->trace;
    size_t from;

    bench_of(c, kinds, 2);
    bench_set_batteries(&c->bench, batteries);
    come_to_memory(t, &c->bench, come);
    from = t->length;
    trace_byte(t, command);
    after_memory_command(c, after);
    trace_hurry(t, from);
    end_transaction(t, end);
    trace_read(t, 12);
    return number == 0;
}

/* Data bits at overdrive from every offset, ended in every way. */
int overdrive_bits(struct run_case *c, size_t number)
{
    const size_t offset = digit(&number, PAGE_BYTES);
    const size_t end = digit(&number, ENDS + 1);
    const size_t count = digit(&number, 41);
    struct trace *const t = &c->trace;
    size_t from;

    bench_of_one_with(c, DS1996, 0);
    trace_overdrive_skip(t);
    from = t->length;
    trace_byte(t, WRITE_SCRATCHPAD);
    trace_address(t, (uint16_t)(0x1FC0 + offset));
    trace_bits(t, 0x5AC396A50FE1, count);
    trace_hurry(t, from);
    if (end < ENDS)
        end_transaction(t, end);
    return number == 0;
}

/* ------------------------------------------------------------------ */

/* Images about as long as they can be, and devices at their very end. */
int large_images(struct run_case *c, size_t number)
{
    const size_t batteries = digit(&number, 2) * 0xB5A3;
    const int reversed = digit(&number, 2) == 1;
    const int unknown = digit(&number, 2) == 1;
    const size_t which = digit(&number, LARGE_BENCHES);
    const int accepted = large_bench(&c->bench, which, reversed);
    const size_t last = c->bench.count - 1;

    bench_set_batteries(&c->bench, batteries);
    trace_match(&c->trace, bench_see(&c->bench, last, 0));
    trace_byte(&c->trace, READ_MEMORY);
    trace_address(&c->trace, 0x0070);
    trace_read(&c->trace, 40);
    trace_skip(&c->trace);
    trace_byte(&c->trace, WRITE_SCRATCHPAD);
    trace_address(&c->trace, 0x1234);
    trace_bits(&c->trace, 0x123456, 24);
    if (unknown)
        c->bench.bytes[EDITION] = 3;
    c->expected = unknown ? 1 : accepted ? 0 : 2;
    return number == 0;
}
