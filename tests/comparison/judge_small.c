/*
 * The small cases of the judge, in groups that are gone through whole: careful
 * sessions with one thing amiss, whose verdict is known, and others.
 */
#include "judge.h"

#include "careful.h"
#include "judge_damage.h"
#include "room.h"

#include <string.h>

/* ------------------------------------------------------------------ */
/* Scenes: a device, perhaps a neighbour, and what is written          */

/*
 * A session being written, and its verdict.  The device's registers and
 * scratchpad are from the start as if the update had been written, so that a
 * copy is accepted without any write.
 */
struct scene {
    struct judge_case *c;
    struct trace *trace;
    struct bench *bench;
    struct update update;
    enum addressing way;
    size_t neighbour; /* the only device, where there is none */
    unsigned rule;
    size_t event;
};

static const struct {
    uint16_t target;
    size_t bits;
} shapes[] = {
    { 0x0026, 16 },  { 0x0026, 11 }, { 0x0026, 0 },  { 0x003C, 40 },
    { 0x0060, 256 }, { 0x007F, 8 },  { 0x0085, 24 }, { 0x01FE, 16 },
    { 0x0200, 16 },  { 0xFFE0, 9 },  { 0x1FFE, 17 },
};

/* Kinds of the device, and how it is come to. */
static const struct {
    enum kind kind;
    enum addressing way;
} settings[] = {
    { DS1992, BY_MATCH },           { DS1993, BY_MATCH },
    { DS1996, BY_MATCH },           { DS1996, BY_OVERDRIVE_MATCH },
    { DS1996, BY_SHORT_MATCH },     { DS1992, BY_SEARCH },
    { DS1996, BY_SEARCH },
};

enum {
    SHAPES = sizeof shapes / sizeof *shapes,
    ALL_SETTINGS = sizeof settings / sizeof *settings,
    SETTINGS = 5, /* without searches */
    NEIGHBOURS = 1 + 2 * KINDS, /* none, or of a kind before or after it */
    BATTERIES = 3 /* edition 1, edition 2 all good, the neighbour flat */
};

static void set_scene(struct scene *s, struct judge_case *c, size_t setting,
                      size_t neighbour, size_t shape)
{
    const enum kind kind = settings[setting].kind;
    const enum kind other = (enum kind)((neighbour - 1) % KINDS);
    const int first = neighbour > KINDS;
    const enum kind kinds[] = { first ? other : kind, first ? kind : other };

    *s = (struct scene){ .c = c,
                         .trace = &c->run.trace,
                         .bench = &c->run.bench,
                         .update = { first ? 1 : 0, shapes[shape].target,
                                     shapes[shape].bits, shape },
                         .way = settings[setting].way,
                         .neighbour = neighbour == 0 ? 0 : first ? 0 : 1 };
    bench_make(s->bench, kinds, neighbour == 0 ? 1 : 2, neighbour);
    update_preset(s->bench, &s->update);
}

static void set_batteries(struct scene *s, size_t batteries)
{
    if (batteries > 0)
        bench_to_edition_2(s->bench);
    if (batteries > 1 && s->bench->count > 1)
        bench_flatten(s->bench, s->neighbour);
}

/* Records the session as it stands, with the verdict to be expected. */
static void finish_scene(struct scene *s)
{
    judge_record(s->c);
    judge_expect(s->c, s->rule, s->event);
}

static void breaks(struct scene *s, unsigned rule, size_t event)
{
    s->rule = rule;
    s->event = event;
}

/* Whether the neighbour comes to the memory command with the device. */
static int is_shared(const struct scene *s)
{
    return s->bench->count > 1 && !s->bench->flat[s->neighbour]
           && (!is_fast(s->way) || s->bench->kinds[s->neighbour] == DS1996);
}

/* Registers after the write, and with flags set or a target moved since. */
static void registers_now(const struct scene *s, uint16_t target,
                          uint8_t flags, uint8_t *registers)
{
    update_registers(&s->update, registers);
    registers[0] = (uint8_t)target;
    registers[1] = (uint8_t)(target >> 8);
    registers[2] |= flags;
}

static void write(struct scene *s)
{
    careful_write(s->trace, s->bench, &s->update, s->way);
}

static void read_slots(struct scene *s, size_t slots)
{
    careful_read(s->trace, s->bench, s->update.device, s->way, slots);
}

static size_t slots_needed(const struct scene *s)
{
    uint8_t registers[3];

    update_registers(&s->update, registers);
    return slots_to_show(registers);
}

static void read_back(struct scene *s)
{
    read_slots(s, slots_needed(s));
}

static void move(struct scene *s, uint16_t target)
{
    careful_move(s->trace, s->bench, s->update.device, s->way, target);
}

static size_t copy_with(struct scene *s, uint16_t target, uint8_t flags)
{
    uint8_t pattern[3];

    registers_now(s, target, flags, pattern);
    return careful_copy(s->trace, s->bench, s->update.device, s->way, pattern);
}

static size_t copy(struct scene *s)
{
    return copy_with(s, s->update.target, 0x00);
}

static void copy_that_breaks(struct scene *s)
{
    breaks(s, RULE_C, copy(s));
}

/* ------------------------------------------------------------------ */
/* Sessions: careful, or with one thing amiss                          */

enum { AUTHORIZED = 0x80 };

static void careful(struct scene *s)
{
    write(s);
    read_back(s);
    copy(s);
}

static void no_write(struct scene *s)
{
    read_back(s);
    copy_that_breaks(s);
}

static void no_read(struct scene *s)
{
    write(s);
    copy_that_breaks(s);
}

static void neither(struct scene *s)
{
    copy_that_breaks(s);
}

static void read_before_the_write(struct scene *s)
{
    read_back(s);
    write(s);
    copy_that_breaks(s);
}

static void read_between_two_writes(struct scene *s)
{
    write(s);
    read_back(s);
    write(s);
    copy_that_breaks(s);
}

static void read_after_two_writes(struct scene *s)
{
    write(s);
    write(s);
    read_back(s);
    copy(s);
}

static void second_copy(struct scene *s)
{
    careful(s);
    breaks(s, RULE_C, copy_with(s, s->update.target, AUTHORIZED));
}

static void second_copy_read_back(struct scene *s)
{
    careful(s);
    read_back(s);
    copy_with(s, s->update.target, AUTHORIZED);
}

static void second_write_and_copy(struct scene *s)
{
    careful(s);
    write(s);
    copy_that_breaks(s);
}

/* AA is clear: the pattern does not match, and the copy is not accepted. */
static void wrong_pattern(struct scene *s)
{
    write(s);
    copy_with(s, s->update.target, AUTHORIZED);
}

/* Elsewhere, at another offset of the scratchpad. */
static uint16_t elsewhere(const struct scene *s)
{
    return s->update.target ^ 0x0041;
}

static void moved(struct scene *s)
{
    write(s);
    read_back(s);
    move(s, elsewhere(s));
    breaks(s, RULE_C, copy_with(s, elsewhere(s), 0x00));
}

static void moved_and_back(struct scene *s)
{
    write(s);
    read_back(s);
    move(s, elsewhere(s));
    move(s, s->update.target);
    copy(s);
}

static void moved_for_the_read(struct scene *s)
{
    write(s);
    move(s, elsewhere(s));
    read_slots(s, 8 * (3 + PAGE_BYTES));
    move(s, s->update.target);
    copy_that_breaks(s);
}

static void moved_before_the_read(struct scene *s)
{
    write(s);
    move(s, elsewhere(s));
    read_slots(s, 8 * (3 + PAGE_BYTES));
    copy_with(s, elsewhere(s), 0x00);
}

/* Reads that show too little, before a good one and after it. */
static void poor_reads_around(struct scene *s)
{
    write(s);
    read_slots(s, 20);
    read_back(s);
    read_slots(s, 0);
    read_slots(s, 23);
    copy(s);
}

static void write_cut_after_the_read(struct scene *s)
{
    write(s);
    read_back(s);
    write(s);
    s->trace->length -= s->update.bits + 1;
    copy(s);
}

static void neighbour_read(struct scene *s)
{
    write(s);
    careful_read(s->trace, s->bench, s->neighbour,
                 s->bench->count > 1 ? BY_MATCH : BY_SKIP, slots_needed(s));
    if (s->bench->count > 1)
        copy_that_breaks(s);
    else
        copy(s);
}

/* The neighbour would show just what the device would have. */
static void neighbour_alike_read(struct scene *s)
{
    if (s->bench->kinds[s->neighbour] != DS1982)
        memcpy(bench_at(s->bench, s->neighbour, TA1),
               bench_see(s->bench, s->update.device, TA1), 3 + PAGE_BYTES);
    neighbour_read(s);
}

static void neighbour_written(struct scene *s)
{
    struct update other = s->update;

    other.device = s->neighbour;
    write(s);
    read_back(s);
    careful_write(s->trace, s->bench, &other, BY_MATCH);
    if (s->bench->count > 1)
        copy(s);
    else
        copy_that_breaks(s);
}

static void shared_write(struct scene *s)
{
    size_t last;

    careful_write(s->trace, s->bench, &s->update, with_all(s->way));
    last = s->trace->length - 1;
    read_back(s);
    copy(s);
    if (is_shared(s))
        breaks(s, RULE_B, last - 16 - s->update.bits);
}

static void shared_copy(struct scene *s)
{
    size_t last;

    write(s);
    read_back(s);
    s->way = with_all(s->way);
    last = copy(s);
    if (is_shared(s))
        breaks(s, RULE_B, last - 24);
}

/* What two devices show at once need not be what one would have shown. */
static void shared_read(struct scene *s)
{
    write(s);
    careful_read(s->trace, s->bench, s->update.device, with_all(s->way),
                 slots_needed(s));
    copy(s);
    if (is_shared(s))
        breaks(s, ANY_RULE, 0);
}

/* The read of another memory command shows nothing of the scratchpad. */
static void memory_read_instead(struct scene *s)
{
    size_t from;

    write(s);
    move(s, s->update.target);
    from = s->trace->length;
    trace_read(s->trace, slots_needed(s));
    if (is_fast(s->way))
        trace_hurry(s->trace, from);
    copy_that_breaks(s);
}

static void (*const scenes[])(struct scene *) = {
    careful,
    no_write,
    no_read,
    neither,
    read_before_the_write,
    read_between_two_writes,
    read_after_two_writes,
    second_copy,
    second_copy_read_back,
    second_write_and_copy,
    wrong_pattern,
    moved,
    moved_and_back,
    moved_for_the_read,
    moved_before_the_read,
    poor_reads_around,
    write_cut_after_the_read,
    neighbour_read,
    neighbour_alike_read,
    neighbour_written,
    shared_write,
    shared_copy,
    shared_read,
    memory_read_instead,
};

enum { SCENES = sizeof scenes / sizeof *scenes };

/* Each of them, with every neighbour, battery and way to come to a device. */
static int sessions(struct judge_case *c, size_t number)
{
    const size_t which = digit(&number, SCENES);
    const size_t setting = digit(&number, ALL_SETTINGS);
    const size_t neighbour = digit(&number, NEIGHBOURS);
    const size_t shape = digit(&number, SHAPES);
    const size_t batteries = digit(&number, BATTERIES);
    struct scene s;

    set_scene(&s, c, setting, neighbour, shape);
    set_batteries(&s, batteries);
    scenes[which](&s);
    finish_scene(&s);
    return number == 0;
}

/* ------------------------------------------------------------------ */
/* Reads and writes cut, reads disturbed                               */

enum { MOST_SLOTS = 8 * (3 + PAGE_BYTES) + 8 };

/* A read of so many slots, without a good one, after one, or before one. */
static int read_cuts(struct judge_case *c, size_t number)
{
    const size_t setting = digit(&number, SETTINGS);
    const size_t shape = digit(&number, SHAPES);
    const size_t good = digit(&number, 3);
    const size_t slots = digit(&number, MOST_SLOTS + 1);
    struct scene s;

    set_scene(&s, c, setting, 0, shape);
    write(&s);
    if (good == 1)
        read_back(&s);
    read_slots(&s, slots);
    if (good == 2)
        read_back(&s);
    if (good || slots >= slots_needed(&s))
        copy(&s);
    else
        copy_that_breaks(&s);
    finish_scene(&s);
    return number == 0;
}

/* A bit of what a read shows to a device that is as preset. */
static unsigned shown_bit(const struct scene *s, size_t slot)
{
    const uint8_t *const body = bench_see(s->bench, s->update.device, 0);
    const size_t first = body[TA1] % PAGE_BYTES;
    const size_t byte = slot < 24 ? TA1 + slot / 8
                                  : SCRATCHPAD + first + slot / 8 - 3;

    return body[byte] >> slot % 8 & 1;
}

/* The master sends 0 in a slot, at the speed of that. */
static void send_zero(struct scene *s, size_t event)
{
    s->trace->events[event] = is_fast(s->way) ? OVERDRIVE_ZERO : WRITE_ZERO;
}

/* A read of slots enough, where the master sends 0 in one of them. */
static int read_zeros(struct judge_case *c, size_t number)
{
    const size_t setting = digit(&number, SETTINGS);
    const size_t shape = digit(&number, SHAPES);
    const size_t slot = digit(&number, MOST_SLOTS);
    struct scene s;

    set_scene(&s, c, setting, 0, shape);
    write(&s);
    read_slots(&s, MOST_SLOTS);
    send_zero(&s, s.trace->length - MOST_SLOTS + slot);
    if (slot < slots_needed(&s) && shown_bit(&s, slot))
        copy_that_breaks(&s);
    else
        copy(&s);
    finish_scene(&s);
    return number == 0;
}

/* The slot that shows a bit of the registers or of the scratchpad. */
static size_t slot_of(const struct scene *s, size_t bit)
{
    const size_t first = s->update.target % PAGE_BYTES;

    if (bit < 24)
        return bit;
    return bit < 24 + 8 * first ? SIZE_MAX : bit - 8 * first;
}

/*
 * Two devices read at once, the second with the same registers and scratchpad
 * but for one bit, or for none.  With another T4:T0 it sends other bytes.
 */
static int reads_of_two(struct judge_case *c, size_t number)
{
    enum { BITS = 8 * (3 + PAGE_BYTES), OFFSET_BITS = 5 };
    const size_t setting = digit(&number, SETTINGS);
    const enum kind kind = is_fast(settings[setting].way)
                               ? DS1996
                               : (enum kind)digit(&number, SRAM_KINDS);
    const size_t shape = digit(&number, SHAPES);
    const size_t before = digit(&number, 2) * KINDS;
    const size_t bit = digit(&number, BITS + 1);
    struct scene s;
    uint8_t *neighbour;
    size_t slot, last;

    set_scene(&s, c, setting, 1 + before + kind, shape);
    neighbour = bench_at(s.bench, s.neighbour, TA1);
    memcpy(neighbour, bench_see(s.bench, s.update.device, TA1),
           3 + PAGE_BYTES);
    slot = slot_of(&s, bit);
    if (bit < BITS)
        neighbour[bit / 8] ^= (uint8_t)(1u << bit % 8);
    write(&s);
    careful_read(s.trace, s.bench, s.update.device, with_all(s.way),
                 slots_needed(&s));
    last = copy(&s);
    if (bit < OFFSET_BITS)
        breaks(&s, ANY_RULE, 0);
    else if (slot < slots_needed(&s) && shown_bit(&s, slot))
        breaks(&s, RULE_C, last);
    finish_scene(&s);
    return number == 0;
}

/*
 * Any event in a read that has so many slots left.  What the device does not
 * hear does not harm it; all else ends the read.
 */
static int read_events(struct judge_case *c, size_t number)
{
    static const enum cut cuts[] = { ZERO_THERE,           ONE_THERE,
                                     OVERDRIVE_ZERO_THERE, OVERDRIVE_ONE_THERE,
                                     RESET_THERE, OVERDRIVE_RESET_THERE };
    const size_t setting = digit(&number, SETTINGS);
    const size_t shape = digit(&number, SHAPES);
    const size_t which = digit(&number, 6);
    const size_t most = digit(&number, 42);
    struct scene s;
    size_t left, end, last;

    set_scene(&s, c, setting, 0, shape);
    left = most < slots_needed(&s) ? most : slots_needed(&s);
    write(&s);
    read_back(&s);
    end = s.trace->length;
    last = copy(&s);
    trace_cut(s.trace, cuts[which], end - left);
    if (left > 0) {
        if (which / 2 == (is_fast(s.way) ? 1 : 0)) /* a slot too many */
            breaks(&s, ANY_RULE, 0);
        else if (is_fast(s.way) || which == 4)
            breaks(&s, RULE_C, last + 1);
    }
    finish_scene(&s);
    return number == 0;
}

/*
 * So many bits of another write of the same, at times a slot of the other
 * speed, and a read after it or none.
 */
static int write_cuts(struct judge_case *c, size_t number)
{
    const size_t setting = digit(&number, SETTINGS);
    const size_t shape = digit(&number, SHAPES);
    const int read = digit(&number, 2) == 0;
    const int slot = digit(&number, 2) == 0;
    const size_t bits = digit(&number, 16 + 41);
    struct scene s;

    set_scene(&s, c, setting, 0, shape);
    write(&s);
    read_back(&s);
    if (bits >= 16)
        s.update.bits = bits - 16;
    write(&s);
    if (bits < 16)
        s.trace->length -= s.update.bits + 16 - bits;
    if (slot)
        trace_event(s.trace, is_fast(s.way) ? WRITE_ONE : OVERDRIVE_ONE);
    if (read)
        read_back(&s);
    if (read || bits < 16)
        copy(&s);
    else
        copy_that_breaks(&s);
    if (slot && is_fast(s.way)) /* PF stays clear: the pattern may not match */
        breaks(&s, ANY_RULE, 0);
    finish_scene(&s);
    return number == 0;
}

/* The registers shown are not those of the device: a 0 makes them so. */
static int false_targets(struct judge_case *c, size_t number)
{
    const size_t setting = digit(&number, SETTINGS);
    const size_t fill = digit(&number, 2) * 0xFF;
    const size_t offset = digit(&number, PAGE_BYTES);
    const size_t shown = digit(&number, PAGE_BYTES);
    const size_t bytes = 1 + digit(&number, 3);
    struct scene s;
    size_t start;

    set_scene(&s, c, setting, 0, 0);
    s.update.target = (uint16_t)(0x0020 + shown);
    s.update.bits = 8 * bytes;
    careful_address(s.trace, s.bench, 0, s.way);
    start = s.trace->length;
    trace_byte(s.trace, WRITE_SCRATCHPAD);
    trace_address(s.trace, s.update.target);
    trace_bits(s.trace, fill ? UINT64_MAX : 0, s.update.bits);
    if (is_fast(s.way))
        trace_hurry(s.trace, start);
    memset(bench_at(s.bench, 0, SCRATCHPAD), (int)fill, PAGE_BYTES);
    move(&s, (uint16_t)(0x0020 + offset));
    read_slots(&s, 8 * (3 + bytes));
    start = s.trace->length - 8 * (3 + bytes);
    for (size_t i = 0; i < 5; i++)
        if (!(shown >> i & 1))
            send_zero(&s, start + i);
    move(&s, s.update.target);
    copy(&s);
    breaks(&s, ANY_RULE, 0);
    finish_scene(&s);
    return number == 0;
}

/* ------------------------------------------------------------------ */
/* Targets that move                                                   */

/* Every address of a DS1993, and every bit of an address alone. */
static uint16_t some_target(size_t *number)
{
    enum { ADDRESSES = 512 + 20, BITS = 16 };
    const size_t which = digit(number, ADDRESSES + BITS);

    return (uint16_t)(which < ADDRESSES ? which : 1u << (which - ADDRESSES));
}

/* A read of memory moves the target before the read back, or after it. */
static int targets(struct judge_case *c, size_t number)
{
    const size_t setting = digit(&number, SETTINGS);
    const uint16_t target = some_target(&number);
    const int after = digit(&number, 2) == 0;
    const int old = digit(&number, 2) == 0;
    struct scene s;
    size_t last;

    set_scene(&s, c, setting, 0, 0);
    write(&s);
    if (after)
        read_back(&s);
    move(&s, target);
    if (!after)
        read_slots(&s, 8 * (3 + PAGE_BYTES));
    last = copy_with(&s, old ? s.update.target : target, 0x00);
    if (after && !old && target != s.update.target)
        breaks(&s, RULE_C, last);
    finish_scene(&s);
    return number == 0;
}

/* ------------------------------------------------------------------ */
/* Commands to several devices                                         */

/* Ways to come to the memory command: the first device alone, or all. */
enum { ALONE, ALL_SKIPPED, ALL_READ, ALL_FAST, ALL_SHORT, WAYS_TO_MEMORY };

static void come_to_memory(struct trace *t, const struct bench *b, size_t way)
{
    switch (way) {
    case ALONE:
        trace_match(t, bench_see(b, 0, 0));
        break;
    case ALL_READ:
        trace_event(t, RESET);
        trace_byte(t, READ_ROM);
        trace_read(t, CODE_BITS);
        break;
    case ALL_FAST:
        careful_address(t, b, 0, BY_OVERDRIVE_SKIP);
        break;
    case ALL_SHORT:
        careful_address(t, b, 0, BY_SHORT_SKIP);
        break;
    default:
        trace_skip(t);
    }
}

/* How many devices are at the memory command then, not ALONE. */
static size_t count_there(const struct bench *b, size_t way)
{
    const int fast = way == ALL_FAST || way == ALL_SHORT;
    size_t there = 0;

    for (size_t i = 0; i < b->count; i++)
        there += !b->flat[i] && (!fast || b->kinds[i] == DS1996);
    return there;
}

/* A bench comes to a memory command of so many bits. */
static void share_command(struct judge_case *c, size_t way, uint8_t command,
                          size_t bits)
{
    const int writes = command == WRITE_DATA || command == WRITE_STATUS;
    struct trace *const t = &c->run.trace;
    size_t from;

    come_to_memory(t, &c->run.bench, way);
    from = t->length;
    trace_bits(t, command, bits);
    if (way == ALL_FAST || way == ALL_SHORT)
        trace_hurry(t, from);
    judge_record(c);
    if (writes && bits == 8 && way != ALONE
        && count_there(&c->run.bench, way) > 1)
        judge_expect(c, RULE_B, t->length - 1);
}

/* Two devices or three, with commands that are nearly 0Fh or 55h. */
static int shared(struct judge_case *c, size_t number)
{
    static const uint8_t commands[] = { 0x0F, 0x55, 0xAA, 0xF0, 0xC3, 0x33,
                                        0xCC, 0x3C, 0x69, 0x0E, 0x8F, 0x4F,
                                        0x54, 0xD5, 0x57, 0x00 };
    const enum kind kinds[] = { (enum kind)digit(&number, KINDS),
                                (enum kind)digit(&number, KINDS), DS1996 };
    const size_t count = 2 + digit(&number, 2);
    const size_t batteries = digit(&number, 5);
    const size_t way = digit(&number, WAYS_TO_MEMORY);
    const uint8_t command = commands[digit(&number, sizeof commands)];
    const size_t bits = 8 - digit(&number, 2);

    bench_make(&c->run.bench, kinds, count, count);
    bench_set_batteries(&c->run.bench, batteries);
    share_command(c, way, command, bits);
    return number == 0;
}

/* Every command byte to every two kinds. */
static int shared_bytes(struct judge_case *c, size_t number)
{
    const enum kind kinds[] = { (enum kind)digit(&number, KINDS),
                                (enum kind)digit(&number, KINDS) };
    const uint8_t command = (uint8_t)digit(&number, 256);

    bench_make(&c->run.bench, kinds, 2, command);
    share_command(c, ALL_SKIPPED, command, 8);
    return number == 0;
}

/* Every number of devices, of which so many are good. */
static int crowds(struct judge_case *c, size_t number)
{
    const enum kind kind = (enum kind)digit(&number, KINDS);
    const size_t count = digit(&number, MOST_DEVICES + 1);
    const size_t good = digit(&number, 4);
    const uint8_t command = digit(&number, 2) == 0 ? 0x0F : 0x55;
    enum kind kinds[MOST_DEVICES] = { DS1992 };
    struct bench *const b = &c->run.bench;

    kinds_of_crowd(kinds, count, kind);
    bench_make(b, kinds, count, count);
    for (size_t i = good; i < count; i++)
        bench_flatten(b, (i * 7 + good) % count);
    share_command(c, ALL_SKIPPED, command, 8);
    return number == 0;
}

/* ------------------------------------------------------------------ */
/* Answers                                                             */

/* Answers that are not the level: its opposite, and no levels at all. */
static uint8_t other_answer(uint8_t level, size_t way)
{
    const uint8_t answers[] = { level ^ 1, 2,    3, level | 0x80,
                                level | 2, 0xFF, 0xFE };

    return answers[way];
}

enum { OTHER_ANSWERS = 7 };

/*
 * Each answer of a session is changed, whether the session is careful or not,
 * and at times a later one as well.
 */
static int answers(struct judge_case *c, size_t number)
{
    static void (*const acts[])(struct scene *) = { careful, no_read,
                                                    shared_write };
    const size_t act = digit(&number, sizeof acts / sizeof *acts);
    const size_t setting = digit(&number, 2) * 3;
    const size_t way = digit(&number, OTHER_ANSWERS);
    const int later = digit(&number, 2) == 1;
    struct scene s;
    size_t place, last;

    set_scene(&s, c, setting, 1 + DS1996, 0);
    acts[act](&s);
    finish_scene(&s);
    last = s.trace->length - 1;
    place = digit(&number, s.trace->length);
    c->recorded[place] = other_answer(c->recorded[place], way);
    if (later && place < last)
        c->recorded[last] ^= 1;
    judge_expect(c, RULE_A, place);
    return number == 0;
}

/* Answers recorded from another session, and all the same. */
static int foreign_answers(struct judge_case *c, size_t number)
{
    const size_t setting = digit(&number, SETTINGS);
    const size_t act = digit(&number, SCENES);
    const size_t way = digit(&number, 4);
    struct scene s;

    set_scene(&s, c, setting, 2, 0);
    scenes[act](&s);
    finish_scene(&s);
    if (way < 3)
        memset(c->recorded, way == 2 ? UINT8_MAX : (int)way,
               c->run.trace.length);
    else
        memcpy(c->recorded, c->run.trace.events, c->run.trace.length);
    judge_expect(c, ANY_RULE, 0);
    return number == 0;
}

/* ------------------------------------------------------------------ */
/* Several things amiss                                                */

enum { STEPS = 4, STEPS_IN_A_ROW = 3 };

/* One step of a session; the first to break a rule is the verdict. */
static void take_step(struct scene *s, size_t step)
{
    const unsigned rule = s->rule;
    const size_t event = s->event;

    switch (step) {
    case 0:
        careful(s);
        return;
    case 1:
        no_read(s);
        break;
    case 2:
        shared_write(s);
        break;
    default:
        read_back(s);
        return;
    }
    if (rule != CAREFUL)
        breaks(s, rule, event);
}

/* Three steps in every order, and an answer amiss at some place, or none. */
static int orders(struct judge_case *c, size_t number)
{
    const size_t setting = digit(&number, SETTINGS);
    const size_t neighbour = 1 + digit(&number, NEIGHBOURS - 1);
    const size_t amiss = digit(&number, 4);
    struct scene s;
    size_t place;

    set_scene(&s, c, setting, neighbour, 0);
    for (size_t i = 0; i < STEPS_IN_A_ROW; i++)
        take_step(&s, digit(&number, STEPS));
    finish_scene(&s);
    place = amiss == 1 ? 0 : (s.trace->length - 1) / (4 - amiss);
    if (amiss > 0) {
        c->recorded[place] ^= 1;
        judge_expect(c, RULE_A, place);
    }
    return number == 0;
}

/* A careful session that is cut, disturbed or incomplete at every place. */
static int cuts(struct judge_case *c, size_t number)
{
    static const size_t some[] = { 0, 2, 3 };
    const size_t setting = some[digit(&number, 3)];
    const size_t neighbour = digit(&number, 2) * (1 + DS1996);
    const enum cut way = (enum cut)digit(&number, WAYS_TO_CUT);
    struct scene s;
    size_t place;

    set_scene(&s, c, setting, neighbour, 0);
    second_copy_read_back(&s);
    place = digit(&number, s.trace->length + 1);
    trace_cut(s.trace, way, place);
    if (s.trace->length > 0 && s.trace->events[0] != RESET)
        c->run.expected = 11;
    else if (way == PULSE_THERE)
        c->run.expected = 6;
    judge_record(c);
    judge_expect(c, ANY_RULE, 0);
    return number == 0;
}

/* As many reads as a trace can hold, or as many updates. */
static int most_reads(struct judge_case *c, size_t number)
{
    const size_t setting = digit(&number, SETTINGS);
    const size_t way = digit(&number, 3);
    const size_t good = digit(&number, 3);
    struct scene s;

    set_scene(&s, c, setting, 0, 0);
    s.way = with_all(s.way);
    write(&s);
    if (good == 1)
        read_back(&s);
    while (s.trace->length + 300 < MOST_EVENTS) {
        if (way == 2)
            move(&s, (uint16_t)s.trace->length);
        read_slots(&s, way == 1 ? 24 : 0);
    }
    move(&s, s.update.target);
    if (good == 2)
        read_back(&s);
    if (good > 0)
        copy(&s);
    else
        copy_that_breaks(&s);
    finish_scene(&s);
    return number == 0;
}

/* ------------------------------------------------------------------ */
/* Lengths, and refusals                                               */

/* A bench of one device, or, one past the last kind, of none. */
static void bench_of_one_or_none(struct bench *b, size_t kind)
{
    const enum kind one = kind < KINDS ? (enum kind)kind : DS1992;

    bench_make(b, &one, kind < KINDS, 1);
}

/* No bytes and few, in each buffer. */
static int lengths(struct judge_case *c, size_t number)
{
    struct run_case *const r = &c->run;
    size_t image, trace;

    r->null = digit(&number, 2) == 0;
    bench_of_one_or_none(&r->bench, digit(&number, KINDS + 1));
    image = digit(&number, 9);
    trace = digit(&number, 4);
    trace_repeat(&r->trace, RESET, trace);
    r->bench.length = image;
    judge_record(c);
    r->answers = digit(&number, 5);
    c->work = digit(&number, 9);
    r->expected = ANY_NUMBER;
    c->rule = ANY_RULE;
    return number == 0;
}

/* As many answers as events and as much work space as image, about. */
static int rooms(struct judge_case *c, size_t number)
{
    struct run_case *const r = &c->run;

    bench_of_one_or_none(&r->bench, digit(&number, KINDS + 1));
    trace_repeat(&r->trace, RESET, digit(&number, 4));
    judge_record(c);
    r->answers = room_around(&number, r->trace.length);
    c->work = room_around(&number, r->bench.length);
    r->expected =
        r->answers != r->trace.length || c->work < r->bench.length ? 7 : 0;
    return number == 0;
}

/* Traces and answers around the most events there can be. */
static int limits(struct judge_case *c, size_t number)
{
    struct run_case *const r = &c->run;
    const size_t kind = digit(&number, KINDS + 1);
    const size_t length = MOST_EVENTS - 2 + digit(&number, 5);
    const size_t recorded = length - 2 + digit(&number, 5);

    bench_of_one_or_none(&r->bench, kind);
    while (r->trace.length < MOST_EVENTS) {
        trace_skip(&r->trace);
        trace_byte(&r->trace, READ_MEMORY);
        trace_read(&r->trace, 80);
    }
    for (size_t i = r->trace.length; i < length; i++)
        r->trace.events[i] = RESET;
    r->trace.length = length;
    judge_record(c);
    r->answers = recorded;
    r->expected = length > MOST_EVENTS ? 5 : recorded != length ? 7 : 0;
    return number == 0;
}

enum { BENCHES_TO_DAMAGE = 4 };

/*
 * A careful session on four devices or eight, of edition 1 or of edition 2
 * with some of them flat.
 */
static void session_to_damage(struct judge_case *c, size_t which)
{
    static const enum kind kinds[] = { DS1992, DS1996, DS1982, DS1982,
                                       DS1992, DS1982, DS1993, DS1993 };
    struct scene s = { .c = c,
                       .trace = &c->run.trace,
                       .bench = &c->run.bench,
                       .update = { 0, 0x0026, 16, which } };

    bench_make(s.bench, kinds, which % 2 == 0 ? 4 : 8, which);
    bench_set_batteries(s.bench, which < 2 ? 0 : 1 + 0x52);
    careful(&s);
    finish_scene(&s);
}

/* Each cause alone, in many ways. */
static int refusals(struct judge_case *c, size_t number)
{
    const size_t bench = digit(&number, BENCHES_TO_DAMAGE);
    const size_t damage = digit(&number, judge_damage_count());
    const size_t choice = digit(&number, 512);

    session_to_damage(c, bench);
    if (judge_damage_do(damage, c, choice))
        c->run.expected = judge_damage_number(damage);
    return number == 0;
}

/* Two causes at once, in some ways: the one that is looked for first wins. */
static int refusals_in_pairs(struct judge_case *c, size_t number)
{
    struct dice dice = dice_for(8, number);
    const size_t bench = digit(&number, BENCHES_TO_DAMAGE);
    const size_t later = digit(&number, judge_damage_count());
    const size_t sooner = digit(&number, judge_damage_count());

    digit(&number, 24); /* ways, which the dice choose */
    session_to_damage(c, bench);
    if (judge_damage_do(later, c, dice_below(&dice, 10000)))
        c->run.expected = judge_damage_number(later);
    if (sooner < later
        && judge_damage_do(sooner, c, dice_below(&dice, 10000)))
        c->run.expected = judge_damage_number(sooner);
    return number == 0;
}

/* ------------------------------------------------------------------ */

/* Groups of its own, and some that are the run's, recorded as they are. */
static const struct {
    const char *name;
    int (*make)(struct judge_case *, size_t);
    const char *of_the_run;
} groups[] = {
    { "judge_sessions", sessions, NULL },
    { "judge_read_cuts", read_cuts, NULL },
    { "judge_read_zeros", read_zeros, NULL },
    { "judge_reads_of_two", reads_of_two, NULL },
    { "judge_write_cuts", write_cuts, NULL },
    { "judge_false_targets", false_targets, NULL },
    { "judge_targets", targets, NULL },
    { "judge_read_events", read_events, NULL },
    { "judge_shared", shared, NULL },
    { "judge_shared_bytes", shared_bytes, NULL },
    { "judge_crowds", crowds, NULL },
    { "judge_answers", answers, NULL },
    { "judge_foreign_answers", foreign_answers, NULL },
    { "judge_orders", orders, NULL },
    { "judge_cuts", cuts, NULL },
    { "judge_most_reads", most_reads, NULL },
    { "judge_lengths", lengths, NULL },
    { "judge_rooms", rooms, NULL },
    { "judge_limits", limits, NULL },
    { "judge_refusals", refusals, NULL },
    { "judge_refusals_in_pairs", refusals_in_pairs, NULL },
    { "judge_memory_commands", NULL, "memory_commands" },
    { "judge_copies_of_two", NULL, "copies_of_two" },
    { "judge_counts", NULL, "counts" },
    { "judge_first_events", NULL, "first_events" },
    { "judge_editions", NULL, "editions" },
    { "judge_short_traces", NULL, "short_traces" },
    { "judge_large_images", NULL, "large_images" },
};

const char *judge_small_group(size_t group)
{
    return GROUP_NAME(groups, group);
}

static size_t group_of_the_run(const char *name)
{
    size_t group = 0;

    while (strcmp(run_small_group(group), name) != 0)
        group++;
    return group;
}

/* A run can do with more answers than there are events; a judge cannot. */
static int record_of_the_run(struct judge_case *c, const char *name,
                             size_t number)
{
    struct run_case *const r = &c->run;
    size_t room;

    if (!run_small_case(r, group_of_the_run(name), number))
        return 0;
    room = r->answers;
    judge_record(c);
    c->rule = ANY_RULE;
    if (room < r->trace.length)
        r->answers = room;
    return 1;
}

int judge_small_case(struct judge_case *c, size_t group, size_t number)
{
    if (!groups[group].make)
        return record_of_the_run(c, groups[group].of_the_run, number);
    c->run.trace.length = 0;
    c->run.expected = 0;
    c->run.null = number % 2 == 0;
    if (!groups[group].make(c, number))
        return 0;
    if (c->run.expected == 0)
        c->work += number % 3; /* at times there is a little more room */
    return 1;
}
