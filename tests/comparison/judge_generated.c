/*
 * Cases of the judge that a seed and a number determine: recordings of any
 * sessions, and of sessions that are careful but for something here and there.
 */
#include "judge.h"

#include "careful.h"
#include "judge_damage.h"
#include "room.h"
#include "session.h"
#include "some_bench.h"

/* ------------------------------------------------------------------ */
/* Sessions that are careful, mostly                                   */

static size_t below(struct session *s, size_t bound)
{
    return dice_below(s->dice, bound);
}

static int once_in(struct session *s, size_t times)
{
    return dice_once_in(s->dice, times);
}

/* A session and the change that is under way in it. */
struct progress {
    struct session session;
    struct update update;
    size_t flaws; /* once in so many times something is left out or amiss */
    size_t twin;  /* another device that was written the same, or itself */
};

static int goes_wrong(struct progress *p)
{
    return once_in(&p->session, p->flaws);
}

/* The reset, and by which ROM command the device is come to, or all are. */
static int come_to_device(struct progress *p, int all)
{
    struct session *const s = &p->session;
    const uint8_t *const code = bench_see(s->bench, p->update.device, 0);
    const int has_overdrive = s->bench->kinds[p->update.device] == DS1996;

    if (!has_overdrive)
        session_slow_down(s);
    if (!session_reset(s))
        return 0;
    if (goes_wrong(p))
        all = 1;
    if (has_overdrive && once_in(s, s->overdrive ? 8 : 2)) {
        trace_byte(s->trace, all ? OVERDRIVE_SKIP_ROM : OVERDRIVE_MATCH_ROM);
        session_speed_up(s);
        trace_bytes(s->trace, code, all ? 0 : CODE_BYTES);
    } else if (all) {
        trace_byte(s->trace, SKIP_ROM);
    } else if (once_in(s, 6)) {
        trace_byte(s->trace, SEARCH_ROM);
        trace_search_path(s->trace, code);
    } else {
        trace_byte(s->trace, MATCH_ROM);
        trace_bytes(s->trace, code, CODE_BYTES);
    }
    return 1;
}

/* The registers and scratchpad of the device in the present transaction. */
static const uint8_t *registers_now(struct progress *p)
{
    return session_learn(&p->session, p->update.device) + TA1;
}

static void some_update(struct progress *p)
{
    struct session *const s = &p->session;
    const size_t size = kind_memory_bytes(s->bench->kinds[p->update.device]);
    const size_t target = once_in(s, 8) ? below(s, 0x10000) : below(s, size);

    p->update.target = (uint16_t)target;
    p->update.bits = once_in(s, 3) ? below(s, 280) : 8 * below(s, 5);
    p->update.data = dice_roll(s->dice);
    p->twin = p->update.device;
}

/* At times the write is left out, or cut before its address is complete. */
static void write_update(struct progress *p)
{
    struct session *const s = &p->session;

    if (goes_wrong(p) || !come_to_device(p, 0))
        return;
    trace_byte(s->trace, WRITE_SCRATCHPAD);
    if (goes_wrong(p))
        trace_bits(s->trace, p->update.target, below(s, 16));
    else
        update_send(s->trace, &p->update);
}

/* A write whose address is not complete, and at times what is not heard. */
static void begin_a_write(struct progress *p)
{
    struct session *const s = &p->session;

    if (!come_to_device(p, 0))
        return;
    trace_byte(s->trace, WRITE_SCRATCHPAD);
    trace_bits(s->trace, p->update.target, 16 - 1 - below(s, 3));
    if (s->fast == SIZE_MAX && once_in(s, 2))
        trace_event(s->trace, OVERDRIVE_ONE);
}

/* Another device that can take the same bytes; or the same, if none can. */
static size_t some_twin(struct progress *p)
{
    const struct bench *const b = p->session.bench;
    const size_t start = below(&p->session, b->count);

    for (size_t i = 0; i < b->count; i++) {
        const size_t device = (start + i) % b->count;

        if (device != p->update.device && b->kinds[device] != DS1982)
            return device;
    }
    return p->update.device;
}

/* The same bytes go to another device first. */
static void write_to_twin(struct progress *p)
{
    const size_t device = p->update.device;

    p->twin = p->update.device = some_twin(p);
    write_update(p);
    p->update.device = device;
}

/* A read of memory moves the target, at times to where it is. */
static void move_target(struct progress *p)
{
    struct session *const s = &p->session;
    uint16_t target = p->update.target;

    if (!once_in(s, 6) || !come_to_device(p, 0))
        return;
    if (goes_wrong(p))
        target ^= (uint16_t)(1u << below(s, 16));
    trace_byte(s->trace, READ_MEMORY);
    trace_address(s->trace, target);
    trace_read(s->trace, below(s, 20));
}

/*
 * At times not all of a transaction at overdrive is, and what is at regular
 * speed gets an event that only others could hear.
 */
static void spoil_speed(struct progress *p, size_t start)
{
    static const enum cut cuts[] = { OVERDRIVE_ZERO_THERE, OVERDRIVE_ONE_THERE,
                                     OVERDRIVE_RESET_THERE };
    struct session *const s = &p->session;
    struct trace *const t = s->trace;

    if (s->fast != SIZE_MAX && goes_wrong(p))
        s->fast += below(s, 60);
    if (s->fast != SIZE_MAX && once_in(s, 6))
        s->lapse = t->length - below(s, 2);
    if (s->fast == SIZE_MAX && once_in(s, 4) && t->length < MOST_EVENTS)
        trace_cut(t, cuts[below(s, 3)],
                  start + below(s, t->length - start + 1));
}

/* At times the read is left out, cut, disturbed in one slot, or another's. */
static void read_back(struct progress *p)
{
    struct session *const s = &p->session;
    struct trace *const t = s->trace;
    const size_t device = p->update.device;
    size_t slots, start;

    if (goes_wrong(p))
        return;
    if (goes_wrong(p) || once_in(s, 4))
        p->update.device = p->twin;
    if (!come_to_device(p, p->twin != device && once_in(s, 2)))
        return;
    slots = slots_to_show(registers_now(p)) + (once_in(s, 4) ? 9 : 0);
    p->update.device = device;
    if (goes_wrong(p))
        slots = once_in(s, 2) ? slots - 1 : below(s, slots);
    trace_byte(t, READ_SCRATCHPAD);
    start = t->length;
    trace_read(t, slots);
    if (goes_wrong(p) && t->length > start)
        t->events[start + below(s, t->length - start)] = WRITE_ZERO;
    spoil_speed(p, start);
}

/* At times the pattern is wrong, and the copy is not accepted. */
static void copy_update(struct progress *p)
{
    struct session *const s = &p->session;
    uint8_t pattern[3];

    if (!come_to_device(p, 0))
        return;
    for (size_t i = 0; i < sizeof pattern; i++)
        pattern[i] = registers_now(p)[i];
    if (goes_wrong(p))
        pattern[below(s, 3)] ^= (uint8_t)(1u << below(s, 8));
    trace_byte(s->trace, COPY_SCRATCHPAD);
    trace_bytes(s->trace, pattern, 3);
    trace_read(s->trace, below(s, 12));
    if (once_in(s, 8))
        spoil_speed(p, s->trace->length);
}

/* Something else, at times: a command to any device, or to all. */
static void some_other_business(struct progress *p)
{
    struct session *const s = &p->session;

    if (goes_wrong(p))
        session_transaction(s, below(s, s->bench->count));
}

/* At times the same bytes are written once more, or have been already. */
static void change_memory(struct progress *p)
{
    if (p->update.bits == 0 || !once_in(&p->session, 4))
        some_update(p);
    p->twin = p->update.device;
    if (once_in(&p->session, 4))
        write_to_twin(p);
    write_update(p);
    if (goes_wrong(p)) {
        read_back(p); /* too early */
        write_update(p);
    }
    some_other_business(p);
    move_target(p);
    read_back(p);
    if (once_in(&p->session, 8))
        read_back(p);
    some_other_business(p);
    move_target(p);
    if (once_in(&p->session, 6))
        begin_a_write(p);
    copy_update(p);
    if (once_in(&p->session, 4)) {
        read_back(p);
        copy_update(p);
    }
}

/* Careless ones soon break a rule, and careful ones late or never. */
static void mostly_careful_session(struct dice *dice, struct run_case *c)
{
    static const size_t flaws[] = { 4, 12, 40, 100000 };
    struct progress p;
    const size_t count = c->bench.count;
    size_t changes;

    session_start(&p.session, dice, c);
    p.update = (struct update){ 0 };
    p.twin = 0;
    p.flaws = flaws[dice_below(dice, sizeof flaws / sizeof *flaws)];
    changes = dice_once_in(dice, 200) ? 1000 : 1 + dice_below(dice, 6);
    for (size_t i = 0; i < changes && c->trace.length < MOST_EVENTS; i++) {
        p.update.device = dice_below(dice, count);
        if (c->bench.kinds[p.update.device] == DS1982)
            session_transaction(&p.session, p.update.device);
        else
            change_memory(&p);
    }
    session_finish(&p.session);
    if (dice_once_in(dice, 10))
        session_disturb(&p.session);
}

/* ------------------------------------------------------------------ */
/* Cases                                                               */

/* Some answers that are not those of the bus, or not any level. */
static void change_answers(struct dice *dice, struct judge_case *c)
{
    static const uint8_t changes[] = { 1, 1, 1, 2, 3, 0x80, 0xFE };

    if (c->run.answers == 0)
        return;
    for (size_t i = 1 + dice_below(dice, 3); i > 0; i--)
        c->recorded[dice_below(dice, c->run.answers)] ^=
            changes[dice_below(dice, sizeof changes)];
}

/* A damage for any of the refusals, each as often as the others. */
static size_t which_damage(struct dice *dice)
{
    const unsigned number = run_refusals[dice_below(dice, RUN_REFUSALS)];
    size_t damage;

    do
        damage = dice_below(dice, judge_damage_count());
    while (judge_damage_number(damage) != number);
    return damage;
}

static void some_damage(struct dice *dice, struct judge_case *c)
{
    const size_t first = which_damage(dice), second = which_damage(dice);

    c->is_recorded = 0;
    if (dice_once_in(dice, 4))
        c->run.bench.bytes[dice_below(dice, c->run.bench.length)] =
            (uint8_t)dice_roll(dice);
    else
        judge_damage_do(first > second ? first : second, c,
                        (size_t)(dice_roll(dice) >> 20));
    if (first != second && dice_once_in(dice, 2))
        judge_damage_do(first < second ? first : second, c,
                        (size_t)(dice_roll(dice) >> 20));
}

void judge_generated_case(struct judge_case *c, uint64_t seed, uint64_t number)
{
    struct dice dice = dice_for(seed + 9, number);
    struct run_case *const r = &c->run;

    some_bench(&dice, &r->bench, some_count(&dice));
    if (r->bench.count == 0 || dice_once_in(&dice, 4))
        some_session(&dice, r);
    else
        mostly_careful_session(&dice, r);
    r->expected = ANY_NUMBER;
    r->null = dice_once_in(&dice, 2);
    judge_record(c);
    c->rule = ANY_RULE;
    c->work = room_by_dice(&dice, r->bench.length);
    if (dice_once_in(&dice, 30))
        r->answers = r->trace.length + 1;
    if (dice_once_in(&dice, 5))
        change_answers(&dice, c);
    if (dice_once_in(&dice, 6))
        some_damage(&dice, c);
}
