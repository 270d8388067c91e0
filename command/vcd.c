#include "vcd.h"

#include "event.h"
#include "progress.h"

/* Nominal times in microseconds, each within what the data sheets ask for. */
struct widths {
    unsigned slot;
    unsigned low_one;       /* the master's low of a write-one or read slot */
    unsigned low_zero;      /* the master's low of a write-zero slot */
    unsigned low_device;    /* until a device lets go in a read slot */
    unsigned reset_low;
    unsigned presence_high; /* until the devices answer a reset */
    unsigned presence_low;
    unsigned reset_high;    /* the presence included; decoders want the next slot past it */
};

static const struct widths regular = { 70, 6, 60, 30, 480, 30, 120, 500 };
static const struct widths overdrive = { 10, 1, 7, 4, 60, 4, 16, 60 };

enum {
    LEAD = 1,         /* before the first event, so that its edge is one */
    IDLE = 100,       /* after the last */
    PULSE_DELAY = 10, /* before a program pulse, and after it */
    PULSE = 480
};

/* The number of no step. */
enum { NO_STEP = -1 };

enum { LINE, MASTER, PULSES, SPEED, MARK, WIRES };

/* Names of signals in the dump: letters that no value starts with. */
static const char wires[WIRES] = { 'l', 'm', 'p', 'o', 'k' };
static const char steps = 't';

struct dump {
    struct bytes *out;
    int mark;
    bool overdrive; /* the speed of the last event */
    unsigned long long now;
    unsigned long long stamped; /* the time last written, plus one */
};

static void stamp(struct dump *d)
{
    if (d->stamped != d->now + 1)
        bytes_print(d->out, "#%llu\n", d->now);
    d->stamped = d->now + 1;
}

static void set(struct dump *d, int wire, int level)
{
    stamp(d);
    bytes_print(d->out, "%d%c\n", level, wires[wire]);
}

static void head(struct bytes *out)
{
    bytes_print(out,
                VCD_START
                "$comment 1-Wire, nominal widths $end\n"
                "$timescale 1 us $end\n"
                "$scope module " VCD_SCOPE " $end\n"
                "$var wire 1 %c line $end\n"
                "$var wire 1 %c master $end\n"
                "$var wire 1 %c pulse $end\n"
                "$var wire 1 %c overdrive $end\n"
                "$var wire 1 %c mark $end\n"
                "$var real 64 %c step $end\n"
                "$upscope $end\n"
                "$enddefinitions $end\n",
                wires[LINE], wires[MASTER], wires[PULSES], wires[SPEED], wires[MARK], steps);
}

/*
 * A step is a number, and its text stands beside the dump: of a string, which GTKWave knows, sigrok warns at every
 * change. A number it passes over, so the mark shows there where steps start.
 */
static void mark(struct dump *d, long long step)
{
    d->mark = !d->mark;
    set(d, MARK, d->mark);
    bytes_print(d->out, "r%lld %c\n", step, steps);
}

/* Lets go of the line: the master after one time, the wire after another, and nothing more up to the end. */
static void low(struct dump *d, unsigned master, unsigned line, unsigned end)
{
    const unsigned long long start = d->now;

    set(d, LINE, 0);
    set(d, MASTER, 0);
    d->now = start + master;
    set(d, MASTER, 1);
    d->now = start + line;
    set(d, LINE, 1);
    d->now = start + end;
}

static void slot(struct dump *d, const struct widths *w, uint8_t event, uint8_t answer)
{
    const unsigned master = sends_one(event) ? w->low_one : w->low_zero;
    const unsigned device = answer ? 0 : w->low_device;

    low(d, master, master > device ? master : device, w->slot);
}

static void reset(struct dump *d, const struct widths *w, uint8_t answer)
{
    low(d, w->reset_low, w->reset_low, w->reset_low);
    if (!answer) {
        d->now += w->presence_high;
        set(d, LINE, 0);
        d->now += w->presence_low;
        set(d, LINE, 1);
        d->now -= w->presence_high + w->presence_low;
    }
    d->now += w->reset_high;
}

/* For a logic analyser 12 V is high: the line stays as it is. */
static void pulse(struct dump *d)
{
    d->now += PULSE_DELAY;
    set(d, PULSES, 1);
    d->now += PULSE;
    set(d, PULSES, 0);
    d->now += PULSE_DELAY;
}

/* The speed at which the master sends, where it is another than before. */
static void set_speed(struct dump *d, bool fast)
{
    if (d->overdrive != fast)
        set(d, SPEED, fast);
    d->overdrive = fast;
}

static void draw(struct dump *d, uint8_t event, uint8_t answer)
{
    const struct widths *const w = is_overdrive(event) ? &overdrive : &regular;

    set_speed(d, is_overdrive(event));
    if (is_slot(event))
        slot(d, w, event, answer);
    else if (is_reset(event))
        reset(d, w, answer);
    else
        pulse(d);
}

static void start(struct dump *d)
{
    head(d->out);
    bytes_print(d->out, "#0\n$dumpvars\n1%c\n1%c\n0%c\n0%c\n0%c\nr%d %c\n$end\n", wires[LINE], wires[MASTER],
                wires[PULSES], wires[SPEED], wires[MARK], NO_STEP, steps);
    d->now = LEAD;
}

static void finish(struct dump *d)
{
    mark(d, NO_STEP);
    bytes_print(d->out, "#%llu\n", d->now + IDLE);
}

void vcd_write(struct bytes *out, const struct session *s, const uint8_t *answers)
{
    struct dump d = { .out = out };
    struct progress progress = progress_start("events drawn", s->events.length);
    size_t next = 0;

    start(&d);
    for (size_t i = 0; i < s->events.length; i++) {
        while (next < s->count && s->steps[next].count == 0)
            next++;
        if (next < s->count && s->steps[next].first == i) {
            mark(&d, (long long)step_number(s, &s->steps[next]));
            next++;
        }
        draw(&d, s->events.data[i], answers[i]);
        progress_at(&progress, i + 1);
    }
    finish(&d);
    progress_end(&progress);
}
