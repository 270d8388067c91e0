#include "careful.h"

#include "dice.h"

int is_fast(enum addressing way)
{
    return way >= BY_OVERDRIVE_MATCH;
}

enum addressing with_all(enum addressing way)
{
    switch (way) {
    case BY_OVERDRIVE_MATCH:
        return BY_OVERDRIVE_SKIP;
    case BY_SHORT_MATCH:
        return BY_SHORT_SKIP;
    default:
        return BY_SKIP;
    }
}

/* All that can be at overdrive are, and take a short reset. */
static void address_after_short_reset(struct trace *t, const uint8_t *code)
{
    size_t from;

    trace_overdrive_skip(t);
    from = t->length;
    if (code)
        trace_match(t, code);
    else
        trace_skip(t);
    trace_hurry(t, from);
}

void careful_address(struct trace *t, const struct bench *b, size_t device,
                     enum addressing way)
{
    const uint8_t *const code = bench_see(b, device, 0);

    switch (way) {
    case BY_MATCH:
        trace_match(t, code);
        break;
    case BY_SEARCH:
        trace_search(t, code);
        break;
    case BY_OVERDRIVE_MATCH:
        trace_overdrive_match(t, code);
        break;
    case BY_OVERDRIVE_SKIP:
        trace_overdrive_skip(t);
        break;
    case BY_SHORT_MATCH:
        address_after_short_reset(t, code);
        break;
    case BY_SHORT_SKIP:
        address_after_short_reset(t, NULL);
        break;
    default:
        trace_skip(t);
    }
}

/* What came after the address was at the speed that the device is at. */
static void finish(struct trace *t, size_t from, enum addressing way)
{
    if (is_fast(way))
        trace_hurry(t, from);
}

enum { DATA_ROOM = 64 }; /* bytes: more than a scratchpad takes */

static void data_of(const struct update *u, uint8_t *bytes)
{
    struct dice dice = dice_for(7, u->data);

    dice_fill(&dice, bytes, DATA_ROOM);
}

static unsigned bit_of(const uint8_t *bytes, size_t bit)
{
    return bytes[bit / 8] >> bit % 8 & 1;
}

void update_send(struct trace *t, const struct update *u)
{
    uint8_t bytes[DATA_ROOM];

    data_of(u, bytes);
    trace_address(t, u->target);
    for (size_t i = 0; i < u->bits; i++)
        trace_bits(t, bit_of(bytes, i), 1);
}

void careful_write(struct trace *t, const struct bench *b,
                   const struct update *u, enum addressing way)
{
    size_t from;

    careful_address(t, b, u->device, way);
    from = t->length;
    trace_byte(t, WRITE_SCRATCHPAD);
    update_send(t, u);
    finish(t, from, way);
}

void careful_read(struct trace *t, const struct bench *b, size_t device,
                  enum addressing way, size_t slots)
{
    size_t from;

    careful_address(t, b, device, way);
    from = t->length;
    trace_byte(t, READ_SCRATCHPAD);
    trace_read(t, slots);
    finish(t, from, way);
}

void careful_move(struct trace *t, const struct bench *b, size_t device,
                  enum addressing way, uint16_t target)
{
    size_t from;

    careful_address(t, b, device, way);
    from = t->length;
    trace_byte(t, READ_MEMORY);
    trace_address(t, target);
    trace_read(t, 10);
    finish(t, from, way);
}

size_t careful_copy(struct trace *t, const struct bench *b, size_t device,
                    enum addressing way, const uint8_t *pattern)
{
    size_t from, last;

    careful_address(t, b, device, way);
    from = t->length;
    trace_byte(t, COPY_SCRATCHPAD);
    trace_bytes(t, pattern, 3);
    last = t->length - 1;
    trace_read(t, 3);
    finish(t, from, way);
    return last;
}

/* ------------------------------------------------------------------ */

/* Data bits that the scratchpad takes; more are an overflow. */
static size_t bits_taken(const struct update *u)
{
    const size_t room = 8 * (PAGE_BYTES - u->target % PAGE_BYTES);

    return u->bits < room ? u->bits : room;
}

void update_registers(const struct update *u, uint8_t *registers)
{
    const size_t first = u->target % PAGE_BYTES, taken = bits_taken(u);
    const size_t last = taken == 0 ? first : first + (taken - 1) / 8;
    const unsigned flags = u->bits > taken   ? 0x40
                           : taken % 8 != 0 ? 0x20
                                            : 0x00;

    registers[0] = (uint8_t)u->target;
    registers[1] = (uint8_t)(u->target >> 8);
    registers[2] = (uint8_t)(last | flags);
}

size_t shown_bytes(const uint8_t *registers)
{
    const size_t first = registers[0] % PAGE_BYTES;
    const size_t last = registers[2] % PAGE_BYTES;

    return last < first ? 0 : last - first + 1;
}

size_t slots_to_show(const uint8_t *registers)
{
    return 8 * (3 + shown_bytes(registers));
}

void update_preset(struct bench *b, const struct update *u)
{
    uint8_t *const cells =
        bench_at(b, u->device, SCRATCHPAD + u->target % PAGE_BYTES);
    uint8_t bytes[DATA_ROOM];

    data_of(u, bytes);
    for (size_t i = 0; i < bits_taken(u); i++) {
        cells[i / 8] &= (uint8_t)~(1u << i % 8);
        cells[i / 8] |= (uint8_t)(bit_of(bytes, i) << i % 8);
    }
    update_registers(u, bench_at(b, u->device, TA1));
}
