#include "findings.h"

#include "copies.h"
#include "event.h"

#include <string.h>

struct carried carried_of(const struct judged *j)
{
    return (struct carried){ &j->session->image, &j->session->events, j->levels };
}

/* What is looked at: a session, and its devices as they are after the reset that the transaction begins with. */
struct moment {
    const struct judged *judged;
    size_t start;
    struct bytes image;
};

static struct moment moment_of(const struct judged *j)
{
    const struct carried c = carried_of(j);
    struct moment m = { .judged = j, .start = transaction_start(&c, j->event) };
    struct bytes answers = { 0 };
    uint64_t copied;

    bytes_add(&m.image, c.image->data, c.image->length);
    bytes_repeat(&answers, 0, m.start + 1);
    (void)troughiron_run(m.image.data, m.image.length, c.events->data, m.start + 1, answers.data, m.start + 1,
                         &copied);
    bytes_free(&answers);
    return m;
}

/* A device alone, with the events of the transaction up to a place. Returns their number. */
static size_t put(struct alone *alone, const struct moment *m, size_t index, size_t end)
{
    alone_put(alone, &m->image, index);
    alone_receive(alone, m->judged->session->events.data + m->start, m->judged->levels + m->start, end - m->start);
    return end - m->start;
}

/* Finds the devices for which something holds. */
static void find_devices(struct findings *f, const struct moment *m, bool (*holds)(const struct moment *m, size_t i))
{
    for (size_t i = 0; i < image_count(&m->image); i++)
        if (holds(m, i))
            f->devices[f->count++] = i;
}

/* ------------------------------------------------------------------ */
/* A: the answers                                                      */

/* Whether a device pulls the line low in the slot, where the master lets it. */
static bool pulls_low(const struct moment *m, size_t index)
{
    struct alone alone = { 0 };
    const size_t count = put(&alone, m, index, m->judged->event);
    uint64_t copied;

    alone_add(&alone, m->judged->session->events.data[m->judged->event], 1);

    const bool low = alone_run(&alone, &copied) && alone.answers.data[count] == 0;

    alone_free(&alone);
    return low;
}

static void find_answer(struct findings *f, const struct moment *m)
{
    if (sends_one(m->judged->session->events.data[m->judged->event]))
        find_devices(f, m, pulls_low);
}

/* ------------------------------------------------------------------ */
/* B: who is addressed                                                 */

/* Registers that zeros are the pattern of, and a scratchpad that zeros change. */
static void put_registers(uint8_t *body)
{
    memset(body + TA1, 0x00, REGISTERS);
    memset(body + SCRATCHPAD, 0xFF, PAGE_SIZE);
}

/* A device alone, with the events since the last reset that it hears, that of the judgement included. */
static void put_part(struct alone *alone, const struct moment *m, size_t index)
{
    const struct carried c = carried_of(m->judged);
    struct parts parts = parts_of(&c, index);

    alone_put_part(alone, &m->image, index, &c, part_at(&parts, m->judged->event).first, m->judged->event + 1);
    parts_free(&parts);
}

/*
 * Whether a device takes the command. One that waits answers ones and stays as it is, whatever comes. To one that takes
 * it come zeros in the place of address and data, or of a pattern; and then it answers with a zero, or has other bytes
 * in its scratchpad.
 */
static bool takes_command(const struct moment *m, size_t index)
{
    enum { ZEROS = 24, READS = 8 };
    const bool add_only = image_device(&m->image, index).kind->add_only;
    const bool overdrive = is_overdrive(m->judged->session->events.data[m->judged->event]);
    struct alone alone = { 0 };
    uint64_t copied;

    put_part(&alone, m, index);

    uint8_t *const body = alone.image.data + ALONE;

    alone_add(&alone, slot_of(false, overdrive), ZEROS);
    alone_add(&alone, slot_of(true, overdrive), READS);
    if (!add_only)
        put_registers(body);

    const bool run = alone_run(&alone, &copied);
    const bool zero = run && memchr(alone.answers.data + alone.answers.length - READS, 0, READS);
    const bool taken = zero || (run && !add_only && body[SCRATCHPAD] != 0xFF);

    alone_free(&alone);
    return taken;
}

static void find_command(struct findings *f, const struct moment *m)
{
    const struct carried c = carried_of(m->judged);

    f->command = byte_before(&c, m->judged->event + 1);
    find_devices(f, m, takes_command);
}

/* ------------------------------------------------------------------ */
/* C: the read back                                                    */

/* The copies of the transaction, of which the last is accepted with the event. Two at once would break B before. */
static void find_copy(struct findings *f, const struct moment *m)
{
    const struct carried c = carried_of(m->judged);
    const size_t event = m->judged->event;
    const struct bytes part = { .data = c.events->data + m->start, .length = event + 1 - m->start };
    struct copies copies = copies_of(&m->image, &part, c.levels + m->start);

    if (copies.count > 0 && m->start + copies.list[copies.count - 1].event == event) {
        f->devices[f->count++] = copies.list[copies.count - 1].device;
        f->readback = readback_of(&c, f->devices[0], event);
    }
    copies_free(&copies);
}

struct findings findings_of(const struct judged *j)
{
    struct moment m = moment_of(j);
    struct findings f = { 0 };

    if (j->rule == RULE_A)
        find_answer(&f, &m);
    else if (j->rule == RULE_B)
        find_command(&f, &m);
    else
        find_copy(&f, &m);
    bytes_free(&m.image);
    return f;
}
