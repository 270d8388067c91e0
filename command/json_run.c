#include "changes.h"
#include "copies.h"
#include "event.h"
#include "json_reports.h"
#include "parts.h"
#include "transactions.h"

/* ------------------------------------------------------------------ */
/* Steps                                                               */

static bool are_whole_bytes(const uint8_t *events, size_t count)
{
    for (size_t i = 0; i < count; i++)
        if (!is_slot(events[i]))
            return false;
    return count > 0 && count % 8 == 0;
}

/* The bytes that levels spell. */
static void add_spelled(struct json *j, const char *name, const uint8_t *levels, size_t count)
{
    struct bytes bytes = { 0 };

    for (size_t i = 0; i < count; i += 8)
        bytes_repeat(&bytes, byte_of_levels(levels + i), 1);
    json_bytes(j, name, bytes.data, bytes.length);
    bytes_free(&bytes);
}

/* Bytes only where the step is slots of whole bytes. */
static void add_events(struct json *j, const struct run_outcome *run, const struct step *step)
{
    const uint8_t *const events = run->session->events.data + step->first;
    const uint8_t *const answers = run->answers + step->first;

    json_number(j, "first", step->first);
    json_digits(j, "events", events, step->count);
    json_digits(j, "answers", answers, step->count);
    if (are_whole_bytes(events, step->count)) {
        add_spelled(j, "sent", events, step->count);
        add_spelled(j, "answered", answers, step->count);
    }
}

static void add_steps(struct json *j, const struct run_outcome *run)
{
    json_open(j, "steps", '[');
    for (size_t i = 0; i < run->session->count; i++) {
        const struct step *const step = &run->session->steps[i];

        json_open(j, NULL, '{');
        json_text(j, "file", step->file);
        json_number(j, "line", step->line);
        json_text(j, "text", step->text);
        if (step->count > 0)
            add_events(j, run, step);
        if (step->note)
            json_text(j, "note", step->note);
        if (step->expects)
            json_truth(j, "met", !step->failed);
        json_close(j, '}');
    }
    json_close(j, ']');
}

/* ------------------------------------------------------------------ */
/* Copies and changes                                                  */

static void add_copies(struct json *j, const struct run_outcome *run)
{
    struct copies copies = copies_of(&run->session->image, &run->session->events, run->answers);

    json_open(j, "copies", '[');
    for (size_t i = 0; i < copies.count; i++) {
        json_open(j, NULL, '{');
        json_number(j, "event", copies.list[i].event);
        json_number(j, "device", copies.list[i].device + 1);
        json_print(j, "address", "%04X", copies.list[i].address);
        json_number(j, "bytes", copies.list[i].bytes);
        json_close(j, '}');
    }
    json_close(j, ']');
    copies_free(&copies);
}

/* TA is a number, whose low byte comes first in the body. */
static void add_change(void *context, const struct change *change)
{
    struct json *const j = context;

    json_open(j, NULL, '{');
    json_number(j, "device", change->device->number);
    json_text(j, "field", change->field);
    if (change->digits > 0)
        json_print(j, "address", "%0*zX", change->digits, change->address);
    if (change->digits == 0 && change->count == 2) {
        json_print(j, "before", "%02X%02X", change->before[1], change->before[0]);
        json_print(j, "after", "%02X%02X", change->after[1], change->after[0]);
    } else {
        json_bytes(j, "before", change->before, change->count);
        json_bytes(j, "after", change->after, change->count);
    }
    json_close(j, '}');
}

static void add_changes(struct json *j, const struct bytes *before, const struct bytes *after)
{
    json_open(j, "changes", '[');
    changes_each(before, after, SIZE_MAX, add_change, j);
    json_close(j, ']');
}

static void add_speeds(struct json *j, const struct run_outcome *run, size_t first, size_t end)
{
    const struct carried carried = { &run->session->image, &run->session->events, run->answers };

    json_open(j, "at_overdrive", '[');
    for (size_t i = 0; i < image_count(carried.image); i++)
        if (image_device(carried.image, i).kind->overdrive && is_at_overdrive(&carried, i, first, end))
            json_number(j, NULL, i + 1);
    json_close(j, ']');
}

/* A transaction goes from one reset to the next, which is the one that sets PF for it. */
static void add_transactions(struct json *j, const struct run_outcome *run)
{
    const struct bytes *const events = &run->session->events;
    struct transactions transactions = transactions_of(&run->session->image, events);

    json_open(j, "transactions", '[');
    for (size_t first = 0, end; first < events->length; first = end) {
        for (end = first + 1; end < events->length && !is_regular_reset(events->data[end]);)
            end++;
        (void)transactions_next(&transactions, end < events->length ? end + 1 : end);
        json_open(j, NULL, '{');
        json_number(j, "first", first);
        json_number(j, "events", end - first);
        add_speeds(j, run, first, end);
        add_changes(j, &transactions.before, &transactions.after);
        json_close(j, '}');
    }
    json_close(j, ']');
    transactions_free(&transactions);
}

/* ------------------------------------------------------------------ */
/* The run                                                             */

static void add_counts(struct json *j, const struct run_outcome *run)
{
    const struct bytes *const events = &run->session->events;
    size_t resets = 0, slots = 0;

    for (size_t i = 0; i < events->length; i++) {
        resets += is_reset(events->data[i]);
        slots += is_slot(events->data[i]);
    }
    json_number(j, "events", events->length);
    json_number(j, "resets", resets);
    json_number(j, "slots", slots);
    json_number(j, "pulses", events->length - resets - slots);
    json_number(j, "copied", run->copied);
    json_number(j, "expectations", run->session->expectations);
    json_number(j, "not_met", run->session->failures);
}

void json_run(struct json *j, const struct run_outcome *run)
{
    json_text(j, "session", run->session->name);
    add_steps(j, run);
    add_copies(j, run);
    add_transactions(j, run);
    add_counts(j, run);
    add_changes(j, &run->session->image, run->after);
}
