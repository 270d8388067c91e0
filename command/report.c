#include "report.h"

#include "changes.h"
#include "copies.h"
#include "event.h"
#include "image.h"
#include "parts.h"
#include "progress.h"
#include "style.h"
#include "transactions.h"

#include <string.h>

/*
 * Widths of the columns: a step's number with two blanks, its text, and what was sent: eight bytes with blanks between.
 */
enum { MARGIN = 7, TEXT = 28, SENT = 23, ROW_BYTES = 8, CELL = 32 };

/* ------------------------------------------------------------------ */
/* Rows: the events that are shown together                            */

size_t row_end(const uint8_t *events, size_t first, size_t end, size_t most_bytes)
{
    size_t last = first;

    while (last < end && last < first + 8 * most_bytes && is_slot(events[last]) &&
           is_overdrive(events[last]) == is_overdrive(events[first]))
        last++;
    if (last - first >= 8)
        last -= (last - first) % 8;
    return last > first ? last : first + 1;
}

/* Levels in their order. */
static size_t write_bits(char *cell, const uint8_t *levels, size_t count)
{
    for (size_t i = 0; i < count; i++)
        cell[i] = levels[i] & 1 ? '1' : '0';
    cell[count] = '\0';
    return count;
}

/* The bytes that levels spell, or, where there are fewer than eight, the levels themselves. */
static void write_levels(char cell[CELL], const uint8_t *levels, size_t count, bool bits)
{
    size_t at = 0;

    if (count < 8) {
        at = write_bits(cell, levels, count);
        strcpy(cell + at, "b");
        return;
    }
    if (bits) {
        at = write_bits(cell, levels, 8);
        snprintf(cell + at, CELL - at, "  %02X", byte_of_levels(levels));
        return;
    }
    for (size_t i = 0; i < count; i += 8)
        at += (size_t)snprintf(cell + at, CELL - at, "%s%02X", i ? " " : "", byte_of_levels(levels + i));
}

static void write_sent(char cell[CELL], const uint8_t *events, size_t count, bool bits)
{
    if (is_slot(*events))
        write_levels(cell, events, count, bits);
    else
        strcpy(cell, !is_reset(*events) ? "pulse" : is_overdrive(*events) ? "overdrive reset" : "reset");
}

static void write_answered(char cell[CELL], uint8_t event, const uint8_t *levels, size_t count, bool bits)
{
    if (is_slot(event))
        write_levels(cell, levels, count, bits);
    else if (is_reset(event))
        strcpy(cell, *levels ? "no presence" : "presence");
    else
        strcpy(cell, "-");
}

/* ------------------------------------------------------------------ */
/* Steps                                                               */

/* A number only in a step's first row; a text that is too long has a row of its own. */
static void print_label(FILE *out, const struct step *step, bool first)
{
    if (!first)
        fprintf(out, "%5s  %-*s  ", "", TEXT, "");
    else if (strlen(step->text) <= TEXT)
        fprintf(out, "%5zu  %-*s  ", step->line, TEXT, step->text);
    else
        fprintf(out, "%5zu  %s\n%5s  %-*s  ", step->line, step->text, "", TEXT, "");
}

/* Where the line was not as the master wrote it: a mark, and the bytes or slots of the row, counted from 1. */
static void print_mark(FILE *out, const uint8_t *events, const uint8_t *answers, size_t count, bool bits)
{
    const size_t width = count < 8 || bits ? 1 : 8;
    const char *before = width == 1 ? "  ! not as sent: slot " : "  ! not as sent: byte ";

    for (size_t i = 0; i < count; i += width)
        if (!is_as_sent(events + i, answers + i, width)) {
            fprintf(out, "%s%zu", before, i / width + 1);
            before = ", ";
        }
}

/* What is needed to print a row. */
struct report {
    FILE *out;
    const struct bytes *all; /* events */
    const uint8_t *events, *answers;
    bool bits, colour, changed;
    struct transactions transactions;
    const struct bytes *image; /* before the run */
    struct copies copies;
    size_t shown; /* of the copies */
    const char *file; /* that the last step is of */
    struct bytes *starts; /* of transactions, or null */
};

/* What the transaction that ends at a place changed, under its steps. */
static void print_changes(struct report *r, size_t end)
{
    if (!transactions_next(&r->transactions, end))
        return;
    fprintf(r->out, "%*schanged\n", MARGIN, "");
    report_changes(r->out, MARGIN, &r->transactions.before, &r->transactions.after);
    r->changed = true;
}

static void print_row(struct report *r, const struct step *step, size_t from, size_t to)
{
    const uint8_t event = r->events[from];
    char sent[CELL], answered[CELL];

    write_sent(sent, r->events + from, to - from, r->bits);
    write_answered(answered, event, r->answers + from, to - from, r->bits);
    print_label(r->out, step, from == step->first);
    fprintf(r->out, "%-*s  ", SENT, sent);
    style_bright(r->out, r->colour && is_slot(event) && strcmp(sent, answered) != 0, answered);
    if (is_slot(event) && step->written)
        print_mark(r->out, r->events + from, r->answers + from, to - from, r->bits);
    if (is_slot(event) && is_overdrive(event))
        fputs("  (overdrive)", r->out);
    fputc('\n', r->out);
}

/* What the copies did whose patterns end in the events of a row, under it. */
static void print_copies(struct report *r, size_t to)
{
    char name[DEVICE_TEXT];

    for (; r->shown < r->copies.count && r->copies.list[r->shown].event < to; r->shown++) {
        const struct copy *const copy = &r->copies.list[r->shown];
        const struct device device = image_device(r->image, copy->device);

        device_write(name, &device);
        fprintf(r->out, "%*scopied by %s: ", MARGIN, "", name);
        if (copy->bytes > 0)
            report_number(r->out, copy->bytes, "byte", "bytes");
        else
            fputs("nothing", r->out);
        fprintf(r->out, " at %04Xh\n", copy->address);
    }
}

/* Where the steps of another text begin, its name. */
static void print_file(struct report *r, const struct step *step)
{
    if (step->file != r->file)
        fprintf(r->out, "%*sin %s\n", MARGIN, "", step->file);
    r->file = step->file;
}

/* What a step without events says of those before it, on the same line as a text of any length. */
static void print_note(struct report *r, const struct step *step)
{
    fprintf(r->out, "%5zu  %-*s  ", step->line, TEXT, step->text);
    if (step->failed)
        fputs("! ", r->out);
    style_bright(r->out, r->colour && step->failed, step->note);
    fputc('\n', r->out);
}

/* The devices that are at overdrive at the end of a transaction, in a line each. */
static void print_speeds(struct report *r, size_t end)
{
    const struct carried carried = { r->image, r->all, r->answers };
    char name[DEVICE_TEXT];

    for (size_t i = 0; end > 0 && i < image_count(r->image); i++) {
        const struct device device = image_device(r->image, i);

        device_write(name, &device);
        if (device.kind->overdrive && is_at_overdrive(&carried, i, r->transactions.start, end))
            fprintf(r->out, "%*sat overdrive: %s\n", MARGIN, "", name);
    }
}

/* A transaction starts with the reset whose row comes next. */
static void start_transaction(struct report *r, size_t at)
{
    print_speeds(r, at);
    print_changes(r, at + 1);
    if (r->starts) {
        fflush(r->out);
        bytes_add(r->starts, &(long){ ftell(r->out) }, sizeof(long));
    }
}

static void print_step(struct report *r, const struct step *step)
{
    const size_t end = step->first + step->count;

    if (step->count > 0 || step->note)
        print_file(r, step);
    if (step->note)
        print_note(r, step);
    for (size_t i = step->first, next; i < end; i = next) {
        next = row_end(r->events, i, end, r->bits ? 1 : ROW_BYTES);
        if (is_regular_reset(r->events[i]))
            start_transaction(r, i);
        print_row(r, step, i, next);
        print_copies(r, next);
    }
}

/* Returns whether a transaction changed a device. */
static bool print_steps(FILE *out, const struct run_outcome *run, bool bits, struct bytes *starts)
{
    const struct session *const s = run->session;
    struct progress progress = progress_start("events shown", s->events.length);
    struct report r = { .out = out, .events = s->events.data, .answers = run->answers, .bits = bits, .starts = starts };

    r.colour = !starts && style_wanted(out);
    r.image = &s->image;
    r.all = &s->events;
    r.file = s->name;
    r.copies = copies_of(&s->image, &s->events, run->answers);
    r.transactions = transactions_of(&s->image, &s->events);
    fprintf(out, "%5s  %-*s  %-*s  %s\n", s->unit, TEXT, "step", SENT, "sent", "answered");
    for (size_t i = 0; i < s->count; i++) {
        print_step(&r, &s->steps[i]);
        progress_at(&progress, s->steps[i].first + s->steps[i].count);
    }
    print_speeds(&r, s->events.length);
    print_changes(&r, s->events.length);
    progress_end(&progress);
    transactions_free(&r.transactions);
    copies_free(&r.copies);
    return r.changed;
}

void report_number(FILE *out, uint64_t number, const char *one, const char *many)
{
    fprintf(out, "%llu %s", (unsigned long long)number, number == 1 ? one : many);
}

static void print_counts(FILE *out, const struct bytes *events, uint64_t copied)
{
    size_t resets = 0, pulses = 0;

    for (size_t i = 0; i < events->length; i++) {
        resets += is_reset(events->data[i]);
        pulses += events->data[i] == TROUGHIRON_PULSE;
    }
    report_number(out, events->length, "event", "events");
    fputs(": ", out);
    report_number(out, resets, "reset", "resets");
    fputs(", ", out);
    report_number(out, events->length - resets - pulses, "slot", "slots");
    fputs(", ", out);
    report_number(out, pulses, "pulse", "pulses");
    fputs("; ", out);
    report_number(out, copied, "byte", "bytes");
    fputs(" copied\n", out);
}

static void print_expectations(FILE *out, const struct session *s)
{
    report_number(out, s->expectations, "expectation", "expectations");
    if (s->failures > 0)
        fprintf(out, ", %zu not met\n", s->failures);
    else
        fputs(", all met\n", out);
}

/* What the transactions changed can be nothing in all. */
void report_run(FILE *out, const struct run_outcome *run, bool bits, struct bytes *starts)
{
    const struct bytes *const before = &run->session->image;
    const bool changed = print_steps(out, run, bits, starts);

    fputc('\n', out);
    print_counts(out, &run->session->events, run->copied);
    if (run->session->expectations > 0)
        print_expectations(out, run->session);
    if (image_differs(before, run->after))
        fputs("changed in all\n", out);
    else
        fputs(changed ? "nothing changed in all\n" : "nothing changed\n", out);
    report_changes(out, 0, before, run->after);
}
