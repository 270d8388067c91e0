#include "explain.h"

#include "event.h"
#include "image.h"
#include "report.h"

/* "line 4, event 16: send 0F 26 00"; of raw events, which have no lines, the event and where its transaction begins. */
static void print_place(FILE *out, const struct judged *j, size_t event)
{
    const struct session *const s = j->session;
    const struct step *const step = step_of(s, event);
    const struct carried c = carried_of(j);

    if (s->raw) {
        fprintf(out, "  event %zu, of the transaction from event %zu on\n", event, transaction_start(&c, event));
        return;
    }
    fprintf(out, "  %s %zu", s->unit, step->line);
    if (step->file != s->name)
        fprintf(out, " of %s", step->file);
    fprintf(out, ", event %zu: %s\n", event, step->text);
}

static void write_device(char name[DEVICE_TEXT], const struct judged *j, size_t index)
{
    const struct device device = image_device(&j->session->image, index);

    device_write(name, &device);
}

/* A line each. */
static void print_devices(FILE *out, const struct judged *j, const struct findings *f)
{
    char name[DEVICE_TEXT];

    for (size_t i = 0; i < f->count; i++) {
        write_device(name, j, f->devices[i]);
        fprintf(out, "    %s\n", name);
    }
}

/* ------------------------------------------------------------------ */
/* A and B                                                             */

static void explain_answer(FILE *out, const struct judged *j, const struct findings *f)
{
    const uint8_t event = j->session->events.data[j->event], level = j->levels[j->event];

    fprintf(out, "    recorded as %u, and the bench answers %u: ", j->recorded[j->event], level);
    if (is_regular_reset(event))
        fputs(level ? "there is no device on the line\n" : "a device is on the line\n", out);
    else if (is_reset(event))
        fprintf(out, "%s device is at overdrive to hear the reset\n", level ? "no" : "a");
    else if (!is_slot(event))
        fputs("a program pulse is always answered so\n", out);
    else if (!sends_one(event))
        fputs("the master sends a 0\n", out);
    else
        fprintf(out, "the master sends a 1, and %s device pulls low\n", level ? "no" : "a");
    print_devices(out, j, f);
}

static void explain_command(FILE *out, const struct judged *j, const struct findings *f)
{
    fprintf(out, "    the memory command %02Xh is complete, and more than one device is there to take it\n",
            f->command);
    print_devices(out, j, f);
}

/* ------------------------------------------------------------------ */
/* C                                                                   */

static void print_copy(FILE *out, const struct judged *j, const struct findings *f)
{
    const struct readback *const r = &f->readback;
    const size_t bytes = r->needed_count - REGISTERS;
    char name[DEVICE_TEXT];

    write_device(name, j, f->devices[0]);
    fprintf(out, "    a copy that %s accepts: TA %02X%02Xh, E/S %02Xh, ", name, r->needed[1], r->needed[0],
            r->needed[2]);
    if (bytes == 0) {
        fputs("no byte\n", out);
        return;
    }
    report_number(out, bytes, "byte", "bytes");
    fprintf(out, " of its scratchpad from %02Xh on\n", r->needed[0] % PAGE_SIZE);
}

static void print_write(FILE *out, const struct judged *j, const struct readback *r)
{
    if (r->written) {
        print_place(out, j, r->write);
        fputs("    its last write scratchpad (0Fh) takes its address\n", out);
        return;
    }
    fputs("    no write scratchpad (0Fh) to it comes before\n", out);
    if (r->cut) {
        print_place(out, j, r->cut_at);
        fputs("    a write scratchpad that ends before its 16th address bit, and is none\n", out);
    }
}

/* "TA1", or "the byte at 06h": one of those that a copy needs to have been shown, by its place among them. */
enum { ITEM = 32 };
static void write_item(char item[ITEM], const struct readback *r, size_t i)
{
    static const char *const registers[REGISTERS] = { "TA1", "TA2", "E/S" };

    if (i < REGISTERS)
        snprintf(item, ITEM, "%s", registers[i]);
    else
        snprintf(item, ITEM, "the byte at %02zXh", r->needed[0] % PAGE_SIZE + i - REGISTERS);
}

static void print_row(FILE *out, const char *name, const uint8_t *bytes, size_t count, size_t all)
{
    fprintf(out, "    %-6s", name);
    for (size_t i = 0; i < count; i++)
        fprintf(out, " %02X", bytes[i]);
    for (size_t i = count; i < all; i++)
        fputs(" --", out);
    fputc('\n', out);
}

/* The nearest read, and what it shows otherwise; that there is such a thing is the library's word. */
static void print_read(FILE *out, const struct judged *j, const struct readback *r)
{
    const size_t i = readback_missing(r);
    char item[ITEM];

    write_item(item, r, i);
    print_place(out, j, r->command);
    fputs("    the nearest read scratchpad (AAh) since then ", out);
    if (i == r->needed_count)
        fputs("does not do\n", out);
    else if (i >= r->shown_count)
        fprintf(out, "ends before %s\n", item);
    else
        fprintf(out, "shows %s as %02Xh, and it is %02Xh when it is copied\n", item, r->shown[i], r->needed[i]);
    print_row(out, "needed", r->needed, r->needed_count, r->needed_count);
    print_row(out, "shown", r->shown, r->shown_count, r->needed_count);
}

static void explain_copy(FILE *out, const struct judged *j, const struct findings *f)
{
    if (f->count == 0) {
        fputs("    a copy that is accepted, and was not written and read back before\n", out);
        return;
    }
    print_copy(out, j, f);
    print_write(out, j, &f->readback);
    if (f->readback.read)
        print_read(out, j, &f->readback);
    else if (f->readback.written)
        fputs("    no read scratchpad (AAh) of it comes since then\n", out);
}

/* ------------------------------------------------------------------ */
/* All of them                                                         */

void explain(FILE *out, const struct judged *j, const struct findings *f)
{
    static const struct {
        const char *rule;
        void (*explain)(FILE *out, const struct judged *j, const struct findings *f);
    } rules[] = {
        [RULE_A] = { "A, the bench's answers", explain_answer },
        [RULE_B] = { "B, one device at a time", explain_command },
        [RULE_C] = { "C, a read back before each copy", explain_copy },
    };

    fprintf(out, "%s: not accepted: rule %s\n", j->session->name, rules[j->rule].rule);
    print_place(out, j, j->event);
    rules[j->rule].explain(out, j, f);
}
