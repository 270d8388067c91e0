#include "changes.h"
#include "fields.h"
#include "report.h"

/* Bytes shown side by side, before and after. */
enum { SIDE = 8 };

struct changed {
    FILE *out;
    int margin;
    size_t device; /* whose changes were printed last, or 0 */
};

static void print_bytes(FILE *out, const uint8_t *bytes, size_t count)
{
    for (size_t i = 0; i < count; i++)
        fprintf(out, "%s%02X", i ? " " : "", bytes[i]);
}

/* TA is shown as a number, and of E/S what it is then. */
static void print_register(FILE *out, const struct change *change)
{
    if (change->count == 2) {
        fprintf(out, "%02X%02Xh -> %02X%02Xh", change->before[1], change->before[0], change->after[1],
                change->after[0]);
    } else {
        fprintf(out, "%02Xh -> ", *change->before);
        print_es(out, *change->after);
    }
}

/* The name of a device stands before its first change. */
static void print_change(void *context, const struct change *change)
{
    struct changed *const c = context;
    char name[DEVICE_TEXT];

    if (c->device != change->device->number) {
        device_write(name, change->device);
        fprintf(c->out, "%*s  %s\n", c->margin, "", name);
    }
    c->device = change->device->number;
    fprintf(c->out, "%*s     %-10s  ", c->margin, "", change->field);
    if (change->digits == 0) {
        print_register(c->out, change);
    } else {
        fprintf(c->out, "%0*zXh  ", change->digits, change->address);
        print_bytes(c->out, change->before, change->count);
        fputs(" -> ", c->out);
        print_bytes(c->out, change->after, change->count);
    }
    fputc('\n', c->out);
}

void report_changes(FILE *out, int margin, const struct bytes *before, const struct bytes *after)
{
    struct changed changed = { out, margin, 0 };

    changes_each(before, after, SIDE, print_change, &changed);
}
