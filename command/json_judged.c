#include "json_reports.h"

static void add_step(struct json *j, const struct judged *judged)
{
    const struct step *const step = step_of(judged->session, judged->event);

    json_text(j, "file", step->file);
    json_number(j, "line", step->line);
    json_text(j, "text", step->text);
}

static void add_devices(struct json *j, const struct findings *f)
{
    json_open(j, "devices", '[');
    for (size_t i = 0; i < f->count; i++)
        json_number(j, NULL, f->devices[i] + 1);
    json_close(j, ']');
}

/* A number, or null where there is none. */
static void add_event(struct json *j, const char *name, bool there, size_t event)
{
    if (there)
        json_number(j, name, event);
    else
        json_null(j, name);
}

static void add_readback(struct json *j, const struct readback *r)
{
    const size_t missing = readback_missing(r);

    json_bytes(j, "needed", r->needed, r->needed_count);
    add_event(j, "write", r->written, r->write);
    add_event(j, "cut_write", r->cut, r->cut_at);
    add_event(j, "read", r->read, r->command);
    if (r->read && missing < r->needed_count) {
        json_bytes(j, "shown", r->shown, r->shown_count);
        json_number(j, "missing", missing);
    }
}

void json_judged(struct json *j, const struct judged *judged, const struct findings *f)
{
    json_print(j, "rule", "%c", "?ABC"[judged->rule]);
    json_number(j, "event", judged->event);
    add_step(j, judged);
    add_devices(j, f);
    if (judged->rule == RULE_A) {
        json_number(j, "recorded", judged->recorded[judged->event]);
        json_number(j, "answered", judged->levels[judged->event]);
    }
    if (judged->rule == RULE_B)
        json_bytes(j, "command", &f->command, 1);
    if (judged->rule == RULE_C && f->count > 0)
        add_readback(j, &f->readback);
}
