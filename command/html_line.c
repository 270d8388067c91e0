#include "html_line.h"

#include "event.h"

#include <string.h>

/* A drawing's measures: the levels from the top, the width of a slot, and where in it the line rises again. */
enum { HEIGHT = 32, TOP = 2, HIGH = 10, LOW = 28, SLOT = 12, AFTER_ONE = 3, AFTER_DEVICE = 8, AFTER_ZERO = 10 };

/* A reset is a long low and, where devices are there, their shorter one. */
enum { RESET_WIDTH = 64, RESET_RISE = 34, PRESENCE = 40, PRESENCE_RISE = 54, PULSE_WIDTH = 40 };

/* ------------------------------------------------------------------ */
/* Drawings                                                            */

/* A low of the line from one place to another. */
static void add_low(struct bytes *path, int from, int to)
{
    bytes_print(path, "H%dV%dH%dV%d", from, LOW, to, HIGH);
}

/* A stroke where devices hold the line. */
static void add_held(struct bytes *path, int from, int to)
{
    bytes_print(path, "M%d %dH%d", from, LOW, to);
}

static void draw_slots(struct bytes *line, struct bytes *held, const uint8_t *events, const uint8_t *answers,
                       size_t count)
{
    for (size_t i = 0; i < count; i++) {
        const int start = SLOT * (int)i + 1;
        const int rise = !sends_one(events[i]) ? AFTER_ZERO : answers[i] ? AFTER_ONE : AFTER_DEVICE;

        add_low(line, start, start + rise);
        if (sends_one(events[i]) && !answers[i])
            add_held(held, start + AFTER_ONE, start + rise);
    }
    bytes_print(line, "H%d", SLOT * (int)count);
}

static void draw_reset(struct bytes *line, struct bytes *held, bool presence)
{
    add_low(line, 2, RESET_RISE);
    if (presence) {
        add_low(line, PRESENCE, PRESENCE_RISE);
        add_held(held, PRESENCE, PRESENCE_RISE);
    }
    bytes_print(line, "H%d", RESET_WIDTH);
}

static void draw_pulse(struct bytes *line)
{
    bytes_print(line, "H6V%dH%dV%dH%d", TOP, PULSE_WIDTH - 6, HIGH, PULSE_WIDTH);
}

static void add_drawing(struct bytes *page, int width, const struct bytes *line, const struct bytes *held)
{
    bytes_print(page, "<svg width=\"%d\" height=\"%d\" viewBox=\"0 0 %d %d\"><path d=\"M0 %d%.*s\"/>", width, HEIGHT,
                width, HEIGHT, HIGH, (int)line->length, (const char *)line->data);
    if (held->length > 0)
        bytes_print(page, "<path class=\"device\" d=\"%.*s\"/>", (int)held->length, (const char *)held->data);
    bytes_print(page, "</svg>");
}

static void draw(struct bytes *page, const uint8_t *events, const uint8_t *answers, size_t count)
{
    struct bytes line = { 0 }, held = { 0 };
    const int width = is_slot(*events) ? SLOT * (int)count : is_reset(*events) ? RESET_WIDTH : PULSE_WIDTH;

    if (is_slot(*events))
        draw_slots(&line, &held, events, answers, count);
    else if (is_reset(*events))
        draw_reset(&line, &held, !*answers);
    else
        draw_pulse(&line);
    add_drawing(page, width, &line, &held);
    bytes_free(&line);
    bytes_free(&held);
}

/* ------------------------------------------------------------------ */
/* Bytes and steps                                                     */

/* The byte that levels spell, or the levels themselves where they are fewer than eight. */
static void add_levels(struct bytes *page, const uint8_t *levels, size_t count)
{
    if (count == 8)
        bytes_print(page, "%02X", byte_of_levels(levels));
    for (size_t i = 0; count < 8 && i < count; i++)
        bytes_print(page, "%d", levels[i] & 1);
}

/* One byte, or the slots that are left, or a reset or a pulse. */
static void add_figure(struct bytes *page, const uint8_t *events, const uint8_t *answers, size_t count, bool written)
{
    const bool differs = is_slot(*events) && written && !is_as_sent(events, answers, count);

    bytes_print(page, "<figure%s%s>", differs ? " class=\"not\"" : "", is_overdrive(*events) ? " data-fast" : "");
    draw(page, events, answers, count);
    bytes_print(page, "<figcaption>");
    if (is_slot(*events)) {
        bytes_print(page, "<i>");
        add_levels(page, events, count);
        bytes_print(page, "</i><br>");
        add_levels(page, answers, count);
    } else {
        bytes_print(page, "%s%s", is_overdrive(*events) ? "overdrive " : "",
                    !is_reset(*events) ? "pulse" : *answers ? "no presence" : "presence");
    }
    bytes_print(page, "</figcaption></figure>");
}

static void add_step(struct bytes *page, const struct run_outcome *run, const struct step *step, size_t first,
                     size_t end)
{
    const uint8_t *const events = run->session->events.data;

    bytes_print(page, "<div class=\"step\"><span>%zu ", step->line);
    html_text(page, step->text, strlen(step->text));
    bytes_print(page, "</span><div>");
    for (size_t next; first < end; first = next) {
        next = row_end(events, first, end, 1);
        add_figure(page, events + first, run->answers + first, next - first, step->written);
    }
    bytes_print(page, "</div></div>\n");
}

/* A step may go over a reset; what of it is in the transaction is drawn. */
void html_line(struct bytes *page, const struct run_outcome *run, size_t first, size_t end)
{
    bytes_print(page, "<div class=\"line\">\n");
    for (size_t i = 0; i < run->session->count; i++) {
        const struct step *const step = &run->session->steps[i];
        const size_t from = step->first > first ? step->first : first;
        const size_t to = step->first + step->count < end ? step->first + step->count : end;

        if (from < to)
            add_step(page, run, step, from, to);
    }
    bytes_print(page, "</div>\n");
}
