#include "session.h"

#include "event.h"
#include "reader.h"
#include "status.h"

#include <stdlib.h>
#include <string.h>

/* ------------------------------------------------------------------ */
/* Steps and their events                                              */

void session_step(struct session *s, size_t line, const char *text, size_t length)
{
    char *const copy = grown(NULL, length + 1, 1);

    memcpy(copy, text, length);
    copy[length] = '\0';
    if (s->count == s->room) {
        s->room = 2 * s->room + 16;
        s->steps = grown(s->steps, s->room, sizeof *s->steps);
    }
    s->steps[s->count++] =
        (struct step){ .file = s->name, .line = line, .text = copy, .first = s->events.length };
}

void step_events(struct session *s, const uint8_t *events, size_t count)
{
    bytes_add(&s->events, events, count);
    s->steps[s->count - 1].count += count;
}

/* A step without events begins where the next one does, which comes after it. */
const struct step *step_of(const struct session *s, size_t event)
{
    size_t i = 0;

    while (i + 1 < s->count && s->steps[i + 1].first <= event)
        i++;
    return &s->steps[i];
}

size_t step_number(const struct session *s, const struct step *step)
{
    enum { MOST_LINES = 1000000 };

    for (size_t i = 0; i < s->file_count; i++)
        if (step->file == s->files[i])
            return (i + 1) * MOST_LINES + step->line;
    return step->line;
}

int session_verdict(const struct session *s)
{
    char room[SHOWN_ROOM];

    for (size_t i = 0; i < s->count; i++)
        if (s->steps[i].failed)
            (void)bad_line(s->steps[i].file, s->steps[i].line, "%s (%s)", s->steps[i].note,
                           shown(room, s->steps[i].text));
    return s->failures > 0 ? NOT_MET : DONE;
}

void session_free(struct session *s)
{
    for (size_t i = 0; i < s->count; i++) {
        free(s->steps[i].text);
        free(s->steps[i].note);
    }
    for (size_t i = 0; i < s->file_count; i++)
        free(s->files[i]);
    free(s->files);
    free(s->steps);
    bytes_free(&s->events);
    bytes_free(&s->image);
    *s = (struct session){ 0 };
}

/* ------------------------------------------------------------------ */
/* Raw events                                                          */

/* The end of the step that starts at an event: a run of slots, or one reset or pulse. */
static size_t raw_end(const struct bytes *events, size_t first)
{
    size_t end = first + 1;

    while (is_slot(events->data[first]) && end < events->length && is_slot(events->data[end]))
        end++;
    return end;
}

static const char *raw_text(uint8_t event)
{
    if (is_slot(event))
        return "slots";
    if (is_reset(event))
        return is_overdrive(event) ? "overdrive reset" : "reset";
    return event == TROUGHIRON_PULSE ? "pulse" : "unknown";
}

int session_read_raw(struct session *s, const char *path, const struct bytes *image)
{
    struct bytes events = { 0 };
    const int status = bytes_read_most(&events, path, FAR_TOO_LONG);

    s->name = input_name(path);
    s->unit = "event";
    s->raw = true;
    s->cut = events.length > FAR_TOO_LONG;
    bytes_add(&s->image, image->data, image->length);
    if (s->cut)
        events.length = FAR_TOO_LONG + 1;
    for (size_t i = 0, end; status == DONE && i < events.length; i = end) {
        const char *const text = raw_text(events.data[i]);

        end = raw_end(&events, i);
        session_step(s, i, text, strlen(text));
        step_events(s, events.data + i, end - i);
    }
    bytes_free(&events);
    return status;
}
