/*
 * Sessions: what a master does on the line, written as text with one step a line, or a trace of raw events. A step is a
 * run of events with the text that it came from, or has none and says something of the steps before it.
 */
#ifndef SESSION_H
#define SESSION_H

#include "bytes.h"

#include <stdbool.h>

struct step {
    const char *file; /* what its line is of */
    size_t line;      /* of the text, from 1; for raw events the place of the first, from 0 */
    char *text;
    size_t first, count; /* events */
    size_t asked;        /* how many of them come before those that are there to be answered */
    bool written;        /* its slots are written by the master, and not there to be read */
    char *note;          /* of a step without events: what the report says of it, or null */
    bool expects;        /* it is an expectation */
    bool failed;         /* one that is not met */
};

struct session {
    const char *name;
    const char *unit; /* what step.line counts */
    struct bytes image; /* of the devices, before the first event */
    struct bytes events;
    struct step *steps;
    size_t count, room;
    size_t expectations, failures;
    char **files; /* the names of the texts that are included */
    size_t file_count;
    bool raw; /* events that were no text */
    bool cut; /* there is more of the text, but no trace is that long */
};

/*
 * Reads a session for the devices of an image, or, where that is null, of the bench that it begins with. Returns DONE,
 * or says why not.
 */
int session_read(struct session *s, const char *path, const struct bytes *image);

/* Reads raw events, cut into steps at resets and pulses. Returns DONE, or says why not. */
int session_read_raw(struct session *s, const char *path, const struct bytes *image);

/* Adds a step with a text of its own. */
void session_step(struct session *s, size_t line, const char *text, size_t length);

/* Adds events to the last step. */
void step_events(struct session *s, const uint8_t *events, size_t count);

/* The step that an event is of, of a session that has events. */
const struct step *step_of(const struct session *s, size_t event);

/* A number for a step: its line, and in a text that is included one that no other text has. */
size_t step_number(const struct session *s, const struct step *step);

/* Says every expectation that is not met, by its line. Returns DONE where all are, else NOT_MET. */
int session_verdict(const struct session *s);

void session_free(struct session *s);

/*
 * No trace is near this long, which the library says. It only keeps a short text from asking for all memory, and a text
 * that never ends from being read for ever.
 */
enum { FAR_TOO_LONG = 1 << 20 };

#endif
