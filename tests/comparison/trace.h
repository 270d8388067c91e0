/* Traces: written command by command, and shown to a person. */
#ifndef TRACE_H
#define TRACE_H

#include <stddef.h>
#include <stdint.h>
#include <stdio.h>

enum event {
    WRITE_ZERO,
    WRITE_ONE,
    RESET,
    PULSE,
    OVERDRIVE_ZERO,
    OVERDRIVE_ONE,
    OVERDRIVE_RESET,
    NO_EVENT /* the first byte that is none */
};

enum {
    MOST_EVENTS = 32768,
    TRACE_ROOM = MOST_EVENTS + 512 /* for traces that are too long */
};

/* ROM commands. */
enum {
    READ_ROM = 0x33,
    MATCH_ROM = 0x55,
    SKIP_ROM = 0xCC,
    SEARCH_ROM = 0xF0,
    OVERDRIVE_SKIP_ROM = 0x3C, /* of a DS1996, as the next */
    OVERDRIVE_MATCH_ROM = 0x69
};

/* Memory commands of a DS1992, DS1993 or DS1996. */
enum {
    WRITE_SCRATCHPAD = 0x0F,
    COPY_SCRATCHPAD = 0x55,
    READ_SCRATCHPAD = 0xAA,
    READ_MEMORY = 0xF0
};

/* Memory commands of a DS1982. */
enum {
    WRITE_DATA = 0x0F,
    WRITE_STATUS = 0x55,
    READ_STATUS = 0xAA,
    READ_DATA_BY_PAGE = 0xC3,
    READ_DATA = 0xF0
};

struct trace {
    size_t length;
    uint8_t events[TRACE_ROOM];
};

/* Each adds to the end of a trace; what is over MOST_EVENTS is dropped. */
void trace_event(struct trace *t, enum event event);
void trace_repeat(struct trace *t, enum event event, size_t count);
void trace_bits(struct trace *t, uint64_t bits, size_t count);
void trace_byte(struct trace *t, uint8_t byte);
void trace_bytes(struct trace *t, const uint8_t *bytes, size_t count);
void trace_address(struct trace *t, uint16_t address);
void trace_events(struct trace *t, const uint8_t *events, size_t count);

/* Slots in which the master only listens. */
void trace_read(struct trace *t, size_t slots);

/* A reset and Skip ROM, Match ROM, or the path of a search to a code. */
void trace_skip(struct trace *t);
void trace_match(struct trace *t, const uint8_t *code);
void trace_search(struct trace *t, const uint8_t *code);

/* What Search ROM sends after its command to come to a code. */
void trace_search_path(struct trace *t, const uint8_t *code);

/* A reset and Overdrive Skip ROM; or Match, whose code is at overdrive. */
void trace_overdrive_skip(struct trace *t);
void trace_overdrive_match(struct trace *t, const uint8_t *code);

/* Turns slots and resets from a place on into those at overdrive. */
void trace_hurry(struct trace *t, size_t from);

/* A trace ends at a place, or gets an event there, or lacks the one there. */
enum cut {
    ENDS_THERE,
    RESET_ENDS,
    RESET_THERE,
    ZERO_THERE,
    ONE_THERE,
    PULSE_THERE,
    OVERDRIVE_ZERO_THERE,
    OVERDRIVE_ONE_THERE,
    OVERDRIVE_RESET_THERE,
    LEFT_OUT,
    WAYS_TO_CUT
};

void trace_cut(struct trace *t, enum cut way, size_t place);

/* The name of an event byte. */
const char *event_name(uint8_t event);

/* Answers to a trace, shown beside it; there may be none. */
struct column {
    const char *name;
    const uint8_t *answers; /* or NULL */
};

enum { COLUMNS = 2 };

/*
 * Shows a trace, a byte's worth of slots in a line, beside two columns of
 * answers.  The middle of a long trace is left out.
 */
void trace_show(FILE *out, const struct trace *t,
                const struct column columns[COLUMNS]);

#endif
