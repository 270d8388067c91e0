#include "trace.h"

#include "bench.h"

#include <string.h>

/* ------------------------------------------------------------------ */
/* Writing                                                             */

void trace_event(struct trace *t, enum event event)
{
    if (t->length < MOST_EVENTS)
        t->events[t->length++] = (uint8_t)event;
}

void trace_repeat(struct trace *t, enum event event, size_t count)
{
    for (size_t i = 0; i < count; i++)
        trace_event(t, event);
}

/* Past 64 bits come zeros. */
void trace_bits(struct trace *t, uint64_t bits, size_t count)
{
    for (size_t i = 0; i < count; i++) {
        trace_event(t, bits & 1 ? WRITE_ONE : WRITE_ZERO);
        bits >>= 1;
    }
}

void trace_byte(struct trace *t, uint8_t byte)
{
    trace_bits(t, byte, 8);
}

void trace_bytes(struct trace *t, const uint8_t *bytes, size_t count)
{
    for (size_t i = 0; i < count; i++)
        trace_byte(t, bytes[i]);
}

void trace_address(struct trace *t, uint16_t address)
{
    trace_bits(t, address, 16);
}

void trace_events(struct trace *t, const uint8_t *events, size_t count)
{
    for (size_t i = 0; i < count; i++)
        trace_event(t, (enum event)events[i]);
}

void trace_read(struct trace *t, size_t slots)
{
    trace_repeat(t, WRITE_ONE, slots);
}

void trace_skip(struct trace *t)
{
    trace_event(t, RESET);
    trace_byte(t, SKIP_ROM);
}

void trace_match(struct trace *t, const uint8_t *code)
{
    trace_event(t, RESET);
    trace_byte(t, MATCH_ROM);
    trace_bytes(t, code, CODE_BYTES);
}

void trace_search_path(struct trace *t, const uint8_t *code)
{
    for (size_t i = 0; i < CODE_BITS; i++) {
        trace_read(t, 2);
        trace_bits(t, code[i / 8] >> i % 8, 1);
    }
}

void trace_search(struct trace *t, const uint8_t *code)
{
    trace_event(t, RESET);
    trace_byte(t, SEARCH_ROM);
    trace_search_path(t, code);
}

void trace_hurry(struct trace *t, size_t from)
{
    for (size_t i = from; i < t->length; i++)
        if (t->events[i] <= RESET)
            t->events[i] += OVERDRIVE_ZERO;
}

void trace_overdrive_skip(struct trace *t)
{
    trace_event(t, RESET);
    trace_byte(t, OVERDRIVE_SKIP_ROM);
}

void trace_overdrive_match(struct trace *t, const uint8_t *code)
{
    size_t from;

    trace_event(t, RESET);
    trace_byte(t, OVERDRIVE_MATCH_ROM);
    from = t->length;
    trace_bytes(t, code, CODE_BYTES);
    trace_hurry(t, from);
}

/* ------------------------------------------------------------------ */
/* Cutting                                                             */

static void insert(struct trace *t, size_t place, enum event event)
{
    for (size_t i = t->length; i > place; i--)
        t->events[i] = t->events[i - 1];
    t->events[place] = (uint8_t)event;
    t->length++;
}

static void leave_out(struct trace *t, size_t place)
{
    if (place == t->length)
        return;
    t->length--;
    for (size_t i = place; i < t->length; i++)
        t->events[i] = t->events[i + 1];
}

void trace_cut(struct trace *t, enum cut way, size_t place)
{
    static const enum event events[] = {
        [ZERO_THERE] = WRITE_ZERO,
        [ONE_THERE] = WRITE_ONE,
        [RESET_THERE] = RESET,
        [PULSE_THERE] = PULSE,
        [OVERDRIVE_ZERO_THERE] = OVERDRIVE_ZERO,
        [OVERDRIVE_ONE_THERE] = OVERDRIVE_ONE,
        [OVERDRIVE_RESET_THERE] = OVERDRIVE_RESET,
    };

    switch (way) {
    case ENDS_THERE:
        t->length = place;
        break;
    case RESET_ENDS:
        t->length = place;
        trace_event(t, RESET);
        break;
    case LEFT_OUT:
        leave_out(t, place);
        break;
    default:
        insert(t, place, events[way]);
    }
}

/* ------------------------------------------------------------------ */
/* Showing                                                             */

const char *event_name(uint8_t event)
{
    static const char *const names[NO_EVENT] = {
        "write-zero slot",           "write-one slot",
        "reset",                     "program pulse",
        "write-zero overdrive slot", "write-one overdrive slot",
        "overdrive reset"
    };

    return event < NO_EVENT ? names[event] : "no event";
}

static int is_overdrive(uint8_t event)
{
    return event >= OVERDRIVE_ZERO;
}

static int is_slot(uint8_t event)
{
    return event <= WRITE_ONE || event == OVERDRIVE_ZERO
           || event == OVERDRIVE_ONE;
}

/*
 * The end of the row that starts at an event: up to eight slots of a speed, or
 * one event.
 */
static size_t row_end(const struct trace *t, size_t start)
{
    const int overdrive = is_overdrive(t->events[start]);
    size_t end = start;

    while (end < t->length && end < start + 8 && is_slot(t->events[end])
           && is_overdrive(t->events[end]) == overdrive)
        end++;
    return end > start ? end : start + 1;
}

/* Room for eight levels and their byte, and the speed. */
enum { COLUMN_ROOM = 24 };

/*
 * Levels in the order they came, and the byte where there are eight.  What is
 * no level is a question mark.
 */
static void write_levels(char *text, const uint8_t *levels, size_t count)
{
    unsigned byte = 0;

    for (size_t i = 0; i < count; i++) {
        text[i] = levels[i] <= 1 ? (char)('0' + levels[i]) : '?';
        byte |= (levels[i] & 1u) << i;
    }
    text[count] = '\0';
    if (count == 8)
        snprintf(text + 8, COLUMN_ROOM - 8, " %02X", byte);
}

static void write_slots(char *text, const uint8_t *events, size_t count)
{
    const int overdrive = is_overdrive(*events);
    uint8_t bits[8];

    for (size_t i = 0; i < count; i++)
        bits[i] = events[i] - (overdrive ? OVERDRIVE_ZERO : WRITE_ZERO);
    write_levels(text, bits, count);
    if (overdrive)
        strcat(text, " fast");
}

static void write_sent(char *text, const uint8_t *events, size_t count)
{
    if (is_slot(*events))
        write_slots(text, events, count);
    else if (*events == RESET)
        strcpy(text, "reset");
    else if (*events == OVERDRIVE_RESET)
        strcpy(text, "reset fast");
    else if (*events == PULSE)
        strcpy(text, "pulse");
    else
        snprintf(text, COLUMN_ROOM, "byte %02X", *events);
}

static void show_row(FILE *out, const struct trace *t, size_t start,
                     size_t end, const struct column columns[COLUMNS])
{
    const int both = columns[0].answers && columns[1].answers;
    char sent[COLUMN_ROOM], given[COLUMNS][COLUMN_ROOM] = { "-", "-" };

    write_sent(sent, t->events + start, end - start);
    for (int i = 0; i < COLUMNS; i++)
        if (columns[i].answers)
            write_levels(given[i], columns[i].answers + start, end - start);
    fprintf(out, "  %6zu  %-16s  %-11s  %s%s\n", start, sent, given[0],
            given[1], both && strcmp(given[0], given[1]) ? "  <--" : "");
}

static size_t count_rows(const struct trace *t)
{
    size_t rows = 0;

    for (size_t i = 0; i < t->length; i = row_end(t, i))
        rows++;
    return rows;
}

void trace_show(FILE *out, const struct trace *t,
                const struct column columns[COLUMNS])
{
    enum { FIRST_ROWS = 20, LAST_ROWS = 100 };
    const size_t rows = count_rows(t);
    size_t row = 0;

    fprintf(out, "   event  %-16s  %-11s  %s\n", "sent", columns[0].name,
            columns[1].name);
    for (size_t i = 0; i < t->length; i = row_end(t, i), row++) {
        if (row < FIRST_ROWS || row + LAST_ROWS >= rows)
            show_row(out, t, i, row_end(t, i), columns);
        else if (row == FIRST_ROWS)
            fprintf(out, "     ...  %zu rows left out\n",
                    rows - FIRST_ROWS - LAST_ROWS);
    }
}
