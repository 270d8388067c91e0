#include "recorder.h"

#include "event.h"
#include "outputs.h"
#include "status.h"
#include "text.h"

#include <stdlib.h>
#include <string.h>

/* ------------------------------------------------------------------ */
/* The log                                                             */

static bool is_byte(const uint8_t *events, size_t count)
{
    size_t slots = 0;

    while (slots < 8 && slots < count && is_slot(events[slots]) && is_overdrive(events[slots]) == is_overdrive(*events))
        slots++;
    return slots == 8;
}

size_t transaction_bytes(const struct recorder *r, uint8_t *bytes, size_t room)
{
    const size_t end = r->events.length;
    size_t start = end, count = 0;

    while (start > r->transaction + 1 && !is_reset(r->events.data[start - 1]))
        start--;

    for (size_t i = start; i < end && count < room; i += 8) {
        if (!is_byte(r->events.data + i, end - i))
            return count;
        bytes[count] = 0;
        for (unsigned bit = 0; bit < 8; bit++)
            bytes[count] |= (uint8_t)(r->answers.data[i + bit] << bit);
        count++;
    }
    return count;
}

/* A transaction as the line carried it: bytes, single levels, pulses, and resets at overdrive. */
static void log_events(FILE *log, const uint8_t *events, const uint8_t *answers, size_t count)
{
    for (size_t i = 0; i < count;) {
        unsigned byte = 0;

        if (is_byte(events + i, count - i)) {
            for (unsigned bit = 0; bit < 8; bit++)
                byte |= (unsigned)answers[i + bit] << bit;
            fprintf(log, " %02X", byte);
            i += 8;
        } else {
            if (is_reset(events[i]))
                fprintf(log, " overdrive reset, %s:", answers[i] ? "no presence" : "presence");
            else
                fprintf(log, is_slot(events[i]) ? " %db" : " pulse", answers[i]);
            i++;
        }
    }
}

static void log_transaction(struct recorder *r)
{
    const uint8_t *const events = r->events.data + r->transaction, *const answers = r->answers.data + r->transaction;
    const size_t count = r->answers.length - r->transaction;

    if (!r->log || count == 0)
        return;
    fprintf(r->log, "%6zu  %-11s ", ++r->transactions, answers[0] ? "no presence" : "presence");
    log_events(r->log, events + 1, answers + 1, count - 1);
    fputc('\n', r->log);
    fflush(r->log);
}

/* ------------------------------------------------------------------ */
/* Runs in files                                                       */

char *recorded_path(const char *name, size_t run, size_t file)
{
    static const char *const endings[RECORDED_FILES] = { ".image", ".trace", ".answers", ".session" };
    const size_t room = strlen(name) + strlen(endings[file]) + 32;
    char *const path = grown(NULL, room, 1);

    snprintf(path, room, "%s-%zu%s", name, run, endings[file]);
    return path;
}

enum holding recorded_holding(size_t file)
{
    static const enum holding holdings[RECORDED_FILES] = { HOLDS_IMAGE, HOLDS_TRACE, HOLDS_ANSWERS, HOLDS_SESSION };

    return holdings[file];
}

static int write_files(const struct recorder *r, const struct bytes *text, size_t count)
{
    const struct bytes *const contents[RECORDED_FILES] = { &r->image, &r->events, &r->answers, text };
    const size_t lengths[RECORDED_FILES] = { r->image.length, count, count, text->length };
    struct outputs outputs = { .replacing = r->replacing };
    char *paths[RECORDED_FILES];
    int status = DONE;

    for (size_t i = 0; i < RECORDED_FILES; i++) {
        paths[i] = recorded_path(r->name, r->runs, i);
        if (status == DONE)
            status = outputs_stage(&outputs, paths[i], recorded_holding(i), contents[i]->data, lengths[i]);
    }
    if (status == DONE)
        status = outputs_commit(&outputs, stderr);
    outputs_free(&outputs);
    for (size_t i = 0; i < RECORDED_FILES; i++)
        free(paths[i]);
    return status;
}

/* Writes the first events of the run, and takes them off. */
static void write_run(struct recorder *r, size_t count)
{
    struct bytes text = { 0 };

    if (r->name && count > 0 && r->status == DONE) {
        r->runs++;
        text_of_events(&text, r->events.data, count);
        r->status = write_files(r, &text, count);
    }
    bytes_free(&text);
}

static void drop_first(struct bytes *b, size_t count)
{
    memmove(b->data, b->data + count, b->length - count);
    b->length -= count;
}

/* The image that the devices are left with by events of the run. */
static void run_image(struct recorder *r, size_t count)
{
    uint8_t answers[TROUGHIRON_MOST_EVENTS];
    uint64_t copied;

    (void)troughiron_run(r->image.data, r->image.length, r->events.data, count, answers, sizeof answers, &copied);
}

/*
 * A run ends with a reset, which may set PF, and the next one starts with it: as every device waits for a reset at the
 * start of a run, both together are as one.
 */
static void end_run_at(struct recorder *r, size_t reset)
{
    write_run(r, reset + 1);
    run_image(r, reset + 1);
    drop_first(&r->events, reset);
    drop_first(&r->answers, reset);
    r->transaction -= reset;
}

/* ------------------------------------------------------------------ */
/* What is heard                                                       */

static void hear_event(void *self, uint8_t event, uint8_t answer)
{
    struct recorder *const r = self;

    if (is_regular_reset(event))
        log_transaction(r);
    if (r->events.length == TROUGHIRON_MOST_EVENTS)
        end_run_at(r, r->transaction);
    if (is_regular_reset(event))
        r->transaction = r->events.length;
    bytes_repeat(&r->events, event, 1);
    bytes_repeat(&r->answers, answer, 1);
}

/* A bench with other devices is a run of its own. */
static void hear_bench(void *self, const struct bytes *image)
{
    struct recorder *const r = self;

    log_transaction(r);
    write_run(r, r->events.length);
    r->events.length = r->answers.length = r->transaction = r->image.length = 0;
    bytes_add(&r->image, image->data, image->length);
}

struct listener recorder_listener(struct recorder *r)
{
    return (struct listener){ .event = hear_event, .bench = hear_bench, .self = r };
}

int recorder_end(struct recorder *r)
{
    log_transaction(r);
    write_run(r, r->events.length);
    r->events.length = r->answers.length = r->transaction = 0;
    return r->status;
}

void recorder_free(struct recorder *r)
{
    bytes_free(&r->image);
    bytes_free(&r->events);
    bytes_free(&r->answers);
}
