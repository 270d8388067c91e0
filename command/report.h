/* What a run did, for a reader: each step with what was sent and answered, and what changed in which device. */
#ifndef REPORT_H
#define REPORT_H

#include "bytes.h"
#include "session.h"

#include <stdbool.h>
#include <stdio.h>

/* What a run did. */
struct run_outcome {
    const struct session *session;
    const uint8_t *answers;
    uint64_t copied;
    const struct bytes *after; /* the image that it leaves */
};

/*
 * Each step, with the bytes that its slots spell; with bits, each byte's slots in their order too. Under the last slot
 * of a copy's pattern stands what the copy did. After the steps of a transaction, from one reset to the next, comes
 * what it changed in the devices; then the numbers, and what changed in all. Where starts is not null, the places in
 * what is written at which transactions start are added to it, each a long.
 */
void report_run(FILE *out, const struct run_outcome *run, bool bits, struct bytes *starts);

/*
 * The end of the row of events that starts at one of them: a reset, a pulse, whole bytes of slots of one speed, up to
 * a number of bytes, or the slots that are left.
 */
size_t row_end(const uint8_t *events, size_t first, size_t end, size_t most_bytes);

/* A number of things: "1 pass", "2 passes". */
void report_number(FILE *out, uint64_t number, const char *one, const char *many);

/* What differs between two images of the same devices, with blanks before each line. */
void report_changes(FILE *out, int margin, const struct bytes *before, const struct bytes *after);

#endif
