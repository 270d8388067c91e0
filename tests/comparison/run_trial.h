/*
 * Calls that are given an image and a trace, and write a byte for each event:
 * a case is tried on both programs, and what differs first is said, the trace
 * cut as far as it still does.
 */
#ifndef RUN_TRIAL_H
#define RUN_TRIAL_H

#include "run.h"
#include "trial.h"

#include <stdint.h>
#include <stdio.h>

/* Buffers of the call; the last is what it writes. */
enum { IMAGE, TRACE, ANSWERS };

/* Numbers of the call; only a run hands back the second. */
enum { RETURNED, COPIED };

enum { ANSWER_ROOM = TRACE_ROOM + 64 }; /* for more than is needed */

struct run_trial {
    struct run_case now;
    struct trial trial;
    int levels; /* whether it writes levels, to be shown with the trace */
    uint64_t returned[LAST_NUMBER + 2]; /* how often; the last for others */
    uint64_t events;
    uint64_t copied; /* bytes, where the call hands back the number */
};

void *run_trial_create(const char *name, const struct form *form, int levels);

/* Functions of a subject whose state is a run_trial. */
int run_trial_differs(void *state);
void run_trial_explain(void *state, FILE *out);

void run_trial_summary(FILE *out, const char *name, const struct run_trial *r);

#endif
