/* Cases of the judge of recorded sessions, and where they come from. */
#ifndef JUDGE_H
#define JUDGE_H

#include "run.h"

#include <stddef.h>
#include <stdint.h>

/* The verdict, by the number of the rule; and that a case expects none. */
enum { CAREFUL, RULE_A, RULE_B, RULE_C, ANY_RULE = 0xFFFF };

enum {
    RECORD_ROOM = TRACE_ROOM + 64, /* for more answers than events */
    WORK_ROOM = BENCH_ROOM + 64
};

/*
 * What a judge is given.  Bench and trace are those of a run, whose answers
 * are so many bytes of the recorded ones.
 */
struct judge_case {
    struct run_case run;
    uint8_t recorded[RECORD_ROOM];
    size_t work;   /* bytes of room */
    uint64_t rule; /* expected, or ANY_RULE */
    size_t event;  /* expected where a rule is broken */

    /* what the run that was recorded left, unless it was refused */
    int is_recorded;
    uint8_t after[BENCH_ROOM];
};

/*
 * Records the answers of the second program to the trace.  There are as many
 * answers as events then, and as much work space as image; the session is to
 * be found careful.
 */
void judge_record(struct judge_case *c);

/* Expects that a rule is broken at an event. */
void judge_expect(struct judge_case *c, unsigned rule, size_t event);

/* The small cases; NULL and 0 past the last, as in struct subject. */
const char *judge_small_group(size_t group);
int judge_small_case(struct judge_case *c, size_t group, size_t number);

void judge_generated_case(struct judge_case *c, uint64_t seed,
                          uint64_t number);

#endif
