#define _POSIX_C_SOURCE 200809L /* for clock_gettime */

#include "measure.h"

#include "second.h"
#include "troughiron.h"

#include <stdio.h>
#include <stdlib.h>
#include <string.h>
#include <time.h>

enum {
    REPETITIONS = 15,
    /* A call that is shorter than this is made several times in a row. */
    MICROSECONDS_AT_LEAST = 2000
};

/* What a program is called with, and what it writes. */
struct side {
    size_t image_length;
    uint8_t image[BENCH_ROOM];
    uint8_t answers[TRACE_ROOM]; /* of a search: the trace that it sent */
    uint8_t codes[MOST_DEVICES * CODE_BYTES];
    uint64_t passes, resets, slots; /* of a search */
    uint64_t copied;                /* of a run: bytes */
    uint8_t work[BENCH_ROOM];       /* of a judge, as the next */
    uint64_t rule, event;
};

typedef uint32_t call(struct side *s, const struct trace *t);

static uint32_t library_run(struct side *s, const struct trace *t)
{
    return troughiron_run(s->image, s->image_length, t->events, t->length,
                          s->answers, sizeof s->answers, &s->copied);
}

static uint32_t run_of_second(struct side *s, const struct trace *t)
{
    return second_run(s->image, s->image_length, t->events, t->length,
                      s->answers, sizeof s->answers, &s->copied);
}

static uint32_t library_search(struct side *s, const struct trace *t)
{
    (void)t;
    return troughiron_search(s->image, s->image_length, s->codes,
                             sizeof s->codes, s->answers, sizeof s->answers,
                             &s->passes, &s->resets, &s->slots);
}

static uint32_t search_of_second(struct side *s, const struct trace *t)
{
    (void)t;
    return second_search(s->image, s->image_length, s->codes, sizeof s->codes,
                         s->answers, sizeof s->answers, &s->passes,
                         &s->resets, &s->slots);
}

static uint32_t library_judge(struct side *s, const struct trace *t)
{
    return troughiron_judge(s->image, s->image_length, t->events, t->length,
                            s->answers, t->length, s->work, sizeof s->work,
                            &s->rule, &s->event);
}

static uint32_t judge_of_second(struct side *s, const struct trace *t)
{
    return second_judge(s->image, s->image_length, t->events, t->length,
                        s->answers, t->length, s->work, sizeof s->work,
                        &s->rule, &s->event);
}

/* ------------------------------------------------------------------ */

/* Of this process: others on the machine do not count. */
static double processor_seconds(void)
{
    struct timespec now;

    clock_gettime(CLOCK_PROCESS_CPUTIME_ID, &now);
    return (double)now.tv_sec + (double)now.tv_nsec * 1e-9;
}

static void fail(const char *why)
{
    fprintf(stderr, "benchmark: %s\n", why);
    exit(1);
}

/* Calls a program so many times, each on the image that the last one left. */
static double time_of(call *function, struct side *s, const struct trace *t,
                      unsigned calls)
{
    const double start = processor_seconds();
    uint32_t refusals = 0;

    for (unsigned i = 0; i < calls; i++)
        refusals |= function(s, t);
    if (refusals != 0)
        fail("a call was refused");
    return (processor_seconds() - start) / calls;
}

static struct side sides[PROGRAMS];

/* The answers to be judged are those of a run. */
static void record_answers(struct side *s, const struct trace *t)
{
    memcpy(s->work, s->image, s->image_length);
    if (second_run(s->work, s->image_length, t->events, t->length, s->answers,
                   sizeof s->answers, &s->copied) != 0)
        fail("a run was refused");
}

static void prepare(const struct bench *b, const struct trace *recorded)
{
    memset(sides, 0, sizeof sides);
    for (int i = 0; i < PROGRAMS; i++) {
        sides[i].image_length = b->length;
        memcpy(sides[i].image, b->bytes, b->length);
        if (recorded)
            record_answers(&sides[i], recorded);
    }
}

/* How often a call is to be made in a row, by how long one took. */
static unsigned calls_for(double seconds)
{
    const double calls = MICROSECONDS_AT_LEAST * 1e-6 / seconds;

    return calls < 1 ? 1 : (unsigned)calls + 1;
}

/* What is measured: a function of both programs, on what they are given. */
struct subject {
    call *functions[PROGRAMS];
    const struct bench *bench;
    const struct trace *trace;
    int judges; /* whether answers are recorded for it */
};

/* One repetition: both programs from the same bench to the same outputs. */
static struct times repeat(const struct subject *s, unsigned calls)
{
    struct times times;

    prepare(s->bench, s->judges ? s->trace : NULL);
    for (int i = 0; i < PROGRAMS; i++)
        times.of[i] = time_of(s->functions[i], &sides[i], s->trace, calls);
    if (memcmp(&sides[LIBRARY], &sides[SECOND], sizeof *sides) != 0)
        fail("the outputs of the two programs differ");
    if (sides[SECOND].rule != 0)
        fail("a careful session breaks a rule");
    return times;
}

static struct times best_of_several(const struct subject *s)
{
    struct times best = repeat(s, 1);
    const unsigned calls = calls_for(best.of[SECOND]);

    for (int k = 0; k < REPETITIONS; k++) {
        const struct times again = repeat(s, calls);

        for (int i = 0; i < PROGRAMS; i++)
            if (again.of[i] < best.of[i])
                best.of[i] = again.of[i];
    }
    return best;
}

struct times measure_run(const struct bench *b, const struct trace *t)
{
    return best_of_several(&(struct subject){
        .functions = { library_run, run_of_second }, .bench = b, .trace = t });
}

struct times measure_search(const struct bench *b)
{
    return best_of_several(&(struct subject){
        .functions = { library_search, search_of_second }, .bench = b });
}

struct times measure_judge(const struct bench *b, const struct trace *t)
{
    return best_of_several(&(struct subject){
        .functions = { library_judge, judge_of_second },
        .bench = b,
        .trace = t,
        .judges = 1 });
}
