/* The run of a trace. */
#include "run_trial.h"
#include "second.h"
#include "troughiron.h"

static void library_run(struct given *g)
{
    g->numbers[RETURNED] =
        troughiron_run(g->buffers[IMAGE], g->lengths[IMAGE],
                       g->buffers[TRACE], g->lengths[TRACE],
                       g->buffers[ANSWERS], g->lengths[ANSWERS],
                       &g->numbers[COPIED]);
}

static void run_of_second(struct given *g)
{
    g->numbers[RETURNED] =
        second_run(g->buffers[IMAGE], g->lengths[IMAGE],
                   g->buffers[TRACE], g->lengths[TRACE],
                   g->buffers[ANSWERS], g->lengths[ANSWERS],
                   &g->numbers[COPIED]);
}

static const struct form form = {
    .functions = { library_run, run_of_second },
    .buffers = { { "image", BENCH_ROOM, 0 },
                 { "trace", TRACE_ROOM, 1 },
                 { "answers", ANSWER_ROOM, 0 } },
    .numbers = { "returned", "bytes copied" },
};

static void *run_create(void)
{
    return run_trial_create("run", &form, 1);
}

static int run_small(void *state, size_t group, size_t number)
{
    return run_small_case(&((struct run_trial *)state)->now, group, number);
}

static void run_generated(void *state, uint64_t seed, uint64_t number)
{
    run_generated_case(&((struct run_trial *)state)->now, seed, number);
}

static void run_summary(const void *state, FILE *out)
{
    const struct run_trial *const r = state;

    run_trial_summary(out, "run", r);
    fprintf(out, "run: %llu bytes copied\n", (unsigned long long)r->copied);
}

const struct subject run_subject = {
    .name = "run",
    .create = run_create,
    .group = run_small_group,
    .small = run_small,
    .generated = run_generated,
    .differs = run_trial_differs,
    .explain = run_trial_explain,
    .summary = run_summary,
};
