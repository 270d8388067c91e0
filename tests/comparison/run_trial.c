#include "run_trial.h"

#include "prefix.h"

void *run_trial_create(const char *name, const struct form *form, int levels)
{
    struct run_trial *const r = subject_allocate(name, sizeof *r);

    trial_create(&r->trial, form);
    r->levels = levels;
    return r;
}

/* ------------------------------------------------------------------ */
/* Trying a case                                                       */

static uint64_t copied_by_library(const struct run_trial *r)
{
    return r->trial.given[LIBRARY].numbers[COPIED];
}

/* A refusal changes nothing, and an answer nothing past those to the trace. */
static struct difference look_at_the_rest(const struct run_trial *r,
                                          struct difference d)
{
    const struct trial *const t = &r->trial;

    if (d.aspect != ALIKE || trial_returned(t) == 0)
        return trial_expect_kept(t, d, ANSWERS, r->now.trace.length);
    if (copied_by_library(r) != UNWRITTEN_NUMBER)
        return trial_claim("a refused run tells no number of bytes copied");
    d = trial_expect_kept(t, d, ANSWERS, 0);
    return trial_expect_kept(t, d, IMAGE, 0);
}

static struct difference try_case(struct run_trial *r)
{
    const struct run_case *const now = &r->now;
    const struct trial *const t = &r->trial;

    trial_lend(&r->trial, IMAGE, now->bench.bytes, now->bench.length,
               now->null);
    trial_lend(&r->trial, TRACE, now->trace.events, now->trace.length,
               now->null);
    trial_lend(&r->trial, ANSWERS, NULL, now->answers, now->null);
    return look_at_the_rest(
        r, trial_expect(t, trial_call(&r->trial, NULL), now->expected));
}

int run_trial_differs(void *state)
{
    struct run_trial *const r = state;
    const int differs = try_case(r).aspect != ALIKE;
    const uint64_t number = trial_returned(&r->trial);

    r->events += r->now.trace.length;
    r->returned[number <= LAST_NUMBER ? number : LAST_NUMBER + 1]++;
    if (copied_by_library(r) != UNWRITTEN_NUMBER)
        r->copied += copied_by_library(r);
    return differs;
}

/* ------------------------------------------------------------------ */
/* Explaining                                                          */

static void explain_answer(FILE *out, const struct run_trial *r, size_t place)
{
    const struct trace *const t = &r->now.trace;

    if (place < t->length)
        fprintf(out, "for event %zu, byte %u, %s\n", place,
                (unsigned)t->events[place], event_name(t->events[place]));
    else
        fprintf(out, "past the trace\n");
}

static void explain_image(FILE *out, const struct run_trial *r, size_t place)
{
    char name[100];

    bench_name_byte(&r->now.bench, place, name, sizeof name);
    fprintf(out, "%s\n", name);
}

static void explain_difference(FILE *out, const struct run_trial *r,
                               struct difference d)
{
    trial_explain(out, &r->trial, d);
    if (d.aspect == BYTE && d.which == ANSWERS)
        explain_answer(out, r, d.place);
    if (d.aspect == BYTE && d.which == IMAGE)
        explain_image(out, r, d.place);
}

/* The levels that a program answered, if it did. */
static const uint8_t *levels_of(const struct run_trial *r, int program)
{
    const struct given *const g = &r->trial.given[program];

    return r->levels && r->trial.faults[program].signal == 0
                   && g->numbers[RETURNED] == 0
               ? g->buffers[ANSWERS]
               : NULL;
}

static void show_case(FILE *out, const struct run_trial *r)
{
    const struct run_case *const now = &r->now;
    const struct column columns[COLUMNS] = {
        { "library", levels_of(r, LIBRARY) },
        { "second", levels_of(r, SECOND) }
    };

    bench_show(out, &now->bench);
    fprintf(out, "trace of %zu events, room for %zu answers%s\n",
            now->trace.length, now->answers,
            now->null ? ", empty buffers are null" : "");
    if (now->expected != ANY_NUMBER)
        fprintf(out, "the case is one for %u\n", now->expected);
    if (now->trace.length > 0)
        trace_show(out, &now->trace, columns);
}

static int prefix_differs(void *state, size_t length)
{
    struct run_trial *const r = state;

    r->now.trace.length = length;
    return try_case(r).aspect != ALIKE;
}

/* Cuts the trace to a prefix that differs, and explains that. */
static void cut_and_explain(FILE *out, struct run_trial *r)
{
    const size_t length = r->now.trace.length;
    struct prefix prefix;

    r->now.expected = ANY_NUMBER;
    prefix = prefix_that_differs(prefix_differs, r, length);
    r->now.trace.length = prefix.length;
    fprintf(out, "cut to %s that differs, %zu of %zu events:\n",
            prefix.shortest ? "the shortest prefix" : "a prefix",
            prefix.length, length);
    explain_difference(out, r, try_case(r));
}

void run_trial_explain(void *state, FILE *out)
{
    struct run_trial *const r = state;
    const struct difference whole = try_case(r);

    explain_difference(out, r, whole);
    if (trial_can_be_cut(&r->trial, whole))
        cut_and_explain(out, r);
    show_case(out, r);
}

/* ------------------------------------------------------------------ */

void run_trial_summary(FILE *out, const char *name, const struct run_trial *r)
{
    fprintf(out, "%s: %llu events; answered %llu; refused", name,
            (unsigned long long)r->events, (unsigned long long)r->returned[0]);
    for (size_t i = 0; i < RUN_REFUSALS; i++)
        fprintf(out, "%s %u: %llu", i == 0 ? "" : ",", run_refusals[i],
                (unsigned long long)r->returned[run_refusals[i]]);
    fputc('\n', out);
}
