/*
 * The judge of recorded sessions: tries a case on both programs, and cuts a
 * recording that differs to a prefix that still does.
 */
#include "judge.h"

#include "prefix.h"
#include "second.h"
#include "trial.h"
#include "troughiron.h"

#include <string.h>

/* Buffers and numbers of the call. */
enum { IMAGE, TRACE, ANSWERS, WORK };
enum { RETURNED, RULE, EVENT };

static void library_judge(struct given *g)
{
    g->numbers[RETURNED] =
        troughiron_judge(g->buffers[IMAGE], g->lengths[IMAGE],
                         g->buffers[TRACE], g->lengths[TRACE],
                         g->buffers[ANSWERS], g->lengths[ANSWERS],
                         g->buffers[WORK], g->lengths[WORK],
                         &g->numbers[RULE], &g->numbers[EVENT]);
}

static void judge_of_second(struct given *g)
{
    g->numbers[RETURNED] =
        second_judge(g->buffers[IMAGE], g->lengths[IMAGE],
                     g->buffers[TRACE], g->lengths[TRACE],
                     g->buffers[ANSWERS], g->lengths[ANSWERS],
                     g->buffers[WORK], g->lengths[WORK],
                     &g->numbers[RULE], &g->numbers[EVENT]);
}

static const struct form form = {
    .functions = { library_judge, judge_of_second },
    .buffers = { { "image", BENCH_ROOM, 1 },
                 { "trace", TRACE_ROOM, 1 },
                 { "recorded answers", RECORD_ROOM, 1 },
                 { "work space", WORK_ROOM, 0 } },
    .numbers = { "returned", "rule", "event" },
};

enum { RULES = RULE_C + 1 };

struct judge {
    struct judge_case now;
    struct trial trial;
    uint64_t returned[LAST_NUMBER + 2]; /* how often; the last for others */
    uint64_t verdicts[RULES + 1];
    uint64_t events;
};

static void *judge_create(void)
{
    struct judge *const j = subject_allocate("judge", sizeof *j);

    trial_create(&j->trial, &form);
    return j;
}

void judge_record(struct judge_case *c)
{
    struct run_case *const r = &c->run;
    uint64_t copied;

    memset(c->recorded, 1, sizeof c->recorded);
    memcpy(c->after, r->bench.bytes, r->bench.length);
    c->is_recorded =
        second_run(c->after, r->bench.length, r->trace.events, r->trace.length,
                   c->recorded, sizeof c->recorded, &copied)
        == 0;
    r->answers = r->trace.length;
    c->work = r->bench.length;
    c->rule = CAREFUL;
    c->event = 0;
}

void judge_expect(struct judge_case *c, unsigned rule, size_t event)
{
    c->rule = rule;
    c->event = event;
}

/* ------------------------------------------------------------------ */
/* Trying a case                                                       */

static int refused_changes_nothing(const struct trial *t)
{
    const uint64_t *const numbers = t->given[LIBRARY].numbers;

    return trial_kept(t, WORK, 0) && numbers[RULE] == UNWRITTEN_NUMBER
           && numbers[EVENT] == UNWRITTEN_NUMBER;
}

/* What is claimed of a session that was judged, both alike. */
static struct difference look_at_verdict(const struct judge *j,
                                         struct difference d)
{
    const struct judge_case *const now = &j->now;
    const struct trial *const t = &j->trial;
    const uint64_t *const numbers = t->given[LIBRARY].numbers;
    const size_t length = now->run.bench.length;

    if (numbers[RULE] > RULE_C)
        return trial_claim("there are three rules");
    if (now->rule != ANY_RULE
        && (numbers[RULE] != now->rule || numbers[EVENT] != now->event))
        return trial_claim("the verdict that the case is one for");
    if (now->is_recorded
        && memcmp(trial_bytes(t, WORK), now->after, length) != 0)
        return trial_claim("the work space is what the run leaves");
    return trial_expect_kept(t, d, WORK, length);
}

static struct difference try_case(struct judge *j)
{
    const struct judge_case *const now = &j->now;
    const struct run_case *const r = &now->run;
    struct trial *const t = &j->trial;
    struct difference d;

    trial_lend(t, IMAGE, r->bench.bytes, r->bench.length, r->null);
    trial_lend(t, TRACE, r->trace.events, r->trace.length, r->null);
    trial_lend(t, ANSWERS, now->recorded, r->answers, r->null);
    trial_lend(t, WORK, NULL, now->work, r->null);
    d = trial_expect(t, trial_call(t, NULL), r->expected);
    if (d.aspect != ALIKE)
        return d;
    if (trial_returned(t) == 0)
        return look_at_verdict(j, d);
    return refused_changes_nothing(t)
               ? d
               : trial_claim("a refused judge changes nothing");
}

static int judge_differs(void *state)
{
    struct judge *const j = state;
    const int differs = try_case(j).aspect != ALIKE;
    const uint64_t *const numbers = j->trial.given[LIBRARY].numbers;
    const uint64_t number = numbers[RETURNED], rule = numbers[RULE];

    j->events += j->now.run.trace.length;
    j->returned[number <= LAST_NUMBER ? number : LAST_NUMBER + 1]++;
    if (number == 0)
        j->verdicts[rule < RULES ? rule : RULES]++;
    return differs;
}

/* ------------------------------------------------------------------ */
/* Explaining                                                          */

/* A recording of another trace's length has no part of that length. */
static int prefix_differs(void *state, size_t length)
{
    struct judge *const j = state;

    j->now.run.trace.length = length;
    j->now.run.answers = length;
    return try_case(j).aspect != ALIKE;
}

/* Cuts trace and answers to a prefix that differs, and explains that. */
static void cut_and_explain(FILE *out, struct judge *j)
{
    const size_t length = j->now.run.trace.length;
    struct prefix prefix;

    j->now.run.expected = ANY_NUMBER;
    j->now.rule = ANY_RULE;
    j->now.is_recorded = 0;
    prefix = prefix_that_differs(prefix_differs, j, length);
    prefix_differs(j, prefix.length);
    fprintf(out, "cut to %s that differs, %zu of %zu events:\n",
            prefix.shortest ? "the shortest prefix" : "a prefix",
            prefix.length, length);
    trial_explain(out, &j->trial, try_case(j));
}

static void show_verdict(FILE *out, const char *program,
                         const struct given *g)
{
    static const char *const names[] = { "careful", "rule A", "rule B",
                                         "rule C" };

    if (g->numbers[RETURNED] == 0 && g->numbers[RULE] < RULES)
        fprintf(out, "%s: %s, event %llu\n", program, names[g->numbers[RULE]],
                (unsigned long long)g->numbers[EVENT]);
}

static void show_case(FILE *out, const struct judge *j)
{
    const struct judge_case *const now = &j->now;
    const struct run_case *const r = &now->run;
    const struct column columns[COLUMNS] = {
        { "recorded", r->answers >= r->trace.length ? now->recorded : NULL },
        { "", NULL }
    };

    show_verdict(out, "library", &j->trial.given[LIBRARY]);
    show_verdict(out, "second", &j->trial.given[SECOND]);
    bench_show(out, &r->bench);
    fprintf(out, "trace of %zu events, %zu answers, work space of %zu%s\n",
            r->trace.length, r->answers, now->work,
            r->null ? ", empty buffers are null" : "");
    if (r->expected != ANY_NUMBER)
        fprintf(out, "the case is one for %u\n", r->expected);
    if (now->rule != ANY_RULE)
        fprintf(out, "the case is one for rule %llu, event %zu\n",
                (unsigned long long)now->rule, now->event);
    if (r->trace.length > 0)
        trace_show(out, &r->trace, columns);
}

static void judge_explain(void *state, FILE *out)
{
    struct judge *const j = state;
    const struct difference whole = try_case(j);

    trial_explain(out, &j->trial, whole);
    if (trial_can_be_cut(&j->trial, whole)
        && j->now.run.answers == j->now.run.trace.length)
        cut_and_explain(out, j);
    show_case(out, j);
}

/* ------------------------------------------------------------------ */

static void judge_summary(const void *state, FILE *out)
{
    const struct judge *const j = state;
    const uint64_t *const v = j->verdicts;

    fprintf(out, "judge: %llu events; careful %llu, A: %llu, B: %llu,"
                 " C: %llu; refused",
            (unsigned long long)j->events, (unsigned long long)v[CAREFUL],
            (unsigned long long)v[RULE_A], (unsigned long long)v[RULE_B],
            (unsigned long long)v[RULE_C]);
    for (size_t i = 0; i < RUN_REFUSALS; i++)
        fprintf(out, "%s %u: %llu", i == 0 ? "" : ",", run_refusals[i],
                (unsigned long long)j->returned[run_refusals[i]]);
    fputc('\n', out);
}

static int judge_small(void *state, size_t group, size_t number)
{
    return judge_small_case(&((struct judge *)state)->now, group, number);
}

static void judge_generated(void *state, uint64_t seed, uint64_t number)
{
    judge_generated_case(&((struct judge *)state)->now, seed, number);
}

const struct subject judge_subject = {
    .name = "judge",
    .create = judge_create,
    .group = judge_small_group,
    .small = judge_small,
    .generated = judge_generated,
    .differs = judge_differs,
    .explain = judge_explain,
    .summary = judge_summary,
};
