/*
 * The searching master fed with recorded levels: tries a case on both programs,
 * and cuts the levels of one that differs.
 */
#include "feed.h"

#include "prefix.h"
#include "probe.h"
#include "second.h"
#include "trial.h"

#include <string.h>

/* Buffers and numbers of the call. */
enum { LEVELS, TRACE, CODES };
enum { RETURNED, EVENTS, COMPLETED };

size_t feed_trace_room(size_t levels)
{
    return levels < MOST_SEARCH_EVENTS ? levels + 1 : MOST_SEARCH_EVENTS;
}

size_t feed_code_room(size_t levels)
{
    const size_t passes = levels / PASS_EVENTS;

    return CODE_BYTES * (passes < MOST_DEVICES ? passes : MOST_DEVICES);
}

static void library_drive(struct given *g)
{
    g->numbers[RETURNED] =
        probe_drive(g->buffers[LEVELS], g->lengths[LEVELS], g->buffers[TRACE],
                    g->lengths[TRACE], g->buffers[CODES], g->lengths[CODES],
                    &g->numbers[EVENTS], &g->numbers[COMPLETED]);
}

static void copy_out(uint8_t *to, const uint8_t *from, size_t count)
{
    if (count > 0)
        memcpy(to, from, count);
}

/* The second program refuses no room, so that is done here. */
static void drive_of_second(struct given *g)
{
    static uint8_t trace[MOST_SEARCH_EVENTS], codes[MOST_CODE_BYTES];
    const size_t levels = g->lengths[LEVELS];
    struct second_fed fed;

    g->numbers[RETURNED] = 7;
    g->numbers[EVENTS] = g->numbers[COMPLETED] = 0;
    if (g->lengths[TRACE] < feed_trace_room(levels)
        || g->lengths[CODES] < feed_code_room(levels))
        return;
    fed = second_feed(g->buffers[LEVELS], levels, trace, codes);
    copy_out(g->buffers[TRACE], trace, fed.events);
    copy_out(g->buffers[CODES], codes, CODE_BYTES * fed.codes);
    g->numbers[RETURNED] = fed.ended ? fed.number : PROBE_UNFINISHED;
    g->numbers[EVENTS] = fed.events;
    g->numbers[COMPLETED] = fed.codes;
}

static const struct form form = {
    .functions = { library_drive, drive_of_second },
    .buffers = { { "levels", FEED_ROOM, 1 },
                 { "trace", MOST_SEARCH_EVENTS + SPARE_ROOM, 0 },
                 { "codes", MOST_CODE_BYTES + SPARE_ROOM, 0 } },
    .numbers = { "returned", "events", "codes completed" },
};

struct feed {
    struct feed_case now;
    struct trial trial;
    uint64_t returned[PROBE_UNFINISHED + 1]; /* how often */
};

static void *feed_create(void)
{
    struct feed *const f = subject_allocate("feed", sizeof *f);

    trial_create(&f->trial, &form);
    return f;
}

/* ------------------------------------------------------------------ */
/* Trying a case                                                       */

static struct difference try_case(struct feed *f)
{
    const struct feed_case *const now = &f->now;
    const struct trial *const t = &f->trial;
    const uint64_t *const numbers = t->given[LIBRARY].numbers;
    struct difference d;

    trial_lend(&f->trial, LEVELS, now->levels, now->length, now->null);
    trial_lend(&f->trial, TRACE, NULL, now->trace, now->null);
    trial_lend(&f->trial, CODES, NULL, now->codes, now->null);
    d = trial_call(&f->trial, NULL);
    d = trial_expect(t, d, now->expected);
    d = trial_expect_kept(t, d, TRACE, (size_t)numbers[EVENTS]);
    return trial_expect_kept(t, d, CODES,
                             CODE_BYTES * (size_t)numbers[COMPLETED]);
}

static int feed_differs(void *state)
{
    struct feed *const f = state;
    const int differs = try_case(f).aspect != ALIKE;
    const uint64_t number = trial_returned(&f->trial);

    if (number <= PROBE_UNFINISHED)
        f->returned[number]++;
    return differs;
}

/* ------------------------------------------------------------------ */
/* Explaining                                                          */

static int prefix_differs(void *state, size_t length)
{
    struct feed *const f = state;

    f->now.length = length;
    return try_case(f).aspect != ALIKE;
}

static void show_event(FILE *out, const struct feed *f, size_t i)
{
    fprintf(out, "    event %zu: sent", i);
    for (int k = 0; k < PROGRAMS; k++)
        if (i < f->trial.given[k].lengths[TRACE])
            fprintf(out, "%s %s %02X", k == 0 ? "" : ",",
                    k == LIBRARY ? "library" : "second",
                    f->trial.given[k].buffers[TRACE][i]);
    if (i < f->now.length)
        fprintf(out, "; level %u", f->now.levels[i]);
    fputc('\n', out);
}

/* The last events; UNWRITTEN is what none was sent for. */
static void show_case(FILE *out, const struct feed *f)
{
    enum { SHOWN = 24 };
    const size_t events = feed_trace_room(f->now.length);

    fprintf(out, "%zu levels, room for %zu events and %zu bytes of codes%s\n",
            f->now.length, f->now.trace, f->now.codes,
            f->now.null ? ", empty buffers are null" : "");
    if (f->now.expected != ANY_NUMBER)
        fprintf(out, "the case is one for %u\n", f->now.expected);
    for (size_t i = events < SHOWN ? 0 : events - SHOWN; i < events; i++)
        show_event(out, f, i);
}

static void feed_explain(void *state, FILE *out)
{
    struct feed *const f = state;
    const struct difference d = try_case(f);

    trial_explain(out, &f->trial, d);
    if (trial_can_be_cut(&f->trial, d)) {
        const size_t length = f->now.length;

        f->now.expected = ANY_NUMBER;
        f->now.length = prefix_that_differs(prefix_differs, f, length).length;
        fprintf(out, "cut to %zu of %zu levels:\n", f->now.length, length);
        trial_explain(out, &f->trial, try_case(f));
    }
    show_case(out, f);
}

/* ------------------------------------------------------------------ */

static void feed_summary(const void *state, FILE *out)
{
    const uint64_t *const returned = ((const struct feed *)state)->returned;

    fprintf(out, "fed master: ends 0: %llu, 8: %llu, 9: %llu, 10: %llu;"
                 " levels used up %llu; refused 7: %llu\n",
            (unsigned long long)returned[0], (unsigned long long)returned[8],
            (unsigned long long)returned[9], (unsigned long long)returned[10],
            (unsigned long long)returned[PROBE_UNFINISHED],
            (unsigned long long)returned[7]);
}

static int feed_small(void *state, size_t group, size_t number)
{
    return feed_small_case(&((struct feed *)state)->now, group, number);
}

static void feed_generated(void *state, uint64_t seed, uint64_t number)
{
    feed_generated_case(&((struct feed *)state)->now, seed, number);
}

const struct subject feed_subject = {
    .name = "feed",
    .create = feed_create,
    .group = feed_small_group,
    .small = feed_small,
    .generated = feed_generated,
    .differs = feed_differs,
    .explain = feed_explain,
    .summary = feed_summary,
};
