/*
 * The search: tries a case on both programs, looks at what is claimed of an
 * answered one, and takes devices out of a case that differs.
 */
#include "search.h"

#include "second.h"
#include "trial.h"
#include "troughiron.h"

/* Buffers and numbers of the call. */
enum { IMAGE, CODES, TRACE };
enum { RETURNED, PASSES, RESETS, SLOTS };

static void library_search(struct given *g)
{
    g->numbers[RETURNED] =
        troughiron_search(g->buffers[IMAGE], g->lengths[IMAGE],
                          g->buffers[CODES], g->lengths[CODES],
                          g->buffers[TRACE], g->lengths[TRACE],
                          &g->numbers[PASSES], &g->numbers[RESETS],
                          &g->numbers[SLOTS]);
}

static void search_of_second(struct given *g)
{
    g->numbers[RETURNED] =
        second_search(g->buffers[IMAGE], g->lengths[IMAGE],
                      g->buffers[CODES], g->lengths[CODES],
                      g->buffers[TRACE], g->lengths[TRACE],
                      &g->numbers[PASSES], &g->numbers[RESETS],
                      &g->numbers[SLOTS]);
}

static const struct form form = {
    .functions = { library_search, search_of_second },
    .buffers = { { "image", BENCH_ROOM, 1 },
                 { "codes", MOST_CODE_BYTES + SPARE_ROOM, 0 },
                 { "trace", MOST_SEARCH_EVENTS + SPARE_ROOM, 0 } },
    .numbers = { "returned", "passes", "resets", "slots" },
};

enum { LAST_NUMBER = 7 };

struct search {
    struct search_case now;
    struct trial trial;
    uint64_t returned[LAST_NUMBER + 2]; /* how often; the last for others */
    uint64_t found;
};

static void *search_create(void)
{
    struct search *const s = subject_allocate("search", sizeof *s);

    trial_create(&s->trial, &form);
    return s;
}

/* ------------------------------------------------------------------ */
/* Trying a case                                                       */

static int refused_changes_nothing(const struct trial *t)
{
    const uint64_t *const numbers = t->given[LIBRARY].numbers;

    return trial_kept(t, CODES, 0) && trial_kept(t, TRACE, 0)
           && numbers[PASSES] == UNWRITTEN_NUMBER
           && numbers[RESETS] == UNWRITTEN_NUMBER
           && numbers[SLOTS] == UNWRITTEN_NUMBER;
}

/* What is claimed of a search that was answered, both alike. */
static struct difference look_at_claims(const struct search *s,
                                        struct difference d)
{
    const struct trial *const t = &s->trial;
    const uint64_t *const numbers = t->given[LIBRARY].numbers;
    const struct search_found found = { trial_bytes(t, CODES),
                                        trial_bytes(t, TRACE),
                                        numbers[PASSES], numbers[RESETS],
                                        numbers[SLOTS] };
    const struct bench *const b = &s->now.bench;
    const char *const broken = search_claim_broken(b, &found);

    if (broken)
        return trial_claim(broken);
    d = trial_expect_kept(t, d, CODES, search_code_room(b->count));
    return trial_expect_kept(t, d, TRACE, search_trace_room(b->count));
}

static struct difference try_case(struct search *s)
{
    const struct search_case *const now = &s->now;
    const struct trial *const t = &s->trial;
    struct difference d;

    trial_lend(&s->trial, IMAGE, now->bench.bytes, now->bench.length,
               now->null);
    trial_lend(&s->trial, CODES, NULL, now->codes, now->null);
    trial_lend(&s->trial, TRACE, NULL, now->trace, now->null);
    d = trial_expect(t, trial_call(&s->trial, NULL), now->expected);
    if (d.aspect != ALIKE)
        return d;
    if (trial_returned(t) == 0)
        return look_at_claims(s, d);
    return refused_changes_nothing(t)
               ? d
               : trial_claim("a refused search changes nothing");
}

static int search_differs(void *state)
{
    struct search *const s = state;
    const int differs = try_case(s).aspect != ALIKE;
    const uint64_t number = trial_returned(&s->trial);

    s->returned[number <= LAST_NUMBER ? number : LAST_NUMBER + 1]++;
    if (number == 0)
        s->found += s->now.bench.count;
    return differs;
}

/* ------------------------------------------------------------------ */
/* Taking devices out                                                  */

/* The case without a device: room for as many bytes more or less as before. */
static void without_device(const struct search_case *c, size_t device,
                           struct search_case *less)
{
    *less = *c;
    bench_take_out(&less->bench, device);
    less->codes -= c->codes < CODE_BYTES ? c->codes : CODE_BYTES;
    less->trace -= c->trace < PASS_EVENTS ? c->trace : PASS_EVENTS;
    less->expected = ANY_NUMBER;
}

/* Keeps a case without a device if that still differs. */
static int shorten_by(struct search *s, size_t device)
{
    static struct search_case before;

    before = s->now;
    without_device(&before, device, &s->now);
    if (try_case(s).aspect != ALIKE)
        return 1;
    s->now = before;
    return 0;
}

static void shorten(struct search *s)
{
    for (size_t i = s->now.bench.count; i > 0; i--)
        shorten_by(s, i - 1);
}

/* ------------------------------------------------------------------ */
/* Explaining                                                          */

static void show_case(FILE *out, const struct search *s)
{
    const struct search_case *const now = &s->now;

    bench_show(out, &now->bench);
    fprintf(out, "room for %zu bytes of codes and %zu events%s\n", now->codes,
            now->trace, now->null ? ", empty buffers are null" : "");
    if (now->expected != ANY_NUMBER)
        fprintf(out, "the case is one for %u\n", now->expected);
}

static void search_explain(void *state, FILE *out)
{
    struct search *const s = state;
    const size_t devices = s->now.bench.count;
    struct difference d = try_case(s);

    trial_explain(out, &s->trial, d);
    if (d.aspect != ALIKE && !trial_hangs(&s->trial)) {
        shorten(s);
        fprintf(out, "with %zu of the %zu devices left:\n",
                s->now.bench.count, devices);
        d = try_case(s);
        trial_explain(out, &s->trial, d);
    }
    show_case(out, s);
}

/* ------------------------------------------------------------------ */

static void search_summary(const void *state, FILE *out)
{
    const struct search *const s = state;

    fprintf(out, "search: %llu codes found; answered %llu; refused",
            (unsigned long long)s->found, (unsigned long long)s->returned[0]);
    for (unsigned number = 1; number <= LAST_NUMBER; number++)
        if (number <= 4 || number == 7)
            fprintf(out, "%s %u: %llu", number == 1 ? "" : ",", number,
                    (unsigned long long)s->returned[number]);
    fputc('\n', out);
}

static int search_small(void *state, size_t group, size_t number)
{
    return search_small_case(&((struct search *)state)->now, group, number);
}

static void search_generated(void *state, uint64_t seed, uint64_t number)
{
    search_generated_case(&((struct search *)state)->now, seed, number);
}

const struct subject search_subject = {
    .name = "search",
    .create = search_create,
    .group = search_small_group,
    .small = search_small,
    .generated = search_generated,
    .differs = search_differs,
    .explain = search_explain,
    .summary = search_summary,
};
