/*
 * Holds the library against the second program, through the C interface: all
 * small cases, then cases that a seed determines.  Stops at the first case in
 * which any output differs.
 */
#define _POSIX_C_SOURCE 200809L /* for clock_gettime and isatty */

#include "comparison/guarded.h"
#include "comparison/subject.h"

#include <stdlib.h>
#include <string.h>
#include <time.h>
#include <unistd.h>

/* A function of the library is compared once it stands here. */
static const struct subject *const subjects[] = {
    &run_subject,    &looked_subject,       &judge_subject,
    &search_subject, &registration_subject, &feed_subject,
    &view_subject
};

enum { SUBJECTS = sizeof subjects / sizeof *subjects };

struct options {
    uint64_t seed;
    uint64_t cases;      /* generated ones of each subject */
    double seconds;      /* if not 0: as many cases as they allow */
    const char *only;    /* if not NULL: the case to be replayed */
    const char *subject; /* if not NULL: the only one tried */
    int small;           /* whether the small cases are tried */
};

struct comparison {
    struct options options;
    void *states[SUBJECTS];
    uint64_t alike;
    double started, shown; /* times: of the start, of the last progress */
};

/* ------------------------------------------------------------------ */
/* Options                                                             */

static void usage(FILE *out)
{
    fputs("compare [OPTION...]\n"
          "  --seed S       of the generated cases; 1 by default\n"
          "  --cases N      so many generated cases; 20000 by default\n"
          "  --seconds N    generated cases for so long\n"
          "  --case K       replays a case: NUMBER of a generated one, or\n"
          "                 GROUP:NUMBER of a small one\n"
          "  --generated    leaves the small cases out\n"
          "  --subject NAME run, looked, judge, search, registration, feed or"
          " view only\n",
          out);
}

static void refuse_options(const char *why, const char *what)
{
    fprintf(stderr, "compare: %s: %s\n", why, what);
    usage(stderr);
    exit(2);
}

static uint64_t number_in(const char *text)
{
    char *end;
    const unsigned long long number = strtoull(text, &end, 10);

    if (*text < '0' || *text > '9' || *end != '\0')
        refuse_options("not a number", text);
    return number;
}

static const char *subject_named(const char *name)
{
    for (size_t i = 0; i < SUBJECTS; i++)
        if (strcmp(subjects[i]->name, name) == 0)
            return name;
    refuse_options("no such subject", name);
    return NULL;
}

/* Takes an option that has a value. */
static void take_option(struct options *o, const char *name, const char *value)
{
    if (strcmp(name, "--seed") == 0)
        o->seed = number_in(value);
    else if (strcmp(name, "--cases") == 0)
        o->cases = number_in(value);
    else if (strcmp(name, "--seconds") == 0)
        o->seconds = (double)number_in(value);
    else if (strcmp(name, "--case") == 0)
        o->only = value;
    else if (strcmp(name, "--subject") == 0)
        o->subject = subject_named(value);
    else
        refuse_options("unknown option", name);
}

static struct options read_options(char **arguments)
{
    struct options o = { .seed = 1, .cases = 20000, .small = 1 };

    while (*arguments) {
        const char *const name = *arguments++;

        if (strcmp(name, "--help") == 0) {
            usage(stdout);
            exit(0);
        }
        if (strcmp(name, "--generated") == 0)
            o.small = 0;
        else if (!*arguments)
            refuse_options("unknown option, or its value is missing", name);
        else
            take_option(&o, name, *arguments++);
    }
    return o;
}

/* ------------------------------------------------------------------ */
/* Progress                                                            */

static double seconds(void)
{
    struct timespec now;

    clock_gettime(CLOCK_MONOTONIC, &now);
    return (double)now.tv_sec + (double)now.tv_nsec * 1e-9;
}

/* A line that the next one overwrites, for a person only. */
static void show_progress(struct comparison *c)
{
    const double now = seconds();

    if (now < c->shown + 0.5 || !isatty(STDERR_FILENO))
        return;
    c->shown = now;
    fprintf(stderr, "\r%llu cases alike, %.0f s ",
            (unsigned long long)c->alike, now - c->started);
}

static void clear_progress(const struct comparison *c)
{
    if (c->shown > c->started)
        fprintf(stderr, "\r%40s\r", "");
}

/* ------------------------------------------------------------------ */
/* Cases                                                               */

/* A case by its place: in a group of small ones, or among the generated. */
struct place {
    size_t subject;
    size_t group;
    uint64_t number;
};

static const size_t GENERATED = SIZE_MAX;

static const struct subject *subject_of(struct place p)
{
    return subjects[p.subject];
}

static int is_wanted(const struct comparison *c, size_t subject)
{
    return !c->options.subject
           || strcmp(c->options.subject, subjects[subject]->name) == 0;
}

struct making {
    const struct comparison *comparison;
    struct place place;
    int made; /* 0: past the last case of its group */
};

static void make(void *argument)
{
    struct making *const m = argument;
    const struct place p = m->place;
    void *const state = m->comparison->states[p.subject];

    m->made = 1;
    if (p.group == GENERATED)
        subject_of(p)->generated(state, m->comparison->options.seed, p.number);
    else
        m->made = subject_of(p)->small(state, p.group, (size_t)p.number);
}

static void explain(const struct comparison *c, struct place p)
{
    subject_of(p)->explain(c->states[p.subject], stdout);
}

static void report(const struct comparison *c, struct place p)
{
    const unsigned long long seed = c->options.seed, number = p.number;

    clear_progress(c);
    if (p.group == GENERATED)
        printf("DIFFERENT: %s, seed %llu, case %llu\n"
               "replay: tests/compare --subject %s --seed %llu --case %llu\n",
               subject_of(p)->name, seed, number, subject_of(p)->name, seed,
               number);
    else
        printf("DIFFERENT: %s, case %s:%llu\n"
               "replay: tests/compare --case %s:%llu\n",
               subject_of(p)->name, subject_of(p)->group(p.group), number,
               subject_of(p)->group(p.group), number);
}

enum verdict { ALIKE, DIFFERENT, NO_CASE };

/*
 * Makes a case and tries it.  The second program may be needed to make it, so
 * that too is a call that comes back.
 */
static enum verdict try_case(struct comparison *c, struct place p)
{
    struct making m = { .comparison = c, .place = p };
    const struct fault fault = guarded_call(make, &m);

    if (fault.signal != 0) {
        report(c, p);
        printf("signal %d while the case was made\n", fault.signal);
        return DIFFERENT;
    }
    if (!m.made)
        return NO_CASE;
    if (subject_of(p)->differs(c->states[p.subject])) {
        report(c, p);
        explain(c, p);
        return DIFFERENT;
    }
    c->alike++;
    if (c->alike % 64 == 0)
        show_progress(c);
    return ALIKE;
}

static int small_group_alike(struct comparison *c, size_t subject,
                             size_t group)
{
    struct place p = { subject, group, 0 };
    enum verdict verdict;

    while ((verdict = try_case(c, p)) == ALIKE)
        p.number++;
    return verdict == NO_CASE;
}

static int small_cases_alike(struct comparison *c)
{
    for (size_t i = 0; i < SUBJECTS; i++)
        for (size_t group = 0; is_wanted(c, i) && subjects[i]->group(group);
             group++)
            if (!small_group_alike(c, i, group))
                return 0;
    return 1;
}

static int generated_case_alike(struct comparison *c, uint64_t number)
{
    for (size_t i = 0; i < SUBJECTS; i++)
        if (is_wanted(c, i)
            && try_case(c, (struct place){ i, GENERATED, number }) != ALIKE)
            return 0;
    return 1;
}

static int generated_cases_alike(struct comparison *c)
{
    const struct options *const o = &c->options;
    const double until = seconds() + o->seconds;

    for (uint64_t i = 0; o->seconds > 0 ? seconds() < until : i < o->cases;
         i++)
        if (!generated_case_alike(c, i))
            return 0;
    return 1;
}

/* ------------------------------------------------------------------ */
/* Replays                                                             */

/* A case is explained even if it is alike. */
static int replay_generated(struct comparison *c, uint64_t number)
{
    if (!generated_case_alike(c, number))
        return 0;
    for (size_t i = 0; i < SUBJECTS; i++)
        if (is_wanted(c, i))
            explain(c, (struct place){ i, GENERATED, number });
    return 1;
}

static int replay_small(struct comparison *c, size_t subject, size_t group,
                        const char *name)
{
    const struct place p = { subject, group,
                             number_in(strchr(name, ':') + 1) };

    switch (try_case(c, p)) {
    case ALIKE:
        explain(c, p);
        return 1;
    case NO_CASE:
        refuse_options("past the last case of its group", name);
        return 0;
    default:
        return 0;
    }
}

static int is_of_group(const char *name, const char *group)
{
    const size_t length = strlen(group);

    return strncmp(name, group, length) == 0 && name[length] == ':';
}

static int replay(struct comparison *c, const char *name)
{
    if (!strchr(name, ':'))
        return replay_generated(c, number_in(name));
    for (size_t i = 0; i < SUBJECTS; i++)
        for (size_t group = 0; subjects[i]->group(group); group++)
            if (is_of_group(name, subjects[i]->group(group)))
                return replay_small(c, i, group, name);
    refuse_options("no such group", name);
    return 0;
}

/* ------------------------------------------------------------------ */

static int everything_alike(struct comparison *c)
{
    if (c->options.only)
        return replay(c, c->options.only);
    return (!c->options.small || small_cases_alike(c))
           && generated_cases_alike(c);
}

static void show_summary(const struct comparison *c)
{
    clear_progress(c);
    for (size_t i = 0; i < SUBJECTS; i++)
        if (is_wanted(c, i))
            subjects[i]->summary(c->states[i], stdout);
    printf("%llu cases alike\n", (unsigned long long)c->alike);
}

int main(int count, char **arguments)
{
    struct comparison c = { .options = read_options(arguments + (count > 0)) };
    int alike;

    guarded_prepare();
    for (size_t i = 0; i < SUBJECTS; i++)
        c.states[i] = subjects[i]->create();
    c.started = c.shown = seconds();
    alike = everything_alike(&c);
    if (alike)
        show_summary(&c);
    for (size_t i = 0; i < SUBJECTS; i++)
        free(c.states[i]);
    return !alike;
}
