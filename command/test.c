/* troughiron test: sessions as tests, a line each. */
#include "commands.h"
#include "json.h"
#include "junit.h"
#include "outputs.h"
#include "progress.h"
#include "status.h"
#include "trial.h"

#include <stdlib.h>
#include <string.h>

enum { MOST_SIDE_BY_SIDE = 64 };

struct test {
    struct trial *list;
    size_t count, started, ended, printed, failed;
    size_t side_by_side;
    FILE *report;
    bool json; /* the report is one for programs, which comes at the end */
    struct progress progress;
};

/* ------------------------------------------------------------------ */
/* Lines of the Test Anything Protocol                                 */

/* A name is one line, in which a number sign would begin a directive. */
static void print_name(FILE *out, const char *name)
{
    for (; *name; name++) {
        if (*name == '#' || *name == '\\')
            fputc('\\', out);
        fputc(*name >= '\0' && *name < ' ' ? '?' : *name, out);
    }
}

static void print_log(FILE *out, const struct bytes *log)
{
    bool at_start = true;

    for (size_t i = 0; i < log->length; i++) {
        fprintf(out, "%s%c", at_start ? "# " : "", log->data[i]);
        at_start = log->data[i] == '\n';
    }
}

static void print_trial(struct test *t, const struct trial *trial)
{
    t->failed += trial->status != DONE;
    if (t->json)
        return;
    fprintf(t->report, "%s %zu - ", trial->status == DONE ? "ok" : "not ok", t->printed + 1);
    print_name(t->report, trial->path);
    fputc('\n', t->report);
    print_log(t->report, &trial->log);
}

/* In the order of the command line, whichever ends first; and what is printed is there to be seen. */
static void print_ended(struct test *t)
{
    if (t->printed < t->count && t->list[t->printed].done)
        progress_end(&t->progress);
    for (; t->printed < t->count && t->list[t->printed].done; t->printed++)
        print_trial(t, &t->list[t->printed]);
    fflush(t->report);
    progress_at(&t->progress, t->ended);
}

/* ------------------------------------------------------------------ */
/* The trials                                                          */

/* What is waiting to be written must not be written by two processes. */
static int start_more(struct test *t)
{
    int status = DONE;

    fflush(t->report);
    while (status == DONE && t->started < t->count && t->started - t->ended < t->side_by_side)
        status = trial_start(&t->list[t->started++]);
    return status;
}

static int run_trials(struct test *t)
{
    int status = DONE;

    if (!t->json)
        fprintf(t->report, "1..%zu\n", t->count);
    t->progress = progress_start("sessions tried", t->count);
    while (status == DONE && t->ended < t->count) {
        status = start_more(t);
        if (status == DONE)
            status = trial_wait(t->list, t->started);
        t->ended++;
        if (status == DONE)
            print_ended(t);
    }
    progress_end(&t->progress);
    return status;
}

/* The numbers, in a line that only a reader looks at. */
static void print_counts(const struct test *t)
{
    fprintf(t->report, "# %zu session%s, ", t->count, t->count == 1 ? "" : "s");
    if (t->failed > 0)
        fprintf(t->report, "%zu failed\n", t->failed);
    else
        fputs("all ok\n", t->report);
}

static void trial_json(struct json *j, struct trial *trial)
{
    bytes_repeat(&trial->log, '\0', 1);
    json_open(j, NULL, '{');
    json_text(j, "session", trial->path);
    json_truth(j, "ok", trial->status == DONE);
    json_number(j, "status", (uint64_t)trial->status);
    json_number(j, "milliseconds", (uint64_t)(1000 * trial->seconds));
    json_text(j, "log", (const char *)trial->log.data);
    json_close(j, '}');
    trial->log.length--;
}

static int print_json(const struct test *t)
{
    struct json json = { 0 };

    json_start(&json, "test");
    json_open(&json, "sessions", '[');
    for (size_t i = 0; i < t->count; i++)
        trial_json(&json, &t->list[i]);
    json_close(&json, ']');
    json_number(&json, "count", t->count);
    json_number(&json, "failed", t->failed);
    return json_end(&json, t->report);
}

static int write_outcome(const struct test *t, const char *path, bool forced)
{
    struct outputs outputs = { .replacing = { .forced = forced } };
    struct bytes junit = { 0 };

    junit_write(&junit, t->list, t->count);

    int status = outputs_stage(&outputs, path, HOLDS_JUNIT, junit.data, junit.length);

    if (status == DONE)
        status = outputs_commit(&outputs, t->report);
    outputs_free(&outputs);
    bytes_free(&junit);
    return status;
}

/* ------------------------------------------------------------------ */
/* The command                                                         */

static int side_by_side_parse(struct test *t, const char *number)
{
    const size_t length = number ? strlen(number) : 0;

    t->side_by_side = number && length < 4 ? (size_t)strtoul(number, NULL, 10) : 1;
    if (number && (strspn(number, "0123456789") != length || length == 0 || length > 3 || t->side_by_side == 0 ||
                   t->side_by_side > MOST_SIDE_BY_SIDE))
        return bad_usage("test", "-j needs a number from 1 to %d, not '%s'", MOST_SIDE_BY_SIDE, number);
    return DONE;
}

static void take_sessions(struct test *t, const struct words *words)
{
    t->count = words->count;
    t->list = grown(NULL, t->count, sizeof *t->list);
    for (size_t i = 0; i < t->count; i++)
        t->list[i] = (struct trial){ .path = words->list[i] };
}

static void test_free(struct test *t)
{
    for (size_t i = 0; i < t->count; i++)
        bytes_free(&t->list[i].log);
    free(t->list);
}

int test_command(struct words *words)
{
    struct test t = { .report = stdout };
    const char *junit = NULL, *number = NULL;
    bool forced = false;
    const struct option options[] = {
        { "--junit", &junit, NULL },
        { "-j", &number, NULL },
        { "--json", NULL, &t.json },
        { "-f", NULL, &forced },
        { "--force", NULL, &forced },
    };
    int status = options_take(words, options, sizeof options / sizeof *options);

    if (status == DONE)
        status = side_by_side_parse(&t, number);
    if (status == DONE && words->count < 1)
        status = words_wrong(words, "sessions");
    if (status != DONE)
        return status;
    if (junit && strcmp(junit, "-") == 0)
        t.report = stderr;
    take_sessions(&t, words);
    status = run_trials(&t);
    if (status == DONE && t.json)
        status = print_json(&t);
    else if (status == DONE)
        print_counts(&t);
    if (status == DONE)
        status = write_outcome(&t, junit, forced);
    test_free(&t);
    return status == DONE && t.failed > 0 ? BAD : status;
}
