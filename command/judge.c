/* troughiron judge: whether a recorded session is one of a careful master. */
#include "cause.h"
#include "commands.h"
#include "copies.h"
#include "explain.h"
#include "inputs.h"
#include "json_reports.h"
#include "outputs.h"
#include "report.h"
#include "status.h"
#include "troughiron.h"

#include <string.h>

struct judge {
    struct inputs inputs;
    const char *answers; /* the path of those that were recorded, or null: then they are the bench's own */
    struct session session;
    struct bytes levels, recorded, work;
    struct judged judged;
    bool json;
    struct json report; /* for programs */
};

static int take_words(struct judge *j, const struct words *words, const char *trace)
{
    const int status = inputs_take(&j->inputs, words, trace);

    if (status == DONE && is_standard_input(j->answers) &&
        (is_standard_input(j->inputs.image) || is_standard_input(j->inputs.session)))
        return bad_usage(words->command,
                         "only one of the image, the session and the answers can come from standard input");
    return status;
}

/* The levels of the bench. Where the library refuses to run the session, it refuses to judge it too, and says why. */
static void run_levels(struct judge *j)
{
    const struct bytes *const image = &j->session.image, *const events = &j->session.events;
    uint64_t copied;

    bytes_add(&j->work, image->data, image->length);
    bytes_repeat(&j->levels, 1, events->length);
    (void)troughiron_run(j->work.data, j->work.length, events->data, events->length, j->levels.data, j->levels.length,
                         &copied);
}

static int read_input(struct judge *j)
{
    int status = inputs_read(&j->inputs, &j->session);

    if (status == DONE)
        run_levels(j);
    if (status == DONE && j->answers)
        status = bytes_read(&j->recorded, j->answers);
    else if (status == DONE)
        bytes_add(&j->recorded, j->levels.data, j->levels.length);
    return status;
}

static int judge_refused(const struct judge *j, uint32_t refusal)
{
    if (refusal == TROUGHIRON_REFUSED_ROOM)
        return refused(j->answers ? input_name(j->answers) : j->session.name, refusal,
                       "%zu recorded answer%s, and there %s %zu event%s", j->recorded.length,
                       j->recorded.length == 1 ? "" : "s", j->session.events.length == 1 ? "is" : "are",
                       j->session.events.length, j->session.events.length == 1 ? "" : "s");
    return run_refused(&j->session, &j->session.image, j->recorded.length, refusal);
}

static int judge_events(struct judge *j)
{
    const struct session *const s = &j->session;
    const uint32_t refusal =
        troughiron_judge(s->image.data, s->image.length, s->events.data, s->events.length, j->recorded.data,
                         j->recorded.length, j->work.data, j->work.length, &j->judged.rule, &j->judged.event);

    return refusal ? judge_refused(j, refusal) : DONE;
}

/* For a reader or, with --json, for programs. */
static void report_accepted(struct judge *j)
{
    struct copies copies = copies_of(&j->session.image, &j->session.events, j->levels.data);

    if (j->json) {
        json_null(&j->report, "rule");
        json_number(&j->report, "copies", copies.count);
    } else {
        printf("%s: accepted: ", j->session.name);
        report_number(stdout, j->session.events.length, "event", "events");
        fputs(", ", stdout);
        report_number(stdout, copies.count, "copy", "copies");
        fputc('\n', stdout);
    }
    copies_free(&copies);
}

static void report_broken(struct judge *j)
{
    const struct findings findings = findings_of(&j->judged);

    if (j->json)
        json_judged(&j->report, &j->judged, &findings);
    else
        explain(stdout, &j->judged, &findings);
}

static int report(struct judge *j)
{
    const bool accepted = j->judged.rule == ACCEPTED;

    j->judged.session = &j->session;
    j->judged.recorded = j->recorded.data;
    j->judged.levels = j->levels.data;
    if (j->json) {
        json_start(&j->report, "judge");
        json_text(&j->report, "session", j->session.name);
        json_number(&j->report, "events", j->session.events.length);
        json_truth(&j->report, "accepted", accepted);
    }
    if (accepted)
        report_accepted(j);
    else
        report_broken(j);

    const int status = j->json ? json_end(&j->report, stdout) : report_flush(stdout);

    return status != DONE || accepted ? status : NOT_ACCEPTED;
}

int judge_command(struct words *words)
{
    struct judge j = { 0 };
    const char *trace = NULL;
    const struct option options[] = {
        { "--trace", &trace, NULL },
        { "--answers", &j.answers, NULL },
        { "--json", NULL, &j.json },
    };
    int status = options_take(words, options, sizeof options / sizeof *options);

    if (status == DONE)
        status = take_words(&j, words, trace);
    if (status == DONE)
        status = read_input(&j);
    if (status == DONE)
        status = judge_events(&j);
    if (status == DONE)
        status = report(&j);
    session_free(&j.session);
    bytes_free(&j.levels);
    bytes_free(&j.recorded);
    bytes_free(&j.work);
    return status;
}
