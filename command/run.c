/* troughiron run: a session on the devices of an image. */
#include "cause.h"
#include "commands.h"
#include "html.h"
#include "inputs.h"
#include "json_reports.h"
#include "outputs.h"
#include "record.h"
#include "report.h"
#include "status.h"
#include "troughiron.h"

#include <stdlib.h>
#include <string.h>

struct run {
    struct record_paths paths;
    struct inputs inputs;
    bool bits, quiet, json;
    FILE *report;
    struct bytes image, answers;
    uint64_t copied;
    struct session session;
};

/* Room for the answers, by default what the trace needs. */
static int make_room(struct run *r, const char *room)
{
    size_t count = r->session.events.length;

    if (room) {
        if (!*room || strlen(room) > 6 || strspn(room, "0123456789") != strlen(room))
            return bad_usage("run", "--room needs a number up to 999999, not '%s'", room);
        count = (size_t)strtoul(room, NULL, 10);
    }
    bytes_repeat(&r->answers, 0, count);
    return DONE;
}

static int read_input(struct run *r)
{
    const int status = inputs_read(&r->inputs, &r->session);

    bytes_add(&r->image, r->session.image.data, r->session.image.length);
    return status;
}

static int run_events(struct run *r)
{
    const struct bytes *const events = &r->session.events;
    const uint32_t refusal = troughiron_run(r->image.data, r->image.length, events->data, events->length,
                                            r->answers.data, r->answers.length, &r->copied);

    if (refusal)
        return run_refused(&r->session, &r->image, r->answers.length, refusal);
    if (r->answers.length > events->length)
        r->answers.length = events->length;
    return DONE;
}

static struct run_outcome outcome_of(const struct run *r)
{
    return (struct run_outcome){ &r->session, r->answers.data, r->copied, &r->image };
}

/* For a reader or, with --json, for programs. */
static int report(const struct run *r)
{
    const struct run_outcome outcome = outcome_of(r);
    struct json json = { 0 };

    if (r->quiet)
        return DONE;
    if (!r->json) {
        report_run(r->report, &outcome, r->bits, NULL);
        return DONE;
    }
    json_start(&json, "run");
    json_run(&json, &outcome);
    return json_end(&json, r->report);
}

/* Where an expectation is not met, what shows the run is written, and the image is not. */
static int write_files(struct run *r)
{
    const struct run_outcome outcome = outcome_of(r);
    struct bytes page = { 0 };

    if (r->session.failures > 0)
        r->paths.image = NULL;
    if (r->paths.html)
        html_write(&page, &outcome);

    const int status = record_write(&r->paths, r->report, &outcome, &page);

    bytes_free(&page);
    return status;
}

static int run_session(struct run *r, const char *room)
{
    int status = read_input(r);

    if (status == DONE)
        status = make_room(r, room);
    if (status == DONE)
        status = run_events(r);
    if (status != DONE)
        return status;
    status = report(r);
    if (status != DONE)
        return status;
    status = write_files(r);
    return status == DONE ? session_verdict(&r->session) : status;
}

int run_command(struct words *words)
{
    struct run r = { 0 };
    const char *trace = NULL, *room = NULL;
    const struct option options[] = {
        { "-o", &r.paths.image, NULL },
        { "--output", &r.paths.image, NULL },
        { "--trace", &trace, NULL },
        { "--answers", &r.paths.answers, NULL },
        { "--write-trace", &r.paths.trace, NULL },
        { "--vcd", &r.paths.vcd, NULL },
        { "--html", &r.paths.html, NULL },
        { "--room", &room, NULL },
        { "--bits", NULL, &r.bits },
        { "--quiet", NULL, &r.quiet },
        { "--json", NULL, &r.json },
        { "-f", NULL, &r.paths.replacing.forced },
        { "--force", NULL, &r.paths.replacing.forced },
    };
    int status = options_take(words, options, sizeof options / sizeof *options);

    if (status == DONE)
        status = inputs_take(&r.inputs, words, trace);
    r.paths.replacing.own = is_standard_input(r.inputs.image) ? NULL : r.inputs.image;
    if (status == DONE && !(r.report = record_report("run", &r.paths)))
        status = USAGE;
    if (status == DONE)
        status = run_session(&r, room);
    session_free(&r.session);
    bytes_free(&r.answers);
    bytes_free(&r.image);
    return status;
}
