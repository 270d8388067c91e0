/* troughiron search: the codes on the line, as a searching master finds them. */
#include "cause.h"
#include "code.h"
#include "commands.h"
#include "image.h"
#include "json.h"
#include "record.h"
#include "report.h"
#include "status.h"
#include "troughiron.h"

#include <string.h>

enum { PASS = 201, MOST_TRACE = PASS * TROUGHIRON_MOST_DEVICES, MOST_CODES = CODE_SIZE * TROUGHIRON_MOST_DEVICES };

struct found {
    uint8_t codes[MOST_CODES];
    uint8_t trace[MOST_TRACE];
    uint64_t passes, resets, slots;
};

/* The number of the device that has a code, from 1. */
static size_t device_with(const struct bytes *image, const uint8_t *code)
{
    size_t i = 0;

    while (i < image_count(image) && memcmp(image_device(image, i).body, code, CODE_SIZE) != 0)
        i++;
    return i + 1;
}

static void report_codes(FILE *out, const struct found *f, const struct bytes *image)
{
    for (size_t i = 0; i < f->passes; i++) {
        const uint8_t *const code = f->codes + CODE_SIZE * i;
        char text[CODE_TEXT];

        code_write(text, code);
        fprintf(out, "%s  %s  #%zu\n", text, kind_of_family(code[0])->name, device_with(image, code));
    }
    report_number(out, f->passes, "pass", "passes");
    fputs(", ", out);
    report_number(out, f->resets, "reset", "resets");
    fputs(", ", out);
    report_number(out, f->slots, "slot", "slots");
    fputc('\n', out);
}

static int report_json(FILE *out, const struct found *f, const struct bytes *image)
{
    struct json json = { 0 };

    json_start(&json, "search");
    json_open(&json, "codes", '[');
    for (size_t i = 0; i < f->passes; i++) {
        const uint8_t *const code = f->codes + CODE_SIZE * i;
        char text[CODE_TEXT];

        code_write(text, code);
        json_open(&json, NULL, '{');
        json_text(&json, "code", text);
        json_bytes(&json, "wire", code, CODE_SIZE);
        json_text(&json, "kind", kind_of_family(code[0])->name);
        json_number(&json, "device", device_with(image, code));
        json_close(&json, '}');
    }
    json_close(&json, ']');
    json_number(&json, "passes", f->passes);
    json_number(&json, "resets", f->resets);
    json_number(&json, "slots", f->slots);
    return json_end(&json, out);
}

/* A step for each pass, named by its code. With no device there is one reset and no pass. */
static void pass_steps(struct session *s, const struct found *f)
{
    for (size_t i = 0; i < f->passes; i++) {
        char text[CODE_TEXT];

        code_write(text, f->codes + CODE_SIZE * i);
        session_step(s, i + 1, text, strlen(text));
        step_events(s, f->trace + PASS * i, PASS);
    }
    if (f->passes == 0) {
        session_step(s, 1, "reset", strlen("reset"));
        step_events(s, f->trace, 1);
    }
}

/* The answers that the search saw are those of a run of its trace, which leaves the image as it is. */
static int record_search(const struct found *f, struct bytes *image, const struct record_paths *paths, FILE *report)
{
    struct session session = { .name = "search", .unit = "pass" };
    struct bytes answers = { 0 };
    uint64_t copied = 0;

    pass_steps(&session, f);
    bytes_repeat(&answers, 0, session.events.length);

    const uint32_t refusal = troughiron_run(image->data, image->length, session.events.data, session.events.length,
                                            answers.data, answers.length, &copied);
    const struct run_outcome outcome = { &session, answers.data, copied, image };
    const int status = refusal ? run_refused(&session, image, answers.length, refusal)
                               : record_write(paths, report, &outcome, NULL);

    bytes_free(&answers);
    session_free(&session);
    return status;
}

static int search_image(const char *path, const struct record_paths *paths, FILE *report, bool json)
{
    struct found found = { 0 };
    struct bytes image = { 0 };
    int status = image_read(&image, path);

    if (status == DONE) {
        const uint32_t refusal = troughiron_search(image.data, image.length, found.codes, sizeof found.codes,
                                                   found.trace, sizeof found.trace, &found.passes, &found.resets,
                                                   &found.slots);

        status = refusal ? image_refused(input_name(path), &image, refusal) : DONE;
    }
    if (status == DONE && json)
        status = report_json(report, &found, &image);
    else if (status == DONE)
        report_codes(report, &found, &image);
    if (status == DONE)
        status = record_search(&found, &image, paths, report);
    bytes_free(&image);
    return status;
}

int search_command(struct words *words)
{
    struct record_paths paths = { 0 };
    bool json = false;
    const struct option options[] = {
        { "--json", NULL, &json },
        { "--answers", &paths.answers, NULL },
        { "--write-trace", &paths.trace, NULL },
        { "--vcd", &paths.vcd, NULL },
        { "-f", NULL, &paths.replacing.forced },
        { "--force", NULL, &paths.replacing.forced },
    };
    const int status = options_take(words, options, sizeof options / sizeof *options);

    if (status != DONE)
        return status;
    if (words->count != 1)
        return words_wrong(words, "one image");

    FILE *const report = record_report("search", &paths);

    return report ? search_image(words->list[0], &paths, report, json) : USAGE;
}
