#include "record.h"

#include "gtkwave.h"
#include "outputs.h"
#include "status.h"
#include "vcd.h"

#include <stdlib.h>
#include <string.h>

/* How many of some paths are this one. */
static size_t times_named(const char *const *paths, size_t count, const char *path)
{
    size_t times = 0;

    for (size_t i = 0; i < count; i++)
        times += paths[i] && strcmp(paths[i], path) == 0;
    return times;
}

FILE *record_report(const char *command, const struct record_paths *paths)
{
    const char *const all[] = { paths->image, paths->answers, paths->trace, paths->vcd, paths->html };
    const size_t count = sizeof all / sizeof *all;

    for (size_t i = 0; i < count; i++)
        if (all[i] && times_named(all, count, all[i]) > 1) {
            bad_usage(command, "two files cannot both go to '%s'", all[i]);
            return NULL;
        }
    return times_named(all, count, "-") ? stderr : stdout;
}

/* The waveform with what GTKWave needs beside it. */
struct picture {
    struct bytes vcd, save, steps;
    char *save_path, *steps_path;
};

static void picture_draw(struct picture *p, const char *path, const struct run_outcome *run)
{
    vcd_write(&p->vcd, run->session, run->answers);
    p->save_path = save_path(path);
    p->steps_path = steps_path(path);
    save_write(&p->save, path);
    steps_write(&p->steps, run->session);
}

static void picture_free(struct picture *p)
{
    bytes_free(&p->vcd);
    bytes_free(&p->save);
    bytes_free(&p->steps);
    free(p->save_path);
    free(p->steps_path);
}

int record_write(const struct record_paths *paths, FILE *report, const struct run_outcome *run,
                 const struct bytes *page)
{
    const struct bytes *const events = &run->session->events;
    struct outputs outputs = { .replacing = paths->replacing };
    struct picture picture = { 0 };

    if (paths->vcd)
        picture_draw(&picture, paths->vcd, run);

    const struct {
        const char *path;
        enum holding holding;
        const void *bytes;
        size_t length;
    } files[] = {
        { paths->answers, HOLDS_ANSWERS, run->answers, events->length },
        { paths->trace, HOLDS_TRACE, events->data, events->length },
        { paths->vcd, HOLDS_WAVEFORM, picture.vcd.data, picture.vcd.length },
        { picture.save_path, HOLDS_SAVE, picture.save.data, picture.save.length },
        { picture.steps_path, HOLDS_STEPS, picture.steps.data, picture.steps.length },
        { paths->html, HOLDS_PAGE, page ? page->data : NULL, page ? page->length : 0 },
        { paths->image, HOLDS_IMAGE, run->after->data, run->after->length },
    };
    int status = DONE;

    for (size_t i = 0; i < sizeof files / sizeof *files && status == DONE; i++)
        status = outputs_stage(&outputs, files[i].path, files[i].holding, files[i].bytes, files[i].length);
    if (status == DONE)
        status = outputs_commit(&outputs, report);
    outputs_free(&outputs);
    picture_free(&picture);
    return status;
}
