#include "sofar.h"

#include "event.h"

void sofar_start(struct sofar *f, const struct bytes *image)
{
    bytes_add(&f->base, image->data, image->length);
    bytes_add(&f->image, image->data, image->length);
}

/* Runs the events from the start up to a place on devices. */
static void run_to(struct sofar *f, struct bytes *devices, const struct bytes *events, size_t end)
{
    uint64_t copied;

    if (f->answers.length < end)
        bytes_repeat(&f->answers, 1, end - f->answers.length);
    if (troughiron_run(devices->data, devices->length, events->data + f->start, end - f->start,
                       f->answers.data + f->start, end - f->start, &copied))
        f->refused = true;
}

/*
 * A run that starts again with the reset that ended the last one goes on as one long run does (transactions.c says
 * why), so that what comes before the last reset is run once, however often it is asked what the devices hold.
 */
bool sofar_reach(struct sofar *f, const struct bytes *events)
{
    size_t last = events->length;

    if (f->refused || f->done == events->length)
        return !f->refused;
    while (last > f->done && !is_regular_reset(events->data[last - 1]))
        last--;
    if (last > f->done) {
        run_to(f, &f->base, events, last);
        f->start = last - 1;
    }
    f->image.length = 0;
    bytes_add(&f->image, f->base.data, f->base.length);
    run_to(f, &f->image, events, events->length);
    f->done = events->length;
    return !f->refused;
}

void sofar_free(struct sofar *f)
{
    bytes_free(&f->image);
    bytes_free(&f->answers);
    bytes_free(&f->base);
}
