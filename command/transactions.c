#include "transactions.h"

#include "changes.h"
#include "troughiron.h"

struct transactions transactions_of(const struct bytes *image, const struct bytes *events)
{
    struct transactions t = { .events = events->data };

    bytes_add(&t.before, image->data, image->length);
    bytes_add(&t.after, image->data, image->length);
    bytes_repeat(&t.answers, 0, events->length);
    return t;
}

/*
 * A reset leads a device from any stage to the ROM command, also from waiting, where it is at the start of a run. So a
 * run that starts again with the reset that ended the last one goes on as one long run does. The library took all the
 * events together, so it refuses none of these parts.
 */
bool transactions_next(struct transactions *t, size_t end)
{
    uint64_t copied;

    t->before.length = 0;
    bytes_add(&t->before, t->after.data, t->after.length);
    (void)troughiron_run(t->after.data, t->after.length, t->events + t->start, end - t->start, t->answers.data,
                         t->answers.length, &copied);
    t->start = end > 0 ? end - 1 : 0;
    return image_differs(&t->before, &t->after);
}

void transactions_free(struct transactions *t)
{
    bytes_free(&t->before);
    bytes_free(&t->after);
    bytes_free(&t->answers);
}
