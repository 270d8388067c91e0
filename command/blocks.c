#include "bench.h"
#include "reader.h"
#include "status.h"

#include <stdlib.h>
#include <string.h>
#include <strings.h>

/* ------------------------------------------------------------------ */
/* The bench                                                           */

static int add_devices(struct reader *r, struct bench *bench, const char *word)
{
    char room[SHOWN_ROOM];

    if (!word)
        return wrong(r, "bench", "a device, or empty,", NULL);
    for (; word; word = next_word(r)) {
        const char *const expected = bench_add(bench, word);

        if (expected)
            return wrong_line(r, "bench: %s, not '%s'", expected, shown(room, word));
    }
    return bench_from_input(bench) > 0 ? wrong_line(r, "bench: a memory comes from a file, and not from '-'") : DONE;
}

/* Without a right one nothing else of the session can be read. */
int read_bench(struct reader *r)
{
    struct bench bench = { .next_serial = 1, .beside = r->place->path };
    const char *const word = next_word(r);
    const bool empty = word && strcasecmp(word, "empty") == 0;

    if (r->has_bench)
        return wrong_line(r, "bench: there is one already, or an image is given");

    int status = empty ? nothing_after(r, "bench empty") : add_devices(r, &bench, word);

    if (status == DONE)
        status = bench_image(&r->session->image, &bench, r->place->file);
    bench_free(&bench);
    r->stopped = status != DONE;
    r->has_bench = status == DONE;
    if (r->has_bench)
        sofar_start(&r->sofar, &r->session->image);
    return status;
}

/* ------------------------------------------------------------------ */
/* Lines that are read more than once, and other texts                 */

enum { MOST_REPEATS = 999999 };

/* A bad one begins lines too, so that nothing is said of its 'end'. */
int read_repeat(struct reader *r)
{
    struct place *const p = r->place;
    const char *const word = next_word(r);
    size_t times = 1;
    const bool good = word && number_parse(&times, word, MOST_REPEATS) && times > 0;

    if (p->loop_count == MOST_LOOPS)
        return wrong_line(r, "repeat: more than %d inside each other", MOST_LOOPS);
    p->loops[p->loop_count++] = (struct loop){ p->next, p->line, good ? times : 1, !good };
    return good ? nothing_after(r, "repeat") : wrong(r, "repeat", "a number from 1 to 999999", word);
}

/* After a bad line nothing is read again, so that it is said once. */
int read_end(struct reader *r)
{
    struct place *const p = r->place;

    if (p->loop_count == 0)
        return wrong_line(r, "end: there is no 'repeat' before it");

    struct loop *const loop = &p->loops[p->loop_count - 1];

    if (--loop->left > 0 && r->status == DONE) {
        p->next = loop->start;
        p->line = loop->line;
        return DONE;
    }
    p->loop_count--;
    return nothing_after(r, "end");
}

/* The session keeps the name, once, as its steps have it. */
static const char *file_name(struct session *s, const char *beside, const char *name)
{
    char *const path = path_beside(beside, name);

    for (size_t i = 0; i < s->file_count; i++)
        if (strcmp(s->files[i], path) == 0) {
            free(path);
            return s->files[i];
        }
    s->files = grown(s->files, s->file_count + 1, sizeof *s->files);
    return s->files[s->file_count++] = path;
}

int read_include(struct reader *r)
{
    const char *const name = rest_of_line(r);

    if (!*name || strcmp(name, "-") == 0)
        return wrong(r, "include", "a file", *name ? name : NULL);
    if (r->depth == MOST_INCLUDED)
        return wrong_line(r, "include: more than %d texts inside each other", MOST_INCLUDED);

    const int status = read_text(r, file_name(r->session, r->place->path, name));

    return status == DONE ? DONE : wrong_line(r, "include: this file cannot be read");
}
