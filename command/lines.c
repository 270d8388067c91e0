#include "reader.h"
#include "status.h"

#include <string.h>
#include <strings.h>

/* No text of a session is near these: they keep one that never ends from being read for ever. */
enum { LONGEST_TEXT = 64 << 20, MOST_AGAIN = 1 << 20 };

/* ------------------------------------------------------------------ */
/* A line                                                              */

/* Before there is a bench, only these have a meaning. */
static bool needs_bench(int (*read)(struct reader *r))
{
    return read != read_bench && read != read_include;
}

static int read_known(struct reader *r, int (*read)(struct reader *r), bool written)
{
    if (!r->has_bench && needs_bench(read)) {
        r->stopped = true;
        return wrong_line(r, "a session without an image begins with its bench, as in 'bench ds1992'");
    }
    r->session->steps[r->session->count - 1].written = written;
    return read(r);
}

static int read_step(struct reader *r)
{
    static const struct {
        const char *word;
        int (*read)(struct reader *r);
        bool written;
    } steps[] = {
        { "reset", read_reset, false },   { "skip", read_skip, true },       { "match", read_match, true },
        { "send", read_send, true },      { "bits", read_bits, true },       { "read", read_read, false },
        { "pulse", read_pulse, false },   { "events", read_events, false },  { "read-rom", read_rom, false },
        { "search", read_search, false }, { "expect", read_expect, false },  { "keep", read_keep, false },
        { "name", read_name, false },     { "bench", read_bench, false },    { "repeat", read_repeat, false },
        { "end", read_end, false },       { "include", read_include, false }, { "overdrive", read_overdrive, true },
        { "speed", read_speed, false },
    };
    const char *const word = next_word(r);
    char room[SHOWN_ROOM];

    for (size_t i = 0; i < sizeof steps / sizeof *steps; i++)
        if (strcasecmp(word, steps[i].word) == 0)
            return read_known(r, steps[i].read, steps[i].written);
    return wrong_line(r,
                      "unknown step '%s'; steps are reset, skip, match, read-rom, search, overdrive, speed, send, "
                      "bits, read, pulse, events, expect, keep, name, bench, repeat, end and include",
                      shown(room, word));
}

/*
 * Where a comment starts, or the end: # at the start of a line, or # with a blank or nothing after it; "#2" is a
 * device.
 */
static char *comment_start(char *line)
{
    char *c = line + strspn(line, blanks);

    if (*c == '#')
        return c;
    while (*c && !(*c == '#' && (!c[1] || strchr(blanks, c[1]))))
        c++;
    return c;
}

/* Cuts off a comment, and blanks before it. */
static void cut_comment(char *line)
{
    char *end = comment_start(line);

    while (end > line && strchr(blanks, end[-1]))
        end--;
    *end = '\0';
}

/* In a step, and so in the report, every blank is a space. */
static void level_blanks(char *line)
{
    while ((line = strpbrk(line, blanks)))
        *line++ = ' ';
}

static int read_line(struct reader *r)
{
    char *line = (char *)r->line.data;

    cut_comment(line);
    level_blanks(line);
    line += strspn(line, blanks);
    if (!*line)
        return DONE;
    r->rest = line;
    session_step(r->session, r->place->line, line, strlen(line));
    r->session->steps[r->session->count - 1].file = r->place->file;
    return read_step(r);
}

/* ------------------------------------------------------------------ */
/* A whole text                                                        */

/* The mark that some editors put before a text. */
static const char byte_order_mark[] = { '\xEF', '\xBB', '\xBF' };

static char *past_mark(char *text, size_t length)
{
    const bool marked = length >= sizeof byte_order_mark && memcmp(text, byte_order_mark, sizeof byte_order_mark) == 0;

    return marked ? text + sizeof byte_order_mark : text;
}

/* Takes the next line out of the text, which stays as it is, since it may be read again. */
static int next_line(struct reader *r)
{
    struct place *const p = r->place;
    char *const newline = memchr(p->next, '\n', (size_t)(p->end - p->next));
    const size_t length = (size_t)((newline ? newline : p->end) - p->next);

    r->line.length = 0;
    bytes_add(&r->line, p->next, length);
    bytes_repeat(&r->line, '\0', 1);
    p->next += length + 1;
    p->line++;
    if (strlen((const char *)r->line.data) < length)
        return wrong_line(r, "not text: there is a zero byte");
    return read_line(r);
}

/* Stops where no trace is that long, and where lines come again and again. */
static void look_at_length(struct reader *r)
{
    struct session *const s = r->session;

    if (s->events.length > FAR_TOO_LONG) {
        s->events.length = FAR_TOO_LONG + 1;
        s->cut = true;
        r->stopped = true;
    }
    if ((r->depth > 1 || r->place->loop_count > 0) && r->again++ == MOST_AGAIN) {
        r->status = wrong_line(r, "over %d lines by repeat and include", MOST_AGAIN);
        r->stopped = true;
    }
}

/* Every bad line is said, and one of them is enough for a bad session. */
static void read_lines(struct reader *r)
{
    struct place *const p = r->place;

    while (p->next < p->end && !r->stopped) {
        const int status = next_line(r);

        if (status != DONE && r->status == DONE)
            r->status = status;
        look_at_length(r);
    }
    for (size_t i = 0; i < p->loop_count && !r->stopped; i++)
        if (!p->loops[i].bad)
            r->status = bad_line(p->file, p->loops[i].line, "repeat: there is no 'end' after it");
}

int read_text(struct reader *r, const char *path)
{
    struct bytes text = { 0 };
    struct place place = { .path = path, .file = input_name(path) }, *const outer = r->place;
    int status = bytes_read_most(&text, path, LONGEST_TEXT);

    if (status == DONE && text.length > LONGEST_TEXT)
        status = bad("%s: longer than %d bytes", place.file, LONGEST_TEXT);
    if (status == DONE && text.length > 0) {
        bytes_repeat(&text, '\0', 1); /* where the last line has no newline */
        place.next = past_mark((char *)text.data, text.length - 1);
        place.end = (char *)text.data + text.length - 1;
        r->place = &place;
        r->depth++;
        read_lines(r);
        r->depth--;
        r->place = outer;
    }
    bytes_free(&text);
    return status;
}

static void reader_free(struct reader *r)
{
    bytes_free(&r->line);
    bytes_free(&r->sent);
    names_free(&r->devices);
    names_free(&r->kept);
    sofar_free(&r->sofar);
}

int session_read(struct session *s, const char *path, const struct bytes *image)
{
    struct reader r = { .session = s, .has_bench = image };

    s->name = input_name(path);
    s->unit = "line";
    if (image) {
        bytes_add(&s->image, image->data, image->length);
        sofar_start(&r.sofar, image);
    }

    int status = read_text(&r, path);

    if (status == DONE)
        status = r.status;
    if (status == DONE && !r.has_bench)
        status = bad("%s: a session without an image begins with its bench, as in 'bench ds1992'", s->name);
    reader_free(&r);
    return status;
}
