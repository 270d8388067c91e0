#include "staging.h"

#include "code.h"
#include "image.h"
#include "outputs.h"
#include "status.h"

#include <stdlib.h>
#include <string.h>

static const char blanks[] = " \t\r\n";

/* ------------------------------------------------------------------ */
/* Commands                                                            */

/* A command is a verb and at most one word. */
struct command {
    char *text; /* that the others point into */
    const char *verb, *word;
    bool more;
};

static struct command command_of(const char *text)
{
    struct command c = { .text = strcpy(grown(NULL, strlen(text) + 1, 1), text) };
    char *rest;

    c.verb = strtok_r(c.text, blanks, &rest);
    c.word = c.verb ? strtok_r(NULL, blanks, &rest) : NULL;
    c.more = c.word && strtok_r(NULL, blanks, &rest);
    return c;
}

static bool is_comment(const struct command *c)
{
    return !c->verb || *c->verb == '#';
}

static int attach(struct staging *s, size_t index)
{
    live_attach(s->live, index, true);
    return DONE;
}

static int detach(struct staging *s, size_t index)
{
    live_attach(s->live, index, false);
    return DONE;
}

static int make_good(struct staging *s, size_t index)
{
    live_flat(s->live, index, false);
    return DONE;
}

static int make_flat(struct staging *s, size_t index)
{
    live_flat(s->live, index, true);
    return DONE;
}

static int show(struct staging *s)
{
    const struct bytes *const image = live_image(s->live);

    for (size_t i = 0; i < image_count(image); i++) {
        const struct device device = image_device(image, i);
        char name[DEVICE_TEXT];

        device_write(name, &device);
        printf("%s%s%s\n", name, device.flat ? ", flat" : "", s->live->attached[i] ? "" : ", not on the line");
    }
    return report_flush(stdout);
}

static int save(struct staging *s, const char *path)
{
    const struct bytes *const image = live_image(s->live);
    struct outputs outputs = { .replacing = s->replacing };
    int status = outputs_stage(&outputs, path, HOLDS_IMAGE, image->data, image->length);

    if (status == DONE)
        status = outputs_commit(&outputs, stderr);
    outputs_free(&outputs);
    return status;
}

static const struct {
    const char *verb;
    int (*act)(struct staging *s, size_t index);
} verbs[] = { { "attach", attach }, { "detach", detach }, { "flat", make_flat }, { "good", make_good } };

enum { VERBS = sizeof verbs / sizeof *verbs };

/* The place of a verb that is done to a device, or the number of them. */
static size_t verb_of(const char *verb)
{
    size_t i = 0;

    while (i < VERBS && strcmp(verbs[i].verb, verb) != 0)
        i++;
    return i;
}

static int check_device(const struct staging *s, const struct command *c)
{
    const char *const word = c->word ? c->word : "";
    const size_t count = image_count(&s->live->image), index = image_index(&s->live->image, word);

    if (index == count)
        return bad("%s: there is no device '%s'; the image has %zu", c->verb, word, count);

    const struct device device = image_device(&s->live->image, index);

    if (strcmp(c->verb, "flat") == 0 && device.kind->add_only)
        return bad("flat: #%zu is a %s, which has no battery", device.number, device.kind->name);
    return DONE;
}

/* Whether a command can be done. Returns DONE, or says why not. */
static int check(const struct staging *s, const struct command *c)
{
    const bool alone = strcmp(c->verb, "quit") == 0 || strcmp(c->verb, "show") == 0;

    if (verb_of(c->verb) == VERBS && !alone && strcmp(c->verb, "save") != 0)
        return bad("unknown command '%s'; commands are attach, detach, flat, good, show, save and quit", c->verb);
    if (alone && c->word)
        return bad("%s: nothing expected after it", c->verb);
    if (c->more || (strcmp(c->verb, "save") == 0 && !c->word))
        return bad("%s: one word expected after it", c->verb);
    return verb_of(c->verb) < VERBS ? check_device(s, c) : DONE;
}

static int act(struct staging *s, const struct command *c)
{
    if (strcmp(c->verb, "show") == 0)
        return show(s);
    if (strcmp(c->verb, "save") == 0)
        return save(s, c->word);
    if (strcmp(c->verb, "quit") != 0)
        return verbs[verb_of(c->verb)].act(s, image_index(&s->live->image, c->word));
    s->quit = true;
    return DONE;
}

int staging_do(struct staging *s, const char *text)
{
    const struct command c = command_of(text);
    int status = is_comment(&c) ? DONE : check(s, &c);

    if (status == DONE && !is_comment(&c))
        status = act(s, &c);
    free(c.text);
    return status;
}

/* ------------------------------------------------------------------ */
/* A script                                                            */

static int wrong_moment(const struct staging *s, size_t line)
{
    return bad_line(s->script, line, "'after 12: COMMAND', 'seen 0F 26 00: COMMAND' or a command expected");
}

static bool bytes_of(struct moment *m, char *words)
{
    char *rest;

    for (char *word = strtok_r(words, blanks, &rest); word; word = strtok_r(NULL, blanks, &rest))
        if (m->count == sizeof m->bytes || !byte_parse(&m->bytes[m->count++], word))
            return false;
    return m->count > 0;
}

static bool moment_parse(struct moment *m, char *text)
{
    char *end;

    if (strncmp(text, "after ", 6) == 0) {
        m->resets = strtoull(text + 6, &end, 10);
        return m->resets > 0 && end[strspn(end, blanks)] == '\0';
    }
    return strncmp(text, "seen ", 5) == 0 && bytes_of(m, text + 5);
}

static void add_moment(struct staging *s, struct moment moment)
{
    if (s->count == s->room) {
        s->room = 2 * s->room + 8;
        s->moments = grown(s->moments, s->room, sizeof *s->moments);
    }
    s->moments[s->count++] = moment;
}

/* A command of a script is looked at when it is read, and not only at its moment. */
static int check_line(const struct staging *s, size_t number, const char *text)
{
    const struct command c = command_of(text);
    int status = c.verb ? check(s, &c) : wrong_moment(s, number);

    if (status != DONE && c.verb)
        status = bad_line(s->script, number, "this command cannot be done");
    free(c.text);
    return status;
}

static int read_line(struct staging *s, size_t number, char *line)
{
    struct moment moment = { .line = number };
    char *const colon = strchr(line, ':');

    line += strspn(line, blanks);
    if (!*line || *line == '#')
        return DONE;
    if (colon) {
        *colon = '\0';
        if (!moment_parse(&moment, line))
            return wrong_moment(s, number);
        line = colon + 1;
    }
    moment.command = strcpy(grown(NULL, strlen(line) + 1, 1), line);
    add_moment(s, moment);
    return check_line(s, number, line);
}

int staging_read(struct staging *s, const char *path)
{
    struct bytes text = { 0 };
    int status = bytes_read(&text, path);
    size_t number = 0;

    s->script = input_name(path);
    bytes_repeat(&text, '\0', 1);
    for (char *line = (char *)text.data; line && status == DONE;) {
        char *const newline = strchr(line, '\n');

        if (newline)
            *newline = '\0';
        status = read_line(s, ++number, line);
        line = newline ? newline + 1 : NULL;
    }
    bytes_free(&text);
    return status;
}

/* ------------------------------------------------------------------ */
/* Moments                                                             */

static bool carries(const uint8_t *bytes, size_t count, const struct moment *m)
{
    for (size_t i = 0; i + m->count <= count; i++)
        if (memcmp(bytes + i, m->bytes, m->count) == 0)
            return true;
    return false;
}

static bool has_come(const struct moment *m, uint64_t resets, const uint8_t *bytes, size_t count)
{
    return m->count > 0 ? carries(bytes, count, m) : resets >= m->resets;
}

/* Only the start of a long transaction is looked at. */
void staging_look(struct staging *s, const struct recorder *r)
{
    uint8_t bytes[256];
    size_t count;

    if (s->count == 0)
        return;
    count = transaction_bytes(r, bytes, sizeof bytes);
    for (size_t i = 0; i < s->count; i++) {
        struct moment *const m = &s->moments[i];

        if (m->done || !has_come(m, s->live->resets, bytes, count))
            continue;
        m->done = true;
        if (staging_do(s, m->command) != DONE)
            (void)bad_line(s->script, m->line, "this command was not done");
    }
}

void staging_free(struct staging *s)
{
    for (size_t i = 0; i < s->count; i++)
        free(s->moments[i].command);
    free(s->moments);
}
