#include "crc.h"
#include "event.h"
#include "image.h"
#include "reader.h"
#include "status.h"

#include <ctype.h>
#include <stdlib.h>
#include <string.h>
#include <strings.h>

/* ------------------------------------------------------------------ */
/* Names                                                               */

static struct named *names_find(const struct names *n, const char *name)
{
    for (size_t i = 0; i < n->count; i++)
        if (strcmp(n->list[i].name, name) == 0)
            return &n->list[i];
    return NULL;
}

static struct named *names_add(struct names *n, const char *name)
{
    char *const copy = grown(NULL, strlen(name) + 1, 1);

    n->list = grown(n->list, n->count + 1, sizeof *n->list);
    n->list[n->count] = (struct named){ .name = strcpy(copy, name) };
    return &n->list[n->count++];
}

void names_free(struct names *n)
{
    for (size_t i = 0; i < n->count; i++) {
        free(n->list[i].name);
        bytes_free(&n->list[i].bytes);
    }
    free(n->list);
    *n = (struct names){ 0 };
}

/* A letter, then letters, digits, dashes and underscores. */
static bool is_name(const char *word)
{
    static const char inside[] = "abcdefghijklmnopqrstuvwxyzABCDEFGHIJKLMNOPQRSTUVWXYZ0123456789-_";

    return isalpha((unsigned char)*word) && strspn(word, inside) == strlen(word);
}

/* What stands where a device can stand, and is none: a byte, a code, a word of an expectation. */
static bool is_taken(const char *word)
{
    static const char *const words[] = { "bits", "presence", "no", "unchanged", "crc8", "crc16" };
    uint8_t code[CODE_SIZE];

    for (size_t i = 0; i < sizeof words / sizeof *words; i++)
        if (strcasecmp(word, words[i]) == 0)
            return true;
    return byte_parse(code, word) || code_parse(code, word);
}

/* ------------------------------------------------------------------ */
/* Devices                                                             */

bool starts_with_device(const char *text)
{
    const size_t length = strcspn(text, blanks);
    char *const word = grown(NULL, length + 1, 1);

    memcpy(word, text, length);
    word[length] = '\0';

    const bool found = *word == '#' || (is_name(word) && !is_taken(word));

    free(word);
    return found;
}

int device_find(struct reader *r, const char *step, const char *word, size_t *index)
{
    const size_t count = image_count(&r->session->image);
    const struct named *const named = names_find(&r->devices, word);
    char room[SHOWN_ROOM];
    size_t number;

    if (named) {
        *index = named->device;
        return DONE;
    }
    if (*word != '#')
        return wrong_line(r, "%s: no device has the name '%s'", step, shown(room, word));
    if (!number_parse(&number, word + 1, count) || number == 0)
        return wrong_line(r, "%s: there is no device '%s'; the image has %zu", step, shown(room, word), count);
    *index = number - 1;
    return DONE;
}

/* A name stays that of one device; to say so again, as in lines that repeat, is no matter. */
int read_name(struct reader *r)
{
    const char *const name = next_word(r);
    const char *const equals = name ? next_word(r) : NULL;
    const char *const word = equals ? next_word(r) : NULL;
    size_t index;
    char room[SHOWN_ROOM];

    if (!name || !is_name(name) || is_taken(name))
        return wrong(r, "name", "a name of letters, digits, '-' and '_', and no byte, code or word of expect,", name);
    if (!equals || strcmp(equals, "=") != 0 || !word || *word != '#')
        return wrong(r, "name", "'NAME = #2'", equals && strcmp(equals, "=") == 0 ? word : equals);
    if (device_find(r, "name", word, &index) != DONE)
        return BAD;

    const struct named *const old = names_find(&r->devices, name);

    if (old && old->device != index)
        return wrong_line(r, "name: '%s' is #%zu already", shown(room, name), old->device + 1);
    if (!old)
        names_add(&r->devices, name)->device = index;
    return nothing_after(r, "name");
}

/* ------------------------------------------------------------------ */
/* Answers, and bytes that are kept                                    */

const struct step *last_step(const struct reader *r)
{
    const struct session *const s = r->session;

    for (size_t i = s->count; i > 0; i--)
        if (s->steps[i - 1].count > 0)
            return &s->steps[i - 1];
    return NULL;
}

static bool all_slots(const struct reader *r, const struct step *step)
{
    for (size_t i = 0; i < step->count; i++)
        if (!is_slot(r->session->events.data[step->first + i]))
            return false;
    return true;
}

int last_answer(struct reader *r, const char *step, bool whole, const uint8_t **levels, size_t *count)
{
    const struct step *const last = last_step(r);

    if (!last || !all_slots(r, last))
        return wrong_line(r, "%s: a step of slots, such as read, has to come before it", step);
    *count = last->count - last->asked;
    if (whole && *count % 8 != 0)
        return wrong_line(r, "%s: the step before it has %zu slots, which are no whole bytes", step, *count);
    (void)sofar_reach(&r->sofar, &r->session->events);
    if (r->sofar.answers.length < r->session->events.length)
        bytes_repeat(&r->sofar.answers, 1, r->session->events.length - r->sofar.answers.length);
    *levels = r->sofar.answers.data + last->first + last->asked;
    return DONE;
}

bool bytes_word(const struct reader *r, struct bytes *onto, const struct bytes *over, const char *word)
{
    const struct named *const kept = *word == '$' ? names_find(&r->kept, word + 1) : NULL;
    uint8_t byte;

    if (kept) {
        bytes_add(onto, kept->bytes.data, kept->bytes.length);
    } else if (over && strcasecmp(word, "crc8") == 0) {
        bytes_repeat(onto, crc8(over->data, over->length), 1);
    } else if (over && strcasecmp(word, "crc16") == 0) {
        const unsigned sum = crc16(over->data, over->length);

        bytes_repeat(onto, (uint8_t)sum, 1);
        bytes_repeat(onto, (uint8_t)(sum >> 8), 1);
    } else if (byte_parse(&byte, word)) {
        bytes_repeat(onto, byte, 1);
    } else {
        return false;
    }
    return true;
}

static void keep(struct reader *r, const char *name, const uint8_t *levels, size_t count)
{
    struct named *const old = names_find(&r->kept, name);
    struct named *const kept = old ? old : names_add(&r->kept, name);
    struct bytes note = { 0 };

    kept->bytes.length = 0;
    bytes_print(&note, "kept");
    for (size_t i = 0; i < count; i++) {
        bytes_repeat(&kept->bytes, byte_of_levels(levels + 8 * i), 1);
        bytes_print(&note, " %02X", kept->bytes.data[i]);
    }
    r->session->steps[r->session->count - 1].note = (char *)note.data;
}

/* All bytes of the answer, or the first of them. */
int read_keep(struct reader *r)
{
    const char *const name = next_word(r), *const number = name ? next_word(r) : NULL;
    const uint8_t *levels;
    size_t count, wanted;

    if (!name || !is_name(name))
        return wrong(r, "keep", "a name of letters, digits, '-' and '_'", name);
    if (last_answer(r, "keep", true, &levels, &count) != DONE)
        return BAD;
    wanted = count / 8;
    if (number && (!number_parse(&wanted, number, count / 8) || wanted == 0))
        return wrong_line(r, "keep: the step before it has %zu byte%s", count / 8, count == 8 ? "" : "s");
    keep(r, name, levels, wanted);
    return nothing_after(r, "keep");
}
