#include "verdict.h"

#include "status.h"

#include <string.h>

/* How many bytes of a long expectation that is not met are shown, from the first that differs on. */
enum { SHOWN_BYTES = 16 };

void pattern_free(struct pattern *p)
{
    bytes_free(&p->values);
    bytes_free(&p->any);
}

/* ------------------------------------------------------------------ */
/* Verdicts                                                            */

/* Where the library refuses the session there is no verdict, and the refusal is said. */
int conclude(struct reader *r, bool met, const char *expected, const char *got)
{
    struct step *const step = &r->session->steps[r->session->count - 1];
    struct bytes note = { 0 };

    if (met)
        bytes_print(&note, "met");
    else
        bytes_print(&note, "expected %s, got %s", expected, got);
    step->note = (char *)note.data;
    step->expects = true;
    step->failed = !met && !r->sofar.refused;
    r->session->expectations++;
    r->session->failures += step->failed;
    return DONE;
}

static void print_bytes(struct bytes *text, const uint8_t *bytes, const uint8_t *any, size_t count)
{
    for (size_t i = 0; i < count; i++) {
        bytes_print(text, "%s", text->length > 0 ? " " : "");
        if (any && any[i])
            bytes_print(text, "..");
        else
            bytes_print(text, "%02X", bytes[i]);
    }
}

/* The first byte that is not as expected, or their number. */
static size_t first_difference(const struct pattern *p, const uint8_t *got)
{
    size_t i = 0;

    while (i < p->values.length && (p->any.data[i] || p->values.data[i] == got[i]))
        i++;
    return i;
}

/* Compares bytes with as many of a field or of an answer. Of many, those from the first difference on are shown. */
int compare(struct reader *r, const struct pattern *p, const uint8_t *got)
{
    const size_t count = p->values.length, differs = first_difference(p, got);
    const size_t from = count > SHOWN_BYTES ? differs : 0;
    const size_t number = count - from < SHOWN_BYTES ? count - from : SHOWN_BYTES;
    struct bytes expected = { 0 }, found = { 0 };

    if (from > 0 && from < count)
        bytes_print(&expected, "from byte %zu on", from + 1);
    print_bytes(&expected, p->values.data + from, p->any.data + from, number);
    print_bytes(&found, got + from, NULL, number);

    const int status = conclude(r, differs == count, (const char *)expected.data, (const char *)found.data);

    bytes_free(&expected);
    bytes_free(&found);
    return status;
}

/* ------------------------------------------------------------------ */
/* Patterns                                                            */

static int wrong_byte(const struct reader *r, const char *word)
{
    return wrong_bytes(r, "expect", "bytes of two hexadecimal digits, or .. for any,", word);
}

static int pattern_add(struct pattern *p, const struct reader *r, const char *word)
{
    const bool any = strcmp(word, "..") == 0;

    if (any)
        bytes_repeat(&p->values, 0, 1);
    else if (!bytes_word(r, &p->values, &r->sent, word))
        return wrong_byte(r, word);
    bytes_repeat(&p->any, any, p->values.length - p->any.length);
    return DONE;
}

/* The bytes that begin with a word, up to the end of the line. */
int pattern_read(struct pattern *p, struct reader *r, const char *word)
{
    for (; word && !p->open; word = next_word(r)) {
        p->open = strcmp(word, "...") == 0;
        if (!p->open && pattern_add(p, r, word) != DONE)
            return BAD;
    }
    if (word)
        return wrong(r, "expect", "nothing after ...", word);
    return p->values.length > 0 ? DONE : wrong_byte(r, NULL);
}
