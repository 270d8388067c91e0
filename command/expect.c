#include "event.h"
#include "status.h"
#include "verdict.h"

#include <string.h>
#include <strings.h>

static int expect_presence(struct reader *r, bool presence)
{
    const struct step *const last = last_step(r);

    if (!last || last->count != 1 || !is_reset(r->session->events.data[last->first]))
        return wrong_line(r, "expect: a reset has to come before it");

    const bool ran = sofar_reach(&r->sofar, &r->session->events);
    const bool got = ran && !r->sofar.answers.data[last->first];

    conclude(r, got == presence, presence ? "presence" : "no presence", got ? "presence" : "no presence");
    return nothing_after(r, "expect");
}

static int answer_bytes(struct reader *r, const struct pattern *p, struct bytes *got)
{
    const uint8_t *levels;
    size_t count;

    if (last_answer(r, "expect", true, &levels, &count) != DONE)
        return BAD;
    if (p->open ? p->values.length > count / 8 : p->values.length != count / 8)
        return wrong_line(r, "expect: %zu byte%s, and the step before it has %zu", p->values.length,
                          p->values.length == 1 ? "" : "s", count / 8);
    for (size_t i = 0; i < count; i += 8)
        bytes_repeat(got, byte_of_levels(levels + i), 1);
    return DONE;
}

static int expect_bytes(struct reader *r, const char *word)
{
    struct pattern pattern = { 0 };
    struct bytes got = { 0 };
    int status = pattern_read(&pattern, r, word);

    if (status == DONE)
        status = answer_bytes(r, &pattern, &got);
    if (status == DONE)
        status = compare(r, &pattern, got.data);
    bytes_free(&got);
    pattern_free(&pattern);
    return status;
}

/* The levels that are expected, without blanks. */
static int bits_read(struct reader *r, struct bytes *bits)
{
    const char *word = next_word(r);

    do {
        if (!word || strspn(word, "01.") != strlen(word))
            return wrong(r, "expect bits", "zeros and ones, or . for any,", word);
        bytes_add(bits, word, strlen(word));
    } while ((word = next_word(r)));
    return DONE;
}

static int compare_bits(struct reader *r, struct bytes *bits, const uint8_t *levels, size_t count)
{
    struct bytes got = { 0 };
    bool met = true;

    if (bits->length != count)
        return wrong_line(r, "expect bits: %zu, and the step before it has %zu slots", bits->length, count);
    for (size_t i = 0; i < count; i++) {
        const uint8_t level = levels[i] ? '1' : '0';

        bytes_repeat(&got, level, 1);
        met = met && (bits->data[i] == '.' || bits->data[i] == level);
    }
    bytes_repeat(&got, '\0', 1);
    bytes_repeat(bits, '\0', 1);
    conclude(r, met, (const char *)bits->data, (const char *)got.data);
    bytes_free(&got);
    return DONE;
}

static int expect_bits(struct reader *r)
{
    struct bytes bits = { 0 };
    const uint8_t *levels;
    size_t count;
    int status = bits_read(r, &bits);

    if (status == DONE)
        status = last_answer(r, "expect bits", false, &levels, &count);
    if (status == DONE)
        status = compare_bits(r, &bits, levels, count);
    bytes_free(&bits);
    return status;
}

/* "no" is of a presence here; flags of a device have the device before it. */
int read_expect(struct reader *r)
{
    const char *const word = next_word(r);

    if (!word)
        return wrong(r, "expect", "bytes, presence, bits, or a device and what it holds", NULL);
    if (strcasecmp(word, "bits") == 0)
        return expect_bits(r);
    if (strcasecmp(word, "presence") == 0)
        return expect_presence(r, true);
    if (strcasecmp(word, "no") == 0) {
        const char *const what = next_word(r);

        return what && strcasecmp(what, "presence") == 0 ? expect_presence(r, false)
                                                         : wrong(r, "expect no", "presence", what);
    }
    return starts_with_device(word) ? expect_held(r, word) : expect_bytes(r, word);
}
