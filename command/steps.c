#include "event.h"
#include "image.h"
#include "reader.h"
#include "status.h"

#include <string.h>
#include <strings.h>

/* ROM commands that have a word of their own. */
enum {
    SKIP_ROM = 0xCC,
    MATCH_ROM = 0x55,
    READ_ROM = 0x33,
    SEARCH_ROM = 0xF0,
    OVERDRIVE_SKIP = 0x3C,
    OVERDRIVE_MATCH = 0x69
};

/* The refusal of a trace that is too long is the library's. */
enum { LONGEST_READ = FAR_TOO_LONG / 8 + 1 };

static void step_event(struct session *s, uint8_t event)
{
    step_events(s, &event, 1);
}

/* Slots are at the speed that the master is at. */
static void step_slot(struct reader *r, bool one)
{
    step_event(r->session, slot_of(one, r->overdrive));
}

static void step_byte(struct reader *r, uint8_t byte)
{
    for (unsigned bit = 0; bit < 8; bit++)
        step_slot(r, byte >> bit & 1);
}

static void step_code(struct reader *r, const uint8_t code[CODE_SIZE])
{
    for (size_t i = 0; i < CODE_SIZE; i++)
        step_byte(r, code[i]);
}

static void step_reads(struct reader *r, size_t count)
{
    for (size_t i = 0; i < count; i++)
        step_slot(r, true);
}

/* Every device is at regular speed after it, and so is the master. */
int read_reset(struct reader *r)
{
    r->overdrive = false;
    step_event(r->session, TROUGHIRON_RESET);
    return nothing_after(r, "reset");
}

int read_pulse(struct reader *r)
{
    step_event(r->session, TROUGHIRON_PULSE);
    return nothing_after(r, "pulse");
}

int read_skip(struct reader *r)
{
    step_byte(r, SKIP_ROM);
    return nothing_after(r, "skip");
}

/* What comes after the command is there to be answered. */
int read_rom(struct reader *r)
{
    step_byte(r, READ_ROM);
    r->session->steps[r->session->count - 1].asked = 8;
    step_reads(r, 8 * CODE_SIZE);
    return nothing_after(r, "read-rom");
}

/* A code that was kept; false where that is none. */
static bool kept_code(const struct reader *r, uint8_t code[CODE_SIZE], const char *word)
{
    struct bytes kept = { 0 };
    const bool found = *word == '$' && bytes_word(r, &kept, NULL, word) && kept.length == CODE_SIZE;

    if (found)
        memcpy(code, kept.data, CODE_SIZE);
    bytes_free(&kept);
    return found;
}

/* The code of a device of the bench. */
static int device_code(struct reader *r, const char *step, uint8_t code[CODE_SIZE])
{
    size_t index;

    if (device_find(r, step, next_word(r), &index) != DONE)
        return BAD;
    memcpy(code, image_device(&r->session->image, index).body, CODE_SIZE);
    return nothing_after(r, step);
}

/* A code in digits, which may have blanks in it, one that was kept, or that of a device. */
static int code_find(struct reader *r, const char *step, uint8_t code[CODE_SIZE])
{
    const char *const argument = rest_of_line(r);

    if (code_parse(code, argument) || kept_code(r, code, argument))
        return DONE;
    if (starts_with_device(argument))
        return device_code(r, step, code);
    return wrong(r, step, "a code of 16 hexadecimal digits, or #1, #2 and so on,", *argument ? argument : NULL);
}

int read_match(struct reader *r)
{
    uint8_t code[CODE_SIZE];
    const int status = code_find(r, "match", code);

    if (status != DONE)
        return status;
    step_byte(r, MATCH_ROM);
    step_code(r, code);
    return DONE;
}

/* The command goes at the speed that the master is at, and what follows it at overdrive. */
static int read_overdrive_skip(struct reader *r)
{
    step_byte(r, OVERDRIVE_SKIP);
    r->overdrive = true;
    return nothing_after(r, "overdrive skip");
}

static int read_overdrive_match(struct reader *r)
{
    uint8_t code[CODE_SIZE];
    const int status = code_find(r, "overdrive match", code);

    if (status != DONE)
        return status;
    step_byte(r, OVERDRIVE_MATCH);
    r->overdrive = true;
    step_code(r, code);
    return DONE;
}

static int read_overdrive_reset(struct reader *r)
{
    r->overdrive = true;
    step_event(r->session, TROUGHIRON_OVERDRIVE_RESET);
    r->session->steps[r->session->count - 1].written = false;
    return nothing_after(r, "overdrive reset");
}

int read_overdrive(struct reader *r)
{
    const char *const word = next_word(r);

    if (word && strcasecmp(word, "skip") == 0)
        return read_overdrive_skip(r);
    if (word && strcasecmp(word, "match") == 0)
        return read_overdrive_match(r);
    if (word && strcasecmp(word, "reset") == 0)
        return read_overdrive_reset(r);
    return wrong(r, "overdrive", "skip, match or reset", word);
}

/* The speed of the master alone: what the devices make of it is theirs. */
int read_speed(struct reader *r)
{
    const char *const word = next_word(r);

    if (!word || (strcasecmp(word, "overdrive") != 0 && strcasecmp(word, "regular") != 0))
        return wrong(r, "speed", "overdrive or regular", word);
    r->overdrive = strcasecmp(word, "overdrive") == 0;
    return nothing_after(r, "speed");
}

/* Each bit of the codes is two slots to read, and the direction, which is that of the code. */
int read_search(struct reader *r)
{
    uint8_t code[CODE_SIZE];
    const int status = code_find(r, "search", code);

    if (status != DONE)
        return status;
    step_byte(r, SEARCH_ROM);
    r->session->steps[r->session->count - 1].asked = 8;
    for (size_t bit = 0; bit < 8 * CODE_SIZE; bit++) {
        step_reads(r, 2);
        step_slot(r, code[bit / 8] >> bit % 8 & 1);
    }
    return DONE;
}

int read_send(struct reader *r)
{
    const char *word = next_word(r);

    r->sent.length = 0;
    do {
        if (!word || !bytes_word(r, &r->sent, &r->sent, word))
            return wrong_bytes(r, "send", "bytes of two hexadecimal digits", word);
    } while ((word = next_word(r)));
    for (size_t i = 0; i < r->sent.length; i++)
        step_byte(r, r->sent.data[i]);
    return DONE;
}

int read_bits(struct reader *r)
{
    const char *word = next_word(r);

    do {
        if (!word || strspn(word, "01") != strlen(word))
            return wrong(r, "bits", "zeros and ones", word);
        for (; *word; word++)
            step_slot(r, *word == '1');
    } while ((word = next_word(r)));
    return DONE;
}

int read_read(struct reader *r)
{
    const char *const word = next_word(r);
    size_t count;

    if (!word || !number_parse(&count, word, LONGEST_READ) || count == 0)
        return wrong(r, "read", "a number of bytes from 1 to 131073", word);
    step_reads(r, 8 * count);
    return nothing_after(r, "read");
}

/* Any byte is taken: whether it is an event is the library's to say. */
int read_events(struct reader *r)
{
    const char *word = next_word(r);
    size_t event;

    do {
        if (!word || !number_parse(&event, word, 255))
            return wrong(r, "events", "numbers: 0 and 1 for slots, 2 reset, 3 pulse, 4 to 6 at overdrive", word);
        step_event(r->session, (uint8_t)event);
    } while ((word = next_word(r)));
    return DONE;
}
