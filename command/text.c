#include "text.h"

#include "event.h"

enum { SEARCH_ROM = 0xF0, ROW = 16, CODE_BITS = 64 };

/* The number of slots of one speed from an event on. */
static size_t slots_from(const uint8_t *events, size_t from, size_t count)
{
    size_t end = from;

    while (end < count && is_slot(events[end]) && is_overdrive(events[end]) == is_overdrive(events[from]))
        end++;
    return end - from;
}

/* Bytes of ones are there to be read; others are sent. Returns how many slots the line of text has. */
static size_t bytes_line(struct bytes *text, const uint8_t *slots, size_t count)
{
    const bool reads = byte_of_levels(slots) == 0xFF;
    size_t at = 0;

    if (!reads)
        bytes_print(text, "send");
    while (at + 8 <= count && (byte_of_levels(slots + at) == 0xFF) == reads && (reads || at < 8 * ROW)) {
        if (!reads)
            bytes_print(text, " %02X", byte_of_levels(slots + at));
        at += 8;
    }
    if (reads)
        bytes_print(text, "read %zu", at / 8);
    bytes_print(text, "\n");
    return at;
}

/* Single slots, in words of a number of them. */
static void bits_line(struct bytes *text, const uint8_t *slots, size_t count, size_t word)
{
    bytes_print(text, "bits");
    for (size_t i = 0; i < count; i++)
        bytes_print(text, "%s%d", i % word == 0 ? " " : "", sends_one(slots[i]));
    bytes_print(text, "\n");
}

/* Of search ROM: each bit of the codes is two slots to read and the direction. */
static size_t search_lines(struct bytes *text, const uint8_t *slots, size_t count)
{
    const size_t all = count < 3 * CODE_BITS ? count : 3 * CODE_BITS;

    for (size_t at = 0; at < all; at += 3 * ROW)
        bits_line(text, slots + at, all - at < 3 * ROW ? all - at : 3 * ROW, 3);
    return all;
}

static void slots_lines(struct bytes *text, const uint8_t *slots, size_t count, bool after_reset)
{
    size_t at = 0;

    if (after_reset && count >= 8 && byte_of_levels(slots) == SEARCH_ROM) {
        at = bytes_line(text, slots, 8);
        at += search_lines(text, slots + at, count - at);
    }
    while (at + 8 <= count)
        at += bytes_line(text, slots + at, count - at);
    if (at < count)
        bits_line(text, slots + at, count - at, count - at);
}

/* A line for a reset or a pulse. Returns the speed that the master is at after it. */
static bool other_line(struct bytes *text, uint8_t event, bool overdrive)
{
    if (!is_reset(event)) {
        bytes_print(text, "pulse\n");
        return overdrive;
    }
    bytes_print(text, is_overdrive(event) ? "overdrive reset\n" : "\nreset\n");
    return is_overdrive(event);
}

void text_of_events(struct bytes *text, const uint8_t *events, size_t count)
{
    bool overdrive = false;

    bytes_print(text, RECORDED_START);
    for (size_t i = 0; i < count;) {
        const size_t slots = slots_from(events, i, count);

        if (slots == 0) {
            overdrive = other_line(text, events[i++], overdrive);
            continue;
        }
        if (overdrive != is_overdrive(events[i]))
            bytes_print(text, is_overdrive(events[i]) ? "speed overdrive\n" : "speed regular\n");
        overdrive = is_overdrive(events[i]);
        slots_lines(text, events + i, slots, i > 0 && is_reset(events[i - 1]));
        i += slots;
    }
}
