/*
 * The DS2480B of a DS9097U, an active adapter: a program sends it commands and data bytes, and it makes the resets and
 * slots. Bits of its bytes are numbered as in its data sheet; a command's bits 3 and 2 are the speed of the line, for
 * what it does itself and for the data bytes after it.
 */
#include "adapter.h"

enum {
    TO_DATA = 0xE1,
    TO_COMMAND = 0xE3,  /* twice in data mode, it is a data byte */
    END_PULSE = 0xF1,
    KIND = 0xE1,        /* the bits of a command that tell which one it is */
    RESET = 0xC1,
    SINGLE_BIT = 0x81,
    SEARCH = 0xA1,      /* the search accelerator, on or off */
    PULSE = 0xE1,
    VALUE = 0x10,       /* of a single bit, of the accelerator, and of a pulse: 12 V, and not the strong pull-up */
    FOUND = 0xCD,       /* what a reset is answered with: a presence, */
    NOT_FOUND = 0xCF,   /* or none */
    BIT_READ = 0x03,
    SPEED = 0x0C,       /* regular is 00h, flexible 04h, which is regular with longer edges */
    OVERDRIVE = 0x08,
    SEARCH_BYTES = 16   /* two bits for each bit of a code */
};

void ds2480b_open(struct adapter *a)
{
    a->ds2480b = (struct ds2480b){ .awake = false };
}

static uint8_t exchanged(struct live *l, uint8_t byte)
{
    unsigned levels = 0;

    for (unsigned bit = 0; bit < 8; bit++)
        levels |= (unsigned)live_slot(l, byte >> bit & 1) << bit;
    return (uint8_t)levels;
}

/* ------------------------------------------------------------------ */
/* The search accelerator                                              */

/*
 * One bit of the codes: the bit and its complement are read, and a direction is sent, which is the one asked for only
 * where devices differ. Sent back are the direction and, below it, whether they differ, or none is left.
 */
static unsigned direction(struct live *l, bool asked)
{
    const bool bit = live_slot(l, true), complement = live_slot(l, true);
    const bool open = bit == complement;
    const bool sent = open ? bit || asked : bit;

    (void)live_slot(l, sent);
    return (unsigned)sent << 1 | open;
}

static void search(struct ds2480b *d, struct live *l, struct bytes *reply)
{
    for (size_t i = 0; i < SEARCH_BYTES; i++) {
        unsigned byte = 0;

        for (unsigned pair = 0; pair < 8; pair += 2)
            byte |= direction(l, d->search[i] >> (pair + 1) & 1) << pair;
        bytes_repeat(reply, (uint8_t)byte, 1);
    }
    d->taken = 0;
}

static void take_data(struct ds2480b *d, struct live *l, uint8_t byte, struct bytes *reply)
{
    if (!d->searches) {
        bytes_repeat(reply, exchanged(l, byte), 1);
        return;
    }
    d->search[d->taken++] = byte;
    if (d->taken == SEARCH_BYTES)
        search(d, l, reply);
}

/* ------------------------------------------------------------------ */
/* Commands                                                            */

/* A parameter is set, or read where its number is 0 and the value names it; bit 0 of the answer is clear. */
static uint8_t configured(struct ds2480b *d, uint8_t command)
{
    const unsigned number = command >> 4 & 7, value = command >> 1 & 7;

    if (number == 0)
        return (uint8_t)(d->parameters[value] << 1);
    d->parameters[number] = (uint8_t)value;
    return command & 0xFE;
}

/* Only the pulse of 12 V does anything on this line: no device here needs the strong pull-up. */
static uint8_t pulsed(struct live *l, uint8_t command)
{
    if (command & VALUE)
        live_pulse(l);
    return command & 0xFC;
}

/* A reset at regular speed leaves the line there. */
static bool reset_line(struct live *l, uint8_t command)
{
    return (command & SPEED) == OVERDRIVE ? live_overdrive_reset(l) : live_reset(l);
}

static void take_command(struct ds2480b *d, struct live *l, uint8_t command, struct bytes *reply)
{
    if (command == TO_DATA) {
        d->data = true;
    } else if (command == TO_COMMAND || command == END_PULSE) {
        return; /* it is there already, and no pulse goes on */
    } else if (!(command & 0x80)) {
        bytes_repeat(reply, configured(d, command), 1);
    } else if ((command & KIND) == RESET) {
        bytes_repeat(reply, reset_line(l, command) ? FOUND : NOT_FOUND, 1);
        l->line.overdrive = (command & SPEED) == OVERDRIVE;
    } else if ((command & KIND) == SINGLE_BIT) {
        l->line.overdrive = (command & SPEED) == OVERDRIVE;
        bytes_repeat(reply, (uint8_t)((command & 0xFC) | (live_slot(l, command & VALUE) ? BIT_READ : 0)), 1);
    } else if ((command & KIND) == SEARCH) {
        l->line.overdrive = (command & SPEED) == OVERDRIVE;
        d->searches = command & VALUE;
        d->taken = 0;
    } else if ((command & KIND) == PULSE) {
        bytes_repeat(reply, pulsed(l, command), 1);
    }
}

/* In data mode a byte that leads back to command mode is a data byte if it comes twice. */
static void take_in_data_mode(struct ds2480b *d, struct live *l, uint8_t byte, struct bytes *reply)
{
    if (!d->escaped && byte == TO_COMMAND) {
        d->escaped = true;
    } else if (d->escaped && byte != TO_COMMAND) {
        d->escaped = d->data = false;
        take_command(d, l, byte, reply);
    } else {
        d->escaped = false;
        take_data(d, l, byte, reply);
    }
}

/* The first byte only tells the speed of the serial line, and is not answered. */
void ds2480b_take(struct adapter *a, struct live *l, unsigned baud, uint8_t byte, struct bytes *reply)
{
    struct ds2480b *const d = &a->ds2480b;

    (void)baud;
    if (!d->awake)
        d->awake = true;
    else if (d->data)
        take_in_data_mode(d, l, byte, reply);
    else
        take_command(d, l, byte, reply);
}
