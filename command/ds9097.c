/*
 * The DS9097, a passive adapter: the serial line's own low is the line's low. At 9600 baud the byte F0h is as long as a
 * reset, and what comes back has the presence in it; at any higher speed a byte is a slot: its start bit is the low of
 * a write-one or read slot, and the whole of 00h is that of a write-zero slot.
 */
#include "adapter.h"

#include <string.h>

enum {
    RESET_BAUD = 9600,
    RESET_BYTE = 0xF0,
    PRESENCE = 0xE0,  /* F0h with a low of the devices in its first high bits */
    SLOT_ONE = 0xFF,
    SLOT_ZERO = 0x00,
    HELD = 0xFC       /* FFh where a device holds the line low past the start bit */
};

static void nothing(struct adapter *a)
{
    (void)a;
}

/* Bytes that are no reset and no slot are read back as they are, which is how programs find the adapter. */
static uint8_t echo(struct live *l, unsigned baud, uint8_t byte)
{
    if (baud <= RESET_BAUD)
        return byte == RESET_BYTE && live_reset(l) ? PRESENCE : byte;
    if (byte == SLOT_ONE)
        return live_slot(l, true) ? SLOT_ONE : HELD;
    if (byte == SLOT_ZERO)
        (void)live_slot(l, false);
    return byte;
}

void ds9097_take(struct adapter *a, struct live *l, unsigned baud, uint8_t byte, struct bytes *reply)
{
    (void)a;
    bytes_repeat(reply, echo(l, baud, byte), 1);
}

bool adapter_named(struct adapter *a, const char *name)
{
    static const struct adapter adapters[] = {
        { .name = "ds9097", .open = nothing, .take = ds9097_take },
        { .name = "ds2480b", .open = ds2480b_open, .take = ds2480b_take },
    };

    for (size_t i = 0; i < sizeof adapters / sizeof *adapters; i++)
        if (strcmp(adapters[i].name, name) == 0) {
            *a = adapters[i];
            return true;
        }
    return false;
}
