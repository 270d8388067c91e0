/*
 * A 1-Wire bus of DS1992, DS1993, DS1996 and DS1982 devices, a judge of
 * sessions that were recorded on it, and a searching master.
 *
 * Everything on the bus is a transfer: a number of slots in which a party
 * shifts bits out of one register and line levels into another.  A 1 shifted
 * out leaves the line alone, so listening is sending ones.  When the slots of
 * a transfer are over, its continuation looks at what came in and starts the
 * next transfer.  A device is thus a handful of short functions that name one
 * another in protocol order, and a slot costs a device two shifts and a count.
 */
#include "second.h"

#include <assert.h>
#include <string.h>

enum {
    MAX_DEVICES = 64,
    MAX_EVENTS = 32768,
    CODE_BYTES = 8,
    CODE_BITS = 64,
    PASS_EVENTS = 1 + 8 + 3 * CODE_BITS,
    PAGE_BYTES = 32
};

enum event {
    WRITE_ZERO,
    WRITE_ONE,
    RESET,
    PROGRAM_PULSE,
    OVERDRIVE_ZERO,
    OVERDRIVE_ONE,
    OVERDRIVE_RESET,
    SEARCH_ENDED
};

enum family { DS1993 = 0x06, DS1992 = 0x08, DS1982 = 0x09, DS1996 = 0x0C };

/* The ROM functions of all devices, and those of a DS1996. */
enum {
    READ_ROM = 0x33,
    MATCH_ROM = 0x55,
    SKIP_ROM = 0xCC,
    SEARCH_ROM = 0xF0,
    OVERDRIVE_SKIP_ROM = 0x3C,
    OVERDRIVE_MATCH_ROM = 0x69
};

/* The memory functions of a DS1992, DS1993 or DS1996. */
enum {
    WRITE_SCRATCHPAD = 0x0F,
    COPY_SCRATCHPAD = 0x55,
    READ_SCRATCHPAD = 0xAA,
    READ_MEMORY = 0xF0
};

/* The memory functions of a DS1982. */
enum {
    WRITE_DATA = 0x0F,
    WRITE_STATUS = 0x55,
    READ_STATUS = 0xAA,
    READ_DATA_BY_PAGE = 0xC3,
    READ_DATA = 0xF0
};

/* Where things are in an image. */
enum {
    COUNT = 0,
    EDITION = 1,
    TABLE = 2,
    ENTRY_BYTES = 4,
    /* in the body of a DS1992, DS1993 or DS1996 */
    TA1 = CODE_BYTES,
    TA2 = TA1 + 1,
    ES = TA2 + 1,
    SCRATCHPAD = ES + 1,
    SCRATCHPAD_BYTES = PAGE_BYTES,
    MEMORY = SCRATCHPAD + SCRATCHPAD_BYTES,
    /* in the body of a DS1982 */
    STATUS = CODE_BYTES,
    STATUS_BYTES = 8,
    DATA = STATUS + STATUS_BYTES,
    DATA_BYTES = 128,
    MAX_IMAGE_BYTES = 65535
};

/* The second byte of an entry. */
enum { GOOD = 0, FLAT = 1 };

/* The E/S register: five bits of ending offset and three flags. */
enum { OFFSET_MASK = 0x1F, PF = 0x20, OF = 0x40, AA = 0x80 };

/* ------------------------------------------------------------------ */
/* CRC and codes                                                       */

/* Shifts a byte, least significant bit first, into X8 + X5 + X4 + 1. */
static uint8_t crc8_shift(uint8_t crc, uint8_t byte)
{
    static const uint8_t low[16] = {
        0x00, 0x5E, 0xBC, 0xE2, 0x61, 0x3F, 0xDD, 0x83,
        0xC2, 0x9C, 0x7E, 0x20, 0xA3, 0xFD, 0x1F, 0x41
    };
    static const uint8_t high[16] = {
        0x00, 0x9D, 0x23, 0xBE, 0x46, 0xDB, 0x65, 0xF8,
        0x8C, 0x11, 0xAF, 0x32, 0xCA, 0x57, 0xE9, 0x74
    };
    const unsigned index = crc ^ byte;

    return low[index & 15] ^ high[index >> 4];
}

/* A code as a number: its bit 0 is sent first. */
static uint64_t load_code(const uint8_t *bytes)
{
    uint64_t code = 0;

    for (unsigned i = 0; i < CODE_BYTES; i++)
        code |= (uint64_t)bytes[i] << (8 * i);
    return code;
}

static void store_code(uint8_t *bytes, uint64_t code)
{
    for (unsigned i = 0; i < CODE_BYTES; i++)
        bytes[i] = (uint8_t)(code >> (8 * i));
}

static int code_is_valid(uint64_t code)
{
    uint8_t crc = 0;

    for (unsigned i = 0; i < CODE_BYTES; i++)
        crc = crc8_shift(crc, (uint8_t)(code >> (8 * i)));
    return crc == 0;
}

uint32_t second_registration_check(const uint8_t *code, size_t code_len)
{
    return code_len == CODE_BYTES && code_is_valid(load_code(code));
}

/* ------------------------------------------------------------------ */
/* Devices: transfers                                                  */

struct device;
typedef void continuation(struct device *);

struct device {
    /* the transfer under way */
    uint64_t out;       /* bits still to drive, the next one lowest */
    uint64_t in;        /* levels seen, the last one highest */
    unsigned left;      /* slots to go */
    continuation *next; /* what follows them */

    /* the speed: a device hears slots and short resets of its own only */
    int overdrive;
    int overdrive_before; /* the command 69h whose match is under way */

    /* what the device is */
    uint64_t code;
    int has_overdrive;
    int flat; /* whether its battery is */
    continuation *memory_command;
    uint8_t *body;
    unsigned memory_bytes;
    uint64_t copied; /* bytes that its copies have written */

    /* what the present function works on */
    uint8_t *field;       /* scratchpad, memory, data or status */
    unsigned field_bytes; /* its size */
    unsigned position;    /* byte of that field, or bit of the code */
    unsigned block_end;   /* where the next CRC of an EPROM read is due */
    uint8_t command;
    uint8_t crc;
    uint8_t byte; /* the byte to be programmed */
};

static void device_send(struct device *d, uint64_t bits, unsigned slots,
                        continuation *next)
{
    d->out = bits;
    d->left = slots;
    d->next = next;
}

static void device_listen(struct device *d, unsigned slots,
                          continuation *next)
{
    device_send(d, UINT64_MAX, slots, next);
}

/* The last so many levels, the earliest lowest. */
static uint64_t received(const struct device *d, unsigned slots)
{
    return d->in >> (64 - slots);
}

/* Waits for a reset: answers 1 and takes no notice of the line. */
static void wait_for_reset(struct device *d)
{
    device_listen(d, 64, wait_for_reset);
}

/* Answers 0 until a reset. */
static void hold_low(struct device *d)
{
    device_send(d, 0, 64, hold_low);
}

/* Sends a field from the position to its end, then ones. */
static void send_field(struct device *d)
{
    if (d->position < d->field_bytes)
        device_send(d, d->field[d->position++], 8, send_field);
    else
        wait_for_reset(d);
}

static void select_field(struct device *d, uint8_t *field, unsigned bytes)
{
    d->field = field;
    d->field_bytes = bytes;
}

/* ------------------------------------------------------------------ */
/* Devices: ROM functions                                              */

/* The line feeds the ROM, but memory needs the battery. */
static void rom_done(struct device *d)
{
    if (d->flat)
        wait_for_reset(d);
    else
        device_listen(d, 8, d->memory_command);
}

/*
 * The device says nothing while it compares, and nothing after a mismatch, and
 * its speed stays, so comparing when all 64 levels are in is the same as
 * comparing one by one.
 */
static void match_code(struct device *d)
{
    if (received(d, CODE_BITS) == d->code)
        rom_done(d);
    else
        wait_for_reset(d);
}

static void search_direction(struct device *d);

/* The bit, its complement, then a slot to hear the master's direction. */
static void search_bit(struct device *d)
{
    const unsigned bit = (d->code >> d->position) & 1;

    device_send(d, bit ? 5 : 6, 3, search_direction);
}

static void search_direction(struct device *d)
{
    if (received(d, 1) != ((d->code >> d->position) & 1))
        wait_for_reset(d);
    else if (++d->position == CODE_BITS)
        rom_done(d);
    else
        search_bit(d);
}

/*
 * Here a mismatch can take the speed away, and at once: the device must not
 * hear a short reset any more.
 */
static void overdrive_match_bit(struct device *d)
{
    if (received(d, 1) != ((d->code >> d->position) & 1)) {
        d->overdrive = d->overdrive_before;
        wait_for_reset(d);
    } else if (++d->position == CODE_BITS) {
        rom_done(d);
    } else {
        device_listen(d, 1, overdrive_match_bit);
    }
}

/* What a DS1996 knows beside the ROM functions of all. */
static void overdrive_command(struct device *d, uint64_t command)
{
    if (command == OVERDRIVE_SKIP_ROM) {
        d->overdrive = 1;
        rom_done(d);
    } else if (command == OVERDRIVE_MATCH_ROM) {
        d->overdrive_before = d->overdrive;
        d->overdrive = 1;
        d->position = 0;
        device_listen(d, 1, overdrive_match_bit);
    } else {
        wait_for_reset(d);
    }
}

static void rom_command(struct device *d)
{
    switch (received(d, 8)) {
    case READ_ROM:
        device_send(d, d->code, CODE_BITS, rom_done);
        break;
    case MATCH_ROM:
        device_listen(d, CODE_BITS, match_code);
        break;
    case SEARCH_ROM:
        d->position = 0;
        search_bit(d);
        break;
    case SKIP_ROM:
        rom_done(d);
        break;
    default:
        if (d->has_overdrive)
            overdrive_command(d, received(d, 8));
        else
            wait_for_reset(d);
    }
}

/* ------------------------------------------------------------------ */
/* DS1992, DS1993 and DS1996: memory functions                         */

/* TA1, TA2 and E/S in the order they are sent. */
static uint32_t registers(const uint8_t *body)
{
    return body[TA1] | (uint32_t)body[TA2] << 8 | (uint32_t)body[ES] << 16;
}

/*
 * Stores the low bits of a scratchpad byte, the others keep their value, and
 * makes its offset the ending offset.  The flags are clear at this stage.
 */
static void store_scratchpad_bits(struct device *d, unsigned bits)
{
    uint8_t *const cell = &d->body[SCRATCHPAD + d->position];
    const unsigned mask = (1u << bits) - 1;

    *cell = (uint8_t)((*cell & ~mask) | received(d, bits));
    d->body[ES] = (uint8_t)d->position;
}

/* A data bit came after the last offset was complete. */
static void scratchpad_overflow(struct device *d)
{
    d->body[ES] |= OF;
    wait_for_reset(d);
}

static void scratchpad_byte(struct device *d)
{
    store_scratchpad_bits(d, 8);
    if (++d->position < SCRATCHPAD_BYTES)
        device_listen(d, 8, scratchpad_byte);
    else
        device_listen(d, 1, scratchpad_overflow);
}

/*
 * Stores the bits of a data byte cut short.  Until the byte ends, the device is
 * reset or falls back to regular speed, or the run stops, nobody can look at
 * the scratchpad, so a data bit is stored no earlier than that.  Returns
 * whether there were any.
 */
static int store_partial_byte(struct device *d)
{
    if (d->next != scratchpad_byte || d->left == 8)
        return 0;
    store_scratchpad_bits(d, 8 - d->left);
    return 1;
}

/* All 16 bits are in: both target registers take them as they were sent. */
static unsigned load_target(struct device *d)
{
    const unsigned address = (unsigned)received(d, 16);

    d->body[TA1] = (uint8_t)address;
    d->body[TA2] = (uint8_t)(address >> 8);
    return address;
}

/* A write takes the ending offset along, and clears the flags. */
static void scratchpad_address(struct device *d)
{
    d->position = load_target(d) & OFFSET_MASK;
    d->body[ES] = (uint8_t)d->position;
    device_listen(d, 8, scratchpad_byte);
}

/* Gives how many bytes were written: none, or up to a page of them. */
static unsigned copy_to_memory(uint8_t *body, unsigned memory_bytes)
{
    const unsigned target = body[TA1] | (unsigned)body[TA2] << 8;
    const unsigned first = body[TA1] & OFFSET_MASK;
    const unsigned last = body[ES] & OFFSET_MASK;

    if (last < first || target >= memory_bytes)
        return 0;
    /* The copy stays within a page, and memory is a number of pages. */
    memcpy(&body[MEMORY + target], &body[SCRATCHPAD + first],
           last - first + 1);
    return last - first + 1;
}

static void copy_pattern(struct device *d)
{
    if (received(d, 24) != registers(d->body)) {
        wait_for_reset(d);
        return;
    }
    d->body[ES] |= AA;
    d->copied += copy_to_memory(d->body, d->memory_bytes);
    hold_low(d);
}

/* A read leaves E/S as it is, and moves no register while it goes on. */
static void memory_address(struct device *d)
{
    select_field(d, d->body + MEMORY, d->memory_bytes);
    d->position = load_target(d);
    send_field(d);
}

static void read_scratchpad(struct device *d)
{
    select_field(d, d->body + SCRATCHPAD, SCRATCHPAD_BYTES);
    d->position = d->body[TA1] & OFFSET_MASK;
    device_send(d, registers(d->body), 24, send_field);
}

static void sram_command(struct device *d)
{
    switch (received(d, 8)) {
    case WRITE_SCRATCHPAD:
        device_listen(d, 16, scratchpad_address);
        break;
    case READ_SCRATCHPAD:
        read_scratchpad(d);
        break;
    case COPY_SCRATCHPAD:
        device_listen(d, 24, copy_pattern);
        break;
    case READ_MEMORY:
        device_listen(d, 16, memory_address);
        break;
    default:
        wait_for_reset(d);
    }
}

/* ------------------------------------------------------------------ */
/* DS1982: memory functions                                            */

static void eprom_block(struct device *d);

/* Sends the bytes of a block, then the CRC of those bytes. */
static void eprom_byte(struct device *d)
{
    if (d->position < d->block_end) {
        const uint8_t byte = d->field[d->position++];

        d->crc = crc8_shift(d->crc, byte);
        device_send(d, byte, 8, eprom_byte);
    } else {
        device_send(d, d->crc, 8, eprom_block);
    }
}

/* Starts a block: the rest of the page for C3h, else the rest of the field. */
static void eprom_block(struct device *d)
{
    if (d->position == d->field_bytes) {
        wait_for_reset(d);
        return;
    }
    d->block_end = d->command == READ_DATA_BY_PAGE
                       ? (d->position | (PAGE_BYTES - 1)) + 1
                       : d->field_bytes;
    d->crc = 0;
    eprom_byte(d);
}

/* A slot came where the program pulse was due. */
static void pulse_missed(struct device *d)
{
    wait_for_reset(d);
}

static void pulse_due(struct device *d)
{
    device_listen(d, 1, pulse_missed);
}

/* A byte to program is in: sends the CRC, then wants the pulse. */
static void eprom_data(struct device *d)
{
    d->byte = (uint8_t)received(d, 8);
    device_send(d, crc8_shift(d->crc, d->byte), 8, pulse_due);
}

/* Goes on to the next address, whose low byte is loaded into the CRC. */
static void eprom_advance(struct device *d)
{
    if (++d->position == d->field_bytes) {
        wait_for_reset(d);
        return;
    }
    d->crc = (uint8_t)d->position;
    device_listen(d, 8, eprom_data);
}

static int is_protected(const struct device *d)
{
    const unsigned page = d->position / PAGE_BYTES;

    return d->command == WRITE_DATA && !(d->body[STATUS] >> page & 1);
}

static void program_byte(struct device *d)
{
    if (!is_protected(d))
        d->field[d->position] &= d->byte;
    device_send(d, d->field[d->position], 8, eprom_advance);
}

/* Cuts the address to the field, and takes the CRC over it as cut. */
static void eprom_address(struct device *d)
{
    d->position = (unsigned)received(d, 16) & (d->field_bytes - 1);
    d->crc = crc8_shift(0, d->command);
    d->crc = crc8_shift(d->crc, (uint8_t)d->position);
    d->crc = crc8_shift(d->crc, (uint8_t)(d->position >> 8));
    if (d->command == WRITE_DATA || d->command == WRITE_STATUS)
        device_listen(d, 8, eprom_data);
    else
        device_send(d, d->crc, 8, eprom_block);
}

static void eprom_command(struct device *d)
{
    d->command = (uint8_t)received(d, 8);
    switch (d->command) {
    case READ_DATA:
    case READ_DATA_BY_PAGE:
    case WRITE_DATA:
        select_field(d, d->body + DATA, DATA_BYTES);
        break;
    case READ_STATUS:
    case WRITE_STATUS:
        select_field(d, d->body + STATUS, STATUS_BYTES);
        break;
    default:
        wait_for_reset(d);
        return;
    }
    device_listen(d, 16, eprom_address);
}

struct second_view second_remaining(uint8_t command, uint16_t address,
                                    size_t data_len, size_t status_len)
{
    const size_t in_data = address % DATA_BYTES;
    const size_t in_status = address % STATUS_BYTES;

    if (data_len == DATA_BYTES && status_len == STATUS_BYTES) {
        if (command == READ_DATA || command == READ_DATA_BY_PAGE)
            return (struct second_view){ 0, in_data, DATA_BYTES - in_data };
        if (command == READ_STATUS)
            return (struct second_view){ 1, in_status,
                                         STATUS_BYTES - in_status };
    }
    return (struct second_view){ -1, 0, 0 };
}

/* ------------------------------------------------------------------ */
/* The image                                                           */

struct kind {
    enum family family;
    unsigned body_bytes;
    unsigned memory_bytes; /* not of a DS1982 */
    continuation *memory_command;
};

/* NULL for a family that is not built here. */
static const struct kind *kind_of(uint8_t family)
{
    static const struct kind ds1992 = { DS1992, MEMORY + 128, 128,
                                        sram_command };
    static const struct kind ds1993 = { DS1993, MEMORY + 512, 512,
                                        sram_command };
    static const struct kind ds1996 = { DS1996, MEMORY + 8192, 8192,
                                        sram_command };
    static const struct kind ds1982 = { DS1982, DATA + DATA_BYTES, 0,
                                        eprom_command };

    switch (family) {
    case DS1992:
        return &ds1992;
    case DS1993:
        return &ds1993;
    case DS1996:
        return &ds1996;
    case DS1982:
        return &ds1982;
    default:
        return NULL;
    }
}

static const uint8_t *entry(const uint8_t *image, size_t i)
{
    return image + TABLE + ENTRY_BYTES * i;
}

static size_t body_offset(const uint8_t *image, size_t i)
{
    return entry(image, i)[2] | (size_t)entry(image, i)[3] << 8;
}

/* Edition 1 knows no flat device; a DS1982 has no battery. */
static int battery_is_known(const uint8_t *image, size_t i)
{
    const uint8_t battery = entry(image, i)[1];

    if (battery == FLAT)
        return image[EDITION] == 2 && entry(image, i)[0] != DS1982;
    return battery == GOOD;
}

static int table_is_sound(const uint8_t *image, size_t image_len)
{
    if (image_len < TABLE || image[COUNT] > MAX_DEVICES
        || (image[EDITION] != 1 && image[EDITION] != 2)
        || image_len < TABLE + (size_t)ENTRY_BYTES * image[COUNT])
        return 0;
    for (size_t i = 0; i < image[COUNT]; i++)
        if (!kind_of(entry(image, i)[0]) || !battery_is_known(image, i))
            return 0;
    return 1;
}

static int layout_is_packed(const uint8_t *image, size_t image_len)
{
    size_t offset = TABLE + (size_t)ENTRY_BYTES * image[COUNT];

    for (size_t i = 0; i < image[COUNT]; i++) {
        if (body_offset(image, i) != offset)
            return 0;
        offset += kind_of(entry(image, i)[0])->body_bytes;
    }
    return image_len == offset && image_len <= MAX_IMAGE_BYTES;
}

static int codes_are_valid(const uint8_t *image)
{
    for (size_t i = 0; i < image[COUNT]; i++) {
        const uint8_t *const code = image + body_offset(image, i);

        if (code[0] != entry(image, i)[0] || !code_is_valid(load_code(code)))
            return 0;
    }
    return 1;
}

static int codes_are_distinct(const uint8_t *image)
{
    uint64_t codes[MAX_DEVICES];

    for (size_t i = 0; i < image[COUNT]; i++) {
        codes[i] = load_code(image + body_offset(image, i));
        for (size_t j = 0; j < i; j++)
            if (codes[i] == codes[j])
                return 0;
    }
    return 1;
}

/* 0, or the lowest of refusals 1 to 4 that applies. */
static uint32_t refuse_image(const uint8_t *image, size_t image_len)
{
    if (!table_is_sound(image, image_len))
        return 1;
    if (!layout_is_packed(image, image_len))
        return 2;
    if (!codes_are_valid(image))
        return 3;
    if (!codes_are_distinct(image))
        return 4;
    return 0;
}

static int only_ds1982(const uint8_t *image)
{
    for (size_t i = 0; i < image[COUNT]; i++)
        if (entry(image, i)[0] != DS1982)
            return 0;
    return 1;
}

/* 0, or the first of refusals 5, 11 and 6 to apply to an accepted image. */
static uint32_t refuse_trace(const uint8_t *image, const uint8_t *trace,
                             size_t trace_len)
{
    int unknown = 0, pulse = 0;

    if (trace_len > MAX_EVENTS)
        return 5;
    for (size_t i = 0; i < trace_len; i++) {
        unknown |= trace[i] > OVERDRIVE_RESET;
        pulse |= trace[i] == PROGRAM_PULSE;
    }
    if (unknown)
        return 5;
    if (trace_len > 0 && trace[0] != RESET)
        return 11;
    if (pulse && !only_ds1982(image))
        return 6;
    return 0;
}

/* 0, or the first refusal of a run with room for so many answers. */
static uint32_t refuse_run(const uint8_t *image, size_t image_len,
                           const uint8_t *trace, size_t trace_len, size_t room)
{
    uint32_t refusal = refuse_image(image, image_len);

    if (refusal == 0)
        refusal = refuse_trace(image, trace, trace_len);
    if (refusal == 0 && room < trace_len)
        refusal = 7;
    return refusal;
}

/* ------------------------------------------------------------------ */
/* The bus                                                             */

struct bus {
    size_t count;
    struct device devices[MAX_DEVICES];
};

/*
 * Puts the devices of an accepted image on the bus, all waiting for a reset.
 * They have their codes but no memory yet, so no memory command means anything
 * to them.
 */
static void bus_attach(struct bus *bus, const uint8_t *image)
{
    bus->count = image[COUNT];
    for (size_t i = 0; i < bus->count; i++) {
        struct device *const d = &bus->devices[i];

        *d = (struct device){
            .code = load_code(image + body_offset(image, i)),
            .has_overdrive = entry(image, i)[0] == DS1996,
            .flat = entry(image, i)[1] == FLAT,
            .memory_command = wait_for_reset
        };
        wait_for_reset(d);
    }
}

static void bus_attach_memory(struct bus *bus, uint8_t *image)
{
    for (size_t i = 0; i < bus->count; i++) {
        struct device *const d = &bus->devices[i];
        const struct kind *const kind = kind_of(entry(image, i)[0]);

        d->body = image + body_offset(image, i);
        d->memory_bytes = kind->memory_bytes;
        d->memory_command = kind->memory_command;
    }
}

/*
 * What a device puts on the line in slots of a speed: it takes part in those
 * of its own.  The lowest bit counts.
 */
static uint64_t device_output(const struct device *d, int overdrive)
{
    return d->overdrive == overdrive ? d->out : UINT64_MAX;
}

/* A slot too long for a device at overdrive: it waits for a long reset. */
static void fall_back(struct device *d)
{
    store_partial_byte(d);
    d->overdrive = 0;
    wait_for_reset(d);
}

/* One slot of a device's own speed is over. */
static void device_shift(struct device *d, uint64_t line)
{
    d->in = d->in >> 1 | line << 63;
    d->out >>= 1;
    if (--d->left == 0)
        d->next(d);
}

/* The line is low if the master or any device pulls it low. */
static uint8_t bus_slot(struct bus *bus, unsigned bit, int overdrive)
{
    uint64_t line = bit;

    for (size_t i = 0; i < bus->count; i++)
        line &= device_output(&bus->devices[i], overdrive);
    for (size_t i = 0; i < bus->count; i++) {
        struct device *const d = &bus->devices[i];

        if (d->overdrive == overdrive)
            device_shift(d, line);
        else if (!overdrive)
            fall_back(d);
    }
    return (uint8_t)line;
}

/* A long reset is heard by all, a short one by those at overdrive. */
static uint8_t bus_reset(struct bus *bus, int overdrive)
{
    uint8_t level = 1;

    for (size_t i = 0; i < bus->count; i++) {
        struct device *const d = &bus->devices[i];

        if (overdrive && !d->overdrive)
            continue;
        level = 0;
        if (store_partial_byte(d))
            d->body[ES] |= PF;
        d->overdrive = overdrive;
        device_listen(d, 8, rom_command);
    }
    return level;
}

static uint8_t bus_program_pulse(struct bus *bus)
{
    for (size_t i = 0; i < bus->count; i++)
        if (bus->devices[i].next == pulse_missed)
            program_byte(&bus->devices[i]);
    return 1;
}

static int is_overdrive_slot(uint8_t event)
{
    return event == OVERDRIVE_ZERO || event == OVERDRIVE_ONE;
}

static int is_slot(uint8_t event)
{
    return event <= WRITE_ONE || is_overdrive_slot(event);
}

/* Carries out an event and gives its level. */
static uint8_t bus_event(struct bus *bus, enum event event)
{
    switch (event) {
    case RESET:
        return bus_reset(bus, 0);
    case PROGRAM_PULSE:
        return bus_program_pulse(bus);
    case OVERDRIVE_RESET:
        return bus_reset(bus, 1);
    case OVERDRIVE_ZERO:
    case OVERDRIVE_ONE:
        return bus_slot(bus, event == OVERDRIVE_ONE, 1);
    default:
        return bus_slot(bus, event == WRITE_ONE, 0);
    }
}

/* What all devices have copied since they were attached. */
static uint64_t bus_copied(const struct bus *bus)
{
    uint64_t bytes = 0;

    for (size_t i = 0; i < bus->count; i++)
        bytes += bus->devices[i].copied;
    return bytes;
}

uint32_t second_run(uint8_t *image, size_t image_len,
                    const uint8_t *trace, size_t trace_len,
                    uint8_t *answers, size_t answers_len, uint64_t *copied)
{
    struct bus bus;
    const uint32_t refusal =
        refuse_run(image, image_len, trace, trace_len, answers_len);

    if (refusal != 0)
        return refusal;

    bus_attach(&bus, image);
    bus_attach_memory(&bus, image);
    for (size_t i = 0; i < trace_len; i++)
        answers[i] = bus_event(&bus, (enum event)trace[i]);
    for (size_t i = 0; i < bus.count; i++)
        store_partial_byte(&bus.devices[i]);
    *copied = bus_copied(&bus);
    return 0;
}

/* Looks on for as long as the line is high and there is a device left. */
static uint8_t bus_look(const struct bus *bus, enum event event)
{
    const int overdrive = is_overdrive_slot((uint8_t)event);
    uint64_t line = event == WRITE_ONE || event == OVERDRIVE_ONE;
    size_t looked = 0;

    if (!is_slot((uint8_t)event))
        return SECOND_NO_SLOT;
    while (line & 1 && looked < bus->count)
        line &= device_output(&bus->devices[looked++], overdrive);
    return (uint8_t)looked;
}

/* The devices store into a copy of the image. */
uint32_t second_looked(const uint8_t *image, size_t image_len,
                       const uint8_t *trace, size_t trace_len,
                       uint8_t *looked, size_t looked_len)
{
    struct bus bus;
    uint8_t copy[MAX_IMAGE_BYTES];
    const uint32_t refusal =
        refuse_run(image, image_len, trace, trace_len, looked_len);

    if (refusal != 0)
        return refusal;

    memcpy(copy, image, image_len);
    bus_attach(&bus, copy);
    bus_attach_memory(&bus, copy);
    for (size_t i = 0; i < trace_len; i++) {
        looked[i] = bus_look(&bus, (enum event)trace[i]);
        bus_event(&bus, (enum event)trace[i]);
    }
    return 0;
}

/* ------------------------------------------------------------------ */
/* Judging a recorded session                                          */

/* The rules of a careful session, and that it breaks none of them. */
enum rule { ACCEPTED, ANSWERS_DIFFER, COMMAND_SHARED, COPY_NOT_CHECKED };

/*
 * A read scratchpad: the event from which on the line shows it, at which
 * speed, and a bit for each device that took the command.
 */
struct scratchpad_read {
    size_t start;
    int overdrive;
    uint64_t devices;
};

/* A read takes a reset and two commands, so there are no more than these. */
enum { MAX_READS = MAX_EVENTS / (1 + 8 + 8) };

/*
 * A judge watches the bus from outside.  A transfer with one slot to go tells
 * what that slot completes.
 */
struct judge {
    struct bus bus;

    /* the recorded session, and the place in it */
    const uint8_t *trace, *answers;
    size_t length, event;

    /* all reads so far; those before a device's last write are of no use */
    struct scratchpad_read reads[MAX_READS];
    size_t count;
    size_t useful[MAX_DEVICES]; /* first of them, MAX_READS before a write */

    /* the first answer that differs, and the first event breaking a rule */
    size_t differs;
    enum rule rule;
    size_t broken;
};

/* What the event completes for each device; nothing if it is not a slot. */
static void judge_foresee(const struct judge *j, continuation **completed)
{
    const uint8_t event = j->trace[j->event];
    const int overdrive = is_overdrive_slot(event);

    for (size_t i = 0; i < j->bus.count; i++) {
        const struct device *const d = &j->bus.devices[i];
        const int heard = is_slot(event) && d->overdrive == overdrive;

        completed[i] = heard && d->left == 1 ? d->next : NULL;
    }
}

static size_t judge_at_memory_command(const struct judge *j)
{
    size_t count = 0;

    for (size_t i = 0; i < j->bus.count; i++)
        count += j->bus.devices[i].next == j->bus.devices[i].memory_command;
    return count;
}

/* The first to be broken stays. */
static void judge_break(struct judge *j, enum rule rule)
{
    if (j->rule != ACCEPTED)
        return;
    j->rule = rule;
    j->broken = j->event;
}

/*
 * The next slot of a read from an event on; the length where there is none.
 * A device at regular speed does not hear what is short, and goes on after it.
 */
static size_t judge_next_slot(const struct judge *j, int overdrive,
                              size_t event)
{
    while (!overdrive && event < j->length && j->trace[event] > PROGRAM_PULSE)
        event++;
    if (event < j->length && is_slot(j->trace[event])
        && is_overdrive_slot(j->trace[event]) == overdrive)
        return event;
    return j->length;
}

/*
 * Whether a read showed these bytes.  Where the recorded answers are not the
 * levels of the line, what is found here does not matter.
 */
static int judge_showed(const struct judge *j,
                        const struct scratchpad_read *read,
                        const uint8_t *bytes, size_t count)
{
    size_t event = read->start;

    for (size_t i = 0; i < 8 * count; i++, event++) {
        event = judge_next_slot(j, read->overdrive, event);
        if (event == j->length
            || j->answers[event] != (bytes[i / 8] >> i % 8 & 1))
            return 0;
    }
    return 1;
}

/*
 * Whether a read since the last write showed what a copy just accepted was to
 * be checked against.  Its pattern is what the registers were before it; the
 * scratchpad it leaves alone.
 */
static int judge_is_checked(const struct judge *j, size_t i)
{
    const struct device *const d = &j->bus.devices[i];
    const uint64_t pattern = received(d, 24);
    const unsigned first = pattern & OFFSET_MASK;
    const unsigned last = pattern >> 16 & OFFSET_MASK;
    const unsigned count = last < first ? 0 : last - first + 1;
    uint8_t bytes[3 + SCRATCHPAD_BYTES];

    for (unsigned k = 0; k < 3; k++)
        bytes[k] = (uint8_t)(pattern >> 8 * k);
    memcpy(bytes + 3, &d->body[SCRATCHPAD + first], count);
    for (size_t k = j->useful[i]; k < j->count; k++)
        if (j->reads[k].devices >> i & 1
            && judge_showed(j, &j->reads[k], bytes, 3 + count))
            return 1;
    return 0;
}

/* A device took a memory command; so many were at it. */
static void judge_command(struct judge *j, uint64_t command, size_t at_it)
{
    if (at_it > 1 && (command == 0x0F || command == 0x55))
        judge_break(j, COMMAND_SHARED);
}

static void judge_copy(struct judge *j, size_t i)
{
    if (j->bus.devices[i].next == hold_low && !judge_is_checked(j, i))
        judge_break(j, COPY_NOT_CHECKED);
}

/* Looks at what each device has completed with the event just carried out. */
static void judge_look(struct judge *j, continuation *const *completed,
                       size_t at_memory_command)
{
    uint64_t readers = 0;

    for (size_t i = 0; i < j->bus.count; i++) {
        const struct device *const d = &j->bus.devices[i];

        if (completed[i] == d->memory_command)
            judge_command(j, received(d, 8), at_memory_command);
        if (completed[i] == sram_command && received(d, 8) == READ_SCRATCHPAD)
            readers |= (uint64_t)1 << i;
        if (completed[i] == scratchpad_address)
            j->useful[i] = j->count;
        if (completed[i] == copy_pattern)
            judge_copy(j, i);
    }
    if (readers)
        j->reads[j->count++] = (struct scratchpad_read){
            j->event + 1, is_overdrive_slot(j->trace[j->event]), readers
        };
}

static void judge_event(struct judge *j)
{
    continuation *completed[MAX_DEVICES];
    const size_t at_memory_command = judge_at_memory_command(j);
    uint8_t level;

    judge_foresee(j, completed);
    level = bus_event(&j->bus, (enum event)j->trace[j->event]);
    if (level != j->answers[j->event] && j->differs == j->length)
        j->differs = j->event;
    judge_look(j, completed, at_memory_command);
}

static void judge_session(struct judge *j, uint8_t *image)
{
    bus_attach(&j->bus, image);
    bus_attach_memory(&j->bus, image);
    for (size_t i = 0; i < j->bus.count; i++)
        j->useful[i] = MAX_READS;
    for (j->event = 0; j->event < j->length; j->event++)
        judge_event(j);
    for (size_t i = 0; i < j->bus.count; i++)
        store_partial_byte(&j->bus.devices[i]);
}

uint32_t second_judge(const uint8_t *image, size_t image_len,
                      const uint8_t *trace, size_t trace_len,
                      const uint8_t *answers, size_t answers_len,
                      uint8_t *work, size_t work_len,
                      uint64_t *rule, uint64_t *event)
{
    struct judge judge;
    const uint32_t refusal =
        refuse_run(image, image_len, trace, trace_len, answers_len);

    if (refusal != 0)
        return refusal;
    if (answers_len != trace_len || work_len < image_len)
        return 7;

    judge.trace = trace;
    judge.answers = answers;
    judge.length = trace_len;
    judge.count = 0;
    judge.differs = trace_len;
    judge.rule = ACCEPTED;
    judge.broken = 0;
    memcpy(work, image, image_len);
    judge_session(&judge, work);
    if (judge.differs < trace_len) {
        judge.rule = ANSWERS_DIFFER;
        judge.broken = judge.differs;
    }
    *rule = judge.rule;
    *event = judge.broken;
    return 0;
}

/* ------------------------------------------------------------------ */
/* The searching master                                                */

struct master;
typedef enum event decision(struct master *);

struct master {
    /* the transfer under way, as in a device */
    uint64_t out;
    uint64_t in;
    unsigned left;
    decision *next;

    /* the pass under way; a discrepancy is -1 where there is none */
    uint64_t code; /* directions sent so far */
    int bit;       /* bit whose two read slots come next or have just been */
    int open_discrepancy; /* highest bit where 0,0 was met and 0 was sent */

    /* what the passes before it found */
    int last_discrepancy; /* the open one of the last pass */
    size_t count;
    uint64_t codes[MAX_DEVICES];
    uint32_t number; /* of the end: 0, 8, 9 or 10 */
};

/* Starts or carries on a transfer and gives its next event. */
static enum event master_send(struct master *m, uint64_t bits, unsigned slots,
                              decision *next)
{
    m->out = bits >> 1;
    m->left = slots - 1;
    m->next = next;
    return bits & 1 ? WRITE_ONE : WRITE_ZERO;
}

static enum event master_ended(struct master *m)
{
    (void)m;
    return SEARCH_ENDED;
}

static enum event master_end(struct master *m, uint32_t number)
{
    m->number = number;
    m->next = master_ended;
    return SEARCH_ENDED;
}

static enum event master_start_pass(struct master *m);

static enum event master_finish_pass(struct master *m)
{
    if (!code_is_valid(m->code))
        return master_end(m, 9);
    m->codes[m->count++] = m->code;
    if (m->open_discrepancy < 0)
        return master_end(m, 0);
    if (m->count == MAX_DEVICES)
        return master_end(m, 10);
    m->last_discrepancy = m->open_discrepancy;
    return master_start_pass(m);
}

/* Which way to go where devices with a 0 and devices with a 1 answered. */
static unsigned master_branch(const struct master *m)
{
    if (m->bit < m->last_discrepancy)
        return m->codes[m->count - 1] >> m->bit & 1;
    return m->bit == m->last_discrepancy;
}

/* The two read slots of a bit are over: sends a direction and reads on. */
static enum event master_direct(struct master *m)
{
    const unsigned first = m->in >> 62 & 1;
    const unsigned second = (unsigned)(m->in >> 63);
    unsigned direction = first;

    if (first && second)
        return master_end(m, 8);
    if (first == second) {
        direction = master_branch(m);
        if (direction == 0)
            m->open_discrepancy = m->bit;
    }
    m->code |= (uint64_t)direction << m->bit;
    if (++m->bit == CODE_BITS)
        return master_send(m, direction, 1, master_finish_pass);
    return master_send(m, direction | 3 << 1, 3, master_direct);
}

/* The level after a reset is in: sends the command and reads bit 0. */
static enum event master_presence(struct master *m)
{
    if (m->in >> 63)
        return master_end(m, m->count == 0 ? 0 : 8);
    return master_send(m, SEARCH_ROM | 3 << 8, 10, master_direct);
}

static enum event master_start_pass(struct master *m)
{
    m->code = 0;
    m->bit = 0;
    m->open_discrepancy = -1;
    m->left = 0;
    m->next = master_presence;
    return RESET;
}

static void master_init(struct master *m)
{
    m->in = 0;
    m->left = 0;
    m->next = master_start_pass;
    m->last_discrepancy = -1;
    m->count = 0;
    m->number = 0;
}

/* Takes the level of the event last sent and gives the next event. */
static enum event master_step(struct master *m, uint8_t level)
{
    m->in = m->in >> 1 | (uint64_t)(level != 0) << 63;
    if (m->left == 0)
        return m->next(m);
    return master_send(m, m->out, m->left, m->next);
}

static void master_store_codes(const struct master *m, uint8_t *codes)
{
    for (size_t i = 0; i < m->count; i++)
        store_code(codes + CODE_BYTES * i, m->codes[i]);
}

struct second_fed second_feed(const uint8_t *levels, size_t levels_len,
                              uint8_t *trace, uint8_t *codes)
{
    struct second_fed fed = { 0, 0, 0, 0 };
    struct master master;
    enum event event;
    size_t used = 0;

    master_init(&master);
    event = master_step(&master, 1);
    while (event != SEARCH_ENDED) {
        trace[fed.events++] = (uint8_t)event;
        if (used == levels_len)
            break;
        event = master_step(&master, levels[used++]);
    }
    fed.ended = event == SEARCH_ENDED;
    fed.number = master.number;
    fed.codes = master.count;
    master_store_codes(&master, codes);
    return fed;
}

/* 0, or 7 when the buffers of a search do not hold what n devices take. */
static uint32_t refuse_room(size_t n, size_t codes_len, size_t trace_len)
{
    const size_t events = n == 0 ? 1 : PASS_EVENTS * n;

    return codes_len < CODE_BYTES * n || trace_len < events ? 7 : 0;
}

uint32_t second_search(const uint8_t *image, size_t image_len,
                       uint8_t *codes, size_t codes_len,
                       uint8_t *trace, size_t trace_len,
                       uint64_t *passes, uint64_t *resets, uint64_t *slots)
{
    struct bus bus;
    struct master master;
    size_t events = 0;
    uint64_t resets_sent = 0, passes_begun = 0;
    uint32_t refusal = refuse_image(image, image_len);

    if (refusal == 0)
        refusal = refuse_room(image[COUNT], codes_len, trace_len);
    if (refusal != 0)
        return refusal;

    bus_attach(&bus, image);
    master_init(&master);
    for (enum event event = master_step(&master, 1); event != SEARCH_ENDED;) {
        assert(events < trace_len);
        if (event == RESET)
            resets_sent++;
        else if (trace[events - 1] == RESET)
            passes_begun++;
        trace[events++] = (uint8_t)event;
        event = master_step(&master, bus_event(&bus, event));
    }
    master_store_codes(&master, codes);
    *passes = passes_begun;
    *resets = resets_sent;
    *slots = events - resets_sent;
    return 0;
}
