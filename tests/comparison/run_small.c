/*
 * The small cases of the run, in groups that are gone through whole.  A case
 * is made from its number alone, whose digits select what varies; a number
 * with digits left over is past the last case.
 */
#include "run.h"

#include "damage.h"
#include "room.h"
#include "run_overdrive.h"

/* ------------------------------------------------------------------ */
/* Benches                                                             */

/*
 * Registers that a copy can act on, with every flag set, and a status that
 * protects page 1: so that flags and protection make a difference.
 */
static void set_registers(struct bench *b)
{
    for (size_t i = 0; i < b->count; i++) {
        uint8_t *const registers = bench_at(b, i, TA1);

        if (b->kinds[i] == DS1982) {
            *bench_at(b, i, STATUS) = 0x0D;
        } else {
            registers[0] = 0x26;
            registers[1] = 0x00;
            registers[2] = 0xE9;
        }
    }
}

void bench_of(struct run_case *c, const enum kind *kinds, size_t count)
{
    bench_make(&c->bench, kinds, count, count);
    set_registers(&c->bench);
}

static void bench_of_one(struct run_case *c, enum kind kind)
{
    bench_of(c, &kind, 1);
}

void bench_of_one_with(struct run_case *c, enum kind kind, size_t batteries)
{
    bench_of_one(c, kind);
    bench_set_batteries(&c->bench, batteries);
}

/* A bench of one device, or, one past the last kind, of none. */
static void bench_of_one_or_none(struct run_case *c, size_t kind)
{
    const enum kind one = kind < KINDS ? (enum kind)kind : DS1992;

    bench_of(c, &one, kind < KINDS);
}

/* A bench of two; the first kind is the last digit of a number. */
static void bench_of_two(struct run_case *c, size_t number)
{
    const enum kind kinds[] = { (enum kind)(number % KINDS),
                                (enum kind)(number / KINDS) };

    bench_of(c, kinds, 2);
}

/* Edition 1, and edition 2 with every set of flat ones. */
enum { BATTERIES_OF_TWO = 5 };

static void bench_of_two_with(struct run_case *c, size_t number,
                              size_t batteries)
{
    bench_of_two(c, number);
    bench_set_batteries(&c->bench, batteries);
}

/* The code of the only device; zeros where there is none. */
static const uint8_t *only_code(const struct bench *b)
{
    static const uint8_t none[CODE_BYTES] = { 0 };

    return b->count == 0 ? none : bench_see(b, 0, 0);
}

/* ------------------------------------------------------------------ */
/* Transactions under Skip ROM                                         */

static void write_scratchpad(struct trace *t, uint16_t address, uint64_t bits,
                             size_t count)
{
    trace_skip(t);
    trace_byte(t, WRITE_SCRATCHPAD);
    trace_address(t, address);
    trace_bits(t, bits, count);
}

static void read_scratchpad(struct trace *t, size_t slots)
{
    trace_skip(t);
    trace_byte(t, READ_SCRATCHPAD);
    trace_read(t, slots);
}

static void copy_scratchpad(struct trace *t, uint16_t target, uint8_t es,
                            size_t slots)
{
    trace_skip(t);
    trace_byte(t, COPY_SCRATCHPAD);
    trace_address(t, target);
    trace_byte(t, es);
    trace_read(t, slots);
}

/* A read that takes an address: of memory, data or status. */
static void read_from(struct trace *t, uint8_t command, uint16_t address,
                      size_t slots)
{
    trace_skip(t);
    trace_byte(t, command);
    trace_address(t, address);
    trace_read(t, slots);
}

/* A data byte, its CRC, the pulse, and the byte stored. */
static void program_pass(struct trace *t, uint8_t byte)
{
    trace_byte(t, byte);
    trace_read(t, 8);
    trace_event(t, PULSE);
    trace_read(t, 8);
}

static void program(struct trace *t, uint8_t command, uint16_t address,
                    uint8_t first, uint8_t second)
{
    trace_skip(t);
    trace_byte(t, command);
    trace_address(t, address);
    program_pass(t, first);
    program_pass(t, second);
}

/* ------------------------------------------------------------------ */
/* Typical sessions                                                    */

/* Match, search and Read ROM, each with a read of memory after it. */
static void rom_session(struct trace *t, const uint8_t *code)
{
    trace_match(t, code);
    trace_byte(t, READ_MEMORY);
    trace_address(t, 0x0025);
    trace_read(t, 40);
    trace_search(t, code);
    trace_byte(t, READ_MEMORY);
    trace_address(t, 0x007F);
    trace_read(t, 20);
    trace_event(t, RESET);
    trace_byte(t, READ_ROM);
    trace_read(t, CODE_BITS);
    trace_byte(t, READ_MEMORY);
    trace_address(t, 0x0000);
    trace_read(t, 20);
    trace_event(t, RESET);
}

/* Written, read back, copied, copied with patterns old and new. */
static void sram_session(struct trace *t, const uint8_t *code)
{
    write_scratchpad(t, 0x0026, 0xBEEF, 16);
    read_scratchpad(t, 48);
    copy_scratchpad(t, 0x0026, 0x07, 10);
    copy_scratchpad(t, 0x0026, 0x07, 10);
    copy_scratchpad(t, 0x0026, 0x87, 10);
    write_scratchpad(t, 0x003C, 0x5544332211, 40); /* overflows */
    write_scratchpad(t, 0x0026, 0x2A5, 11);        /* ends within a byte */
    read_scratchpad(t, 48);
    rom_session(t, code);
}

/* Reads at the ends of fields, writes across pages and under protection. */
static void eprom_session(struct trace *t, const uint8_t *code)
{
    read_from(t, READ_DATA, 0x007E, 40);
    read_from(t, READ_STATUS, 0x0005, 48);
    read_from(t, READ_DATA_BY_PAGE, 0x005E, 56);
    program(t, WRITE_DATA, 0x001F, 0x5A, 0xC3);
    program(t, WRITE_STATUS, 0x0000, 0xFB, 0x0F);
    program(t, WRITE_DATA, 0x0040, 0x00, 0x00);
    rom_session(t, code);
}

/* The same at overdrive, which one command brings all DS1996 to. */
static void overdrive_session(struct trace *t, const uint8_t *code)
{
    size_t from;

    trace_overdrive_skip(t);
    from = t->length;
    sram_session(t, code);
    trace_hurry(t, from);
}

static void typical_session(struct run_case *c, enum kind kind)
{
    if (kind == DS1982)
        eprom_session(&c->trace, only_code(&c->bench));
    else
        sram_session(&c->trace, only_code(&c->bench));
}

/* ------------------------------------------------------------------ */
/* Commands                                                            */

/* What can follow a ROM command before the memory command. */
static void after_rom_command(struct trace *t, const uint8_t *code, size_t way)
{
    switch (way) {
    case 0:
        break;
    case 1:
        trace_bytes(t, code, CODE_BYTES);
        break;
    case 2:
        trace_read(t, CODE_BITS);
        break;
    default:
        trace_search_path(t, code);
    }
}

/* Every ROM command byte on each kind, good and flat. */
static int rom_commands(struct run_case *c, size_t number)
{
    const enum kind kind = (enum kind)digit(&number, KINDS);
    const size_t batteries = digit(&number, BATTERIES_OF_ONE);
    const size_t way = digit(&number, 4);
    const uint8_t command = (uint8_t)digit(&number, 256);

    bench_of_one_with(c, kind, batteries);
    trace_event(&c->trace, RESET);
    trace_byte(&c->trace, command);
    after_rom_command(&c->trace, only_code(&c->bench), way);
    trace_byte(&c->trace, READ_MEMORY);
    trace_address(&c->trace, 0x0000);
    trace_read(&c->trace, 24);
    return number == 0;
}

enum { WAYS_AFTER_MEMORY_COMMAND = 7 };

/* A write as if by every kind: address, data, a pulse if it is allowed. */
static void write_on(struct run_case *c)
{
    struct trace *const t = &c->trace;

    trace_address(t, 0x001F);
    for (uint8_t byte = 0x3C; byte < 0x3E; byte++) {
        trace_byte(t, byte);
        trace_read(t, 8);
        if (bench_takes_pulses(&c->bench))
            trace_event(t, PULSE);
        trace_read(t, 8);
    }
    trace_bits(t, 5, 3);
    trace_event(t, RESET);
}

/* The first device's registers as a pattern, their flags masked or not. */
static void pattern_on(struct run_case *c, uint8_t mask)
{
    const uint8_t *const registers = bench_see(&c->bench, 0, TA1);

    trace_bytes(&c->trace, registers, 2);
    trace_byte(&c->trace, registers[2] & mask);
    trace_read(&c->trace, 16);
}

/* What can follow a memory command. */
static void after_memory_command(struct run_case *c, size_t way)
{
    struct trace *const t = &c->trace;

    switch (way) {
    case 0:
        trace_read(t, 300);
        break;
    case 1:
        trace_repeat(t, WRITE_ZERO, 50);
        break;
    case 2:
        write_on(c);
        break;
    case 3:
        pattern_on(c, 0xFF);
        break;
    case 4:
        pattern_on(c, 0x1F);
        break;
    case 5:
        trace_address(t, 0x007E);
        trace_read(t, 64);
        break;
    default: /* not an address of any kind */
        trace_address(t, 0xA586);
        trace_read(t, 64);
    }
}

/* Every memory command byte on each kind, good and flat. */
static int memory_commands(struct run_case *c, size_t number)
{
    const enum kind kind = (enum kind)digit(&number, KINDS);
    const size_t batteries = digit(&number, BATTERIES_OF_ONE);
    const size_t way = digit(&number, WAYS_AFTER_MEMORY_COMMAND);
    const uint8_t command = (uint8_t)digit(&number, 256);

    bench_of_one_with(c, kind, batteries);
    trace_skip(&c->trace);
    trace_byte(&c->trace, command);
    after_memory_command(c, way);
    return number == 0;
}

/*
 * Every pair of kinds under Skip ROM with every memory command byte, either of
 * them good or flat.
 */
static int pairs(struct run_case *c, size_t number)
{
    const size_t kinds = digit(&number, KINDS * KINDS);
    const size_t batteries = digit(&number, BATTERIES_OF_TWO);
    const size_t way = digit(&number, WAYS_AFTER_MEMORY_COMMAND);
    const uint8_t command = (uint8_t)digit(&number, 256);

    bench_of_two_with(c, kinds, batteries);
    trace_skip(&c->trace);
    trace_byte(&c->trace, command);
    after_memory_command(c, way);
    return number == 0;
}

/* ------------------------------------------------------------------ */
/* Codes                                                               */

/* A match and a search that go wrong at one bit, every bit of each kind. */
static int wrong_turns(struct run_case *c, size_t number)
{
    const enum kind kind = (enum kind)digit(&number, KINDS);
    const size_t batteries = digit(&number, BATTERIES_OF_ONE);
    const int match = digit(&number, 2) == 0;
    const size_t bit = digit(&number, CODE_BITS);
    uint8_t code[CODE_BYTES];

    bench_of_one_with(c, kind, batteries);
    for (size_t i = 0; i < CODE_BYTES; i++)
        code[i] = only_code(&c->bench)[i];
    code[bit / 8] ^= (uint8_t)(1u << bit % 8);
    if (match)
        trace_match(&c->trace, code);
    else
        trace_search(&c->trace, code);
    trace_byte(&c->trace, READ_MEMORY);
    trace_address(&c->trace, 0x0000);
    trace_read(&c->trace, 24);
    return number == 0;
}

/* Two devices whose serial numbers differ in one bit, every such bit. */
static int forks(struct run_case *c, size_t number)
{
    const size_t kinds = digit(&number, KINDS * KINDS);
    const size_t batteries = digit(&number, BATTERIES_OF_TWO);
    const size_t way = digit(&number, 4);
    const size_t bit = digit(&number, 48);
    const uint8_t *code;

    bench_of_two_with(c, kinds, batteries);
    bench_give_code(&c->bench, 0, 0x123456789ABC);
    bench_give_code(&c->bench, 1, 0x123456789ABC ^ (uint64_t)1 << bit);
    code = bench_see(&c->bench, way % 2, 0);
    if (way < 2)
        trace_match(&c->trace, code);
    else
        trace_search(&c->trace, code);
    trace_byte(&c->trace, READ_MEMORY);
    trace_address(&c->trace, 0x0000);
    trace_read(&c->trace, 24);
    trace_event(&c->trace, RESET);
    trace_byte(&c->trace, READ_ROM);
    trace_read(&c->trace, CODE_BITS + 8);
    return number == 0;
}

/* ------------------------------------------------------------------ */
/* Addresses                                                           */

/* The E/S register after two bytes were written at an address. */
static uint8_t es_after_two_bytes(uint16_t address)
{
    const uint8_t first = address % PAGE_BYTES;

    return first == PAGE_BYTES - 1 ? 0x40 | first : first + 1;
}

static void use_address(struct trace *t, enum kind kind, uint8_t command,
                        uint16_t address)
{
    if (kind != DS1982 && command == WRITE_SCRATCHPAD) {
        write_scratchpad(t, address, 0xC35A, 16);
        copy_scratchpad(t, address, es_after_two_bytes(address), 4);
    } else if (command == WRITE_DATA || command == WRITE_STATUS) {
        program(t, command, address, 0x5A, 0x0F);
    } else {
        read_from(t, command, address, 40);
    }
}

/* Every address, within the device and past it: read, written, programmed. */
static int addresses(struct run_case *c, size_t number)
{
    static const struct {
        enum kind kind;
        uint8_t command;
    } uses[] = { { DS1992, READ_MEMORY },       { DS1992, WRITE_SCRATCHPAD },
                 { DS1993, READ_MEMORY },       { DS1993, WRITE_SCRATCHPAD },
                 { DS1996, READ_MEMORY },       { DS1996, WRITE_SCRATCHPAD },
                 { DS1982, READ_DATA },         { DS1982, READ_STATUS },
                 { DS1982, READ_DATA_BY_PAGE }, { DS1982, WRITE_DATA },
                 { DS1982, WRITE_STATUS } };
    const size_t use = digit(&number, sizeof uses / sizeof *uses);
    const uint16_t address = (uint16_t)digit(&number, 0x10000);

    bench_of_one(c, uses[use].kind);
    use_address(&c->trace, uses[use].kind, uses[use].command, address);
    return number == 0;
}

/* From every address to the end of the device, or every late one, and on. */
static int reads_to_the_end(struct run_case *c, size_t number)
{
    static const struct {
        enum kind kind;
        uint8_t command;
    } uses[] = { { DS1992, READ_MEMORY },
                 { DS1993, READ_MEMORY },
                 { DS1996, READ_MEMORY },
                 { DS1982, READ_DATA },
                 { DS1982, READ_STATUS },
                 { DS1982, READ_DATA_BY_PAGE } };
    const size_t use = digit(&number, sizeof uses / sizeof *uses);
    const size_t size = kind_memory_bytes(uses[use].kind);
    const size_t first = size > 512 ? size - 512 : 0;
    const size_t address = first + digit(&number, 512 + PAGE_BYTES);
    const size_t left = size - address % size, crcs = 5;

    bench_of_one(c, uses[use].kind);
    read_from(&c->trace, uses[use].command, (uint16_t)address,
              8 * ((left > 512 ? 512 : left) + crcs) + 20);
    return number == 0;
}

/* Every address of a DS1993, which a DS1992 has too or not; every bit alone. */
static uint16_t some_target(size_t *number)
{
    enum { ADDRESSES = 512 + 20, BITS = 16 };
    const size_t which = digit(number, ADDRESSES + BITS);

    return (uint16_t)(which < ADDRESSES ? which : 1u << (which - ADDRESSES));
}

/* What can follow a read that may have moved the target. */
static void after_read(struct trace *t, uint16_t address, size_t way)
{
    switch (way) {
    case 0: /* the trace ends there */
        break;
    case 1:
        read_scratchpad(t, 24 + 8 * PAGE_BYTES);
        break;
    case 2: /* the pattern as before the read */
        copy_scratchpad(t, 0x0026, 0xE9, 10);
        break;
    default: /* the pattern as after it */
        copy_scratchpad(t, address, 0xE9, 10);
    }
}

/* A read cut at every bit of its address, or within its first bytes. */
static int read_targets(struct run_case *c, size_t number)
{
    enum { ADDRESS_BITS = 16, SLOTS = 9 };
    const enum kind kind = (enum kind)digit(&number, SRAM_KINDS);
    const uint16_t address = some_target(&number);
    const size_t way = digit(&number, 4);
    const size_t bits = digit(&number, ADDRESS_BITS + SLOTS + 1);

    bench_of_one(c, kind);
    trace_skip(&c->trace);
    trace_byte(&c->trace, READ_MEMORY);
    trace_bits(&c->trace, address, bits < ADDRESS_BITS ? bits : ADDRESS_BITS);
    trace_read(&c->trace, bits < ADDRESS_BITS ? 0 : bits - ADDRESS_BITS);
    after_read(&c->trace, address, way);
    return number == 0;
}

/* The scratchpad read from every offset to its end, and on. */
static int scratchpad_reads(struct run_case *c, size_t number)
{
    const enum kind kind = (enum kind)digit(&number, SRAM_KINDS);
    const size_t ta1 = digit(&number, 256);

    bench_of_one(c, kind);
    *bench_at(&c->bench, 0, TA1) = (uint8_t)ta1;
    read_scratchpad(&c->trace, 24 + 8 * (PAGE_BYTES - ta1 % PAGE_BYTES) + 20);
    return number == 0;
}

/* ------------------------------------------------------------------ */
/* Scratchpads and copies                                              */

/* Any bits, as many as are wanted. */
static void some_bits(struct trace *t, uint64_t which, size_t count)
{
    struct dice dice = dice_for(1, which);

    for (size_t i = 0; i < count; i += 64)
        trace_bits(t, dice_roll(&dice), count - i < 64 ? count - i : 64);
}

/* 0 to 300 data bits from every offset, cut by a reset or by the end. */
static int data_bits(struct run_case *c, size_t number)
{
    const size_t which = number;
    const enum kind kind = (enum kind)digit(&number, SRAM_KINDS);
    const int reset = digit(&number, 2) == 0;
    const size_t offset = digit(&number, PAGE_BYTES);
    const size_t count = digit(&number, 301);

    bench_of_one(c, kind);
    write_scratchpad(&c->trace, (uint16_t)(0x0040 + offset), 0, 0);
    some_bits(&c->trace, which, count);
    if (reset)
        trace_event(&c->trace, RESET);
    return number == 0;
}

/* Every offset with every E/S, in pages within memory and past it. */
static int copies(struct run_case *c, size_t number)
{
    const enum kind kind = (enum kind)digit(&number, SRAM_KINDS);
    const uint8_t mask = digit(&number, 2) == 0 ? 0xFF : 0x1F;
    const size_t page = digit(&number, 4);
    const size_t offset = digit(&number, PAGE_BYTES);
    const uint8_t es = (uint8_t)digit(&number, 256);
    const size_t size = kind_memory_bytes(kind);
    const size_t pages[] = { 0, size - PAGE_BYTES, size,
                             0x10000 - PAGE_BYTES };
    const uint16_t target = (uint16_t)(pages[page] + offset);
    uint8_t *registers;

    bench_of_one(c, kind);
    registers = bench_at(&c->bench, 0, TA1);
    registers[0] = (uint8_t)target;
    registers[1] = (uint8_t)(target >> 8);
    registers[2] = es;
    copy_scratchpad(&c->trace, target, es & mask, 10);
    return number == 0;
}

/*
 * Two devices that copy at once, and again: every offset and ending offset, in
 * pages that both have, that only a larger one has, and that none has.
 */
static int copies_of_two(struct run_case *c, size_t number)
{
    static const uint16_t pages[] = { 0x0020, 0x0060, 0x0080, 0x01E0,
                                      0x0200, 0x1FE0, 0x2000 };
    const enum kind kinds[] = { (enum kind)digit(&number, SRAM_KINDS),
                                (enum kind)digit(&number, SRAM_KINDS) };
    const size_t page = digit(&number, sizeof pages / sizeof *pages);
    const uint16_t target =
        (uint16_t)(pages[page] + digit(&number, PAGE_BYTES));
    const uint8_t ending = (uint8_t)digit(&number, PAGE_BYTES);

    bench_of(c, kinds, 2);
    for (size_t i = 0; i < 2; i++) {
        uint8_t *const registers = bench_at(&c->bench, i, TA1);

        registers[0] = (uint8_t)target;
        registers[1] = (uint8_t)(target >> 8);
        registers[2] = ending;
    }
    copy_scratchpad(&c->trace, target, ending, 4);
    copy_scratchpad(&c->trace, target, ending, 4); /* AA is set: no match */
    copy_scratchpad(&c->trace, target, 0x80 | ending, 4);
    return number == 0;
}

/* ------------------------------------------------------------------ */
/* Programming                                                         */

/* Every byte programmed over every byte. */
static int programmed_bytes(struct run_case *c, size_t number)
{
    const uint8_t stored = (uint8_t)digit(&number, 256);
    const uint8_t byte = (uint8_t)digit(&number, 256);

    bench_of_one(c, DS1982);
    *bench_at(&c->bench, 0, DATA + 0x41) = stored;
    trace_skip(&c->trace);
    trace_byte(&c->trace, WRITE_DATA);
    trace_address(&c->trace, 0x0041);
    program_pass(&c->trace, byte);
    return number == 0;
}

/* Every status byte 0, with writes at each end of every page. */
static int protection(struct run_case *c, size_t number)
{
    const uint8_t command = digit(&number, 2) == 0 ? WRITE_DATA : WRITE_STATUS;
    const size_t page = digit(&number, DATA_BYTES / PAGE_BYTES);
    const size_t offset = digit(&number, 2) == 0 ? 0 : PAGE_BYTES - 1;
    const uint8_t status = (uint8_t)digit(&number, 256);

    bench_of_one(c, DS1982);
    *bench_at(&c->bench, 0, STATUS) = status;
    program(&c->trace, command, (uint16_t)(PAGE_BYTES * page + offset), 0x12,
            0x48);
    return number == 0;
}

/* 0 to 300 slots after the address of a write, with the pulses or without. */
static int programming_slots(struct run_case *c, size_t number)
{
    const uint8_t command = digit(&number, 2) == 0 ? WRITE_DATA : WRITE_STATUS;
    const int pulses = digit(&number, 2) == 0;
    const uint16_t address = digit(&number, 2) == 0 ? 0x0000 : 0x007B;
    const size_t count = digit(&number, 301);
    struct dice dice = dice_for(2, count);

    bench_of_one(c, DS1982);
    trace_skip(&c->trace);
    trace_byte(&c->trace, command);
    trace_address(&c->trace, address);
    for (size_t i = 0; i < count; i++) {
        /* A pass is 24 slots: data, CRC, and after the pulse the byte. */
        if (pulses && i % 24 == 16)
            trace_event(&c->trace, PULSE);
        trace_bits(&c->trace, i % 24 < 8 ? dice_roll(&dice) : 1, 1);
    }
    return number == 0;
}

/* ------------------------------------------------------------------ */
/* Cuts                                                                */

/* A session that ends, is reset, gets an event too many or lacks one. */
static int cut_anywhere(struct run_case *c, size_t number)
{
    const enum cut way = (enum cut)digit(&number, WAYS_TO_CUT);
    const size_t place = digit(&number, c->trace.length + 1);

    trace_cut(&c->trace, way, place);
    if (c->trace.length > 0 && c->trace.events[0] != RESET)
        c->expected = 11;
    else if (way == PULSE_THERE && !bench_takes_pulses(&c->bench))
        c->expected = 6;
    return number == 0;
}

/* A typical session, cut at every place. */
static int cuts(struct run_case *c, enum kind kind, size_t batteries,
                size_t number)
{
    bench_of_one_with(c, kind, batteries);
    typical_session(c, kind);
    return cut_anywhere(c, number);
}

static int cuts_ds1992(struct run_case *c, size_t number)
{
    return cuts(c, DS1992, 0, number);
}

static int cuts_ds1993(struct run_case *c, size_t number)
{
    return cuts(c, DS1993, 0, number);
}

static int cuts_ds1996(struct run_case *c, size_t number)
{
    return cuts(c, DS1996, 0, number);
}

static int cuts_ds1982(struct run_case *c, size_t number)
{
    return cuts(c, DS1982, 0, number);
}

static int cuts_flat(struct run_case *c, size_t number)
{
    const enum kind kind = (enum kind)digit(&number, SRAM_KINDS);

    return cuts(c, kind, BATTERIES_OF_ONE - 1, number);
}

/* A session at overdrive: a regular slot loses the device in every stage. */
static int cuts_overdrive(struct run_case *c, size_t number)
{
    const size_t batteries = digit(&number, 2) * (BATTERIES_OF_ONE - 1);

    bench_of_one_with(c, DS1996, batteries);
    overdrive_session(&c->trace, only_code(&c->bench));
    return cut_anywhere(c, number);
}

/* The same beside a device that has no overdrive, and one that has. */
static int cuts_side_by_side(struct run_case *c, size_t number)
{
    const size_t kind = digit(&number, SRAM_KINDS);
    const enum kind kinds[] = { DS1996, (enum kind)kind };

    bench_of(c, kinds, 2);
    overdrive_session(&c->trace, bench_see(&c->bench, 0, 0));
    return cut_anywhere(c, number);
}

/* ------------------------------------------------------------------ */
/* The empty bench, and small and large lengths                        */

/* The sessions on no device, cut at every place. */
static int empty_bench(struct run_case *c, size_t number)
{
    const int eprom = digit(&number, 2) == 0;
    size_t place;

    bench_of_one_or_none(c, KINDS);
    typical_session(c, eprom ? DS1982 : DS1992);
    place = digit(&number, c->trace.length + 1);
    c->trace.length = place;
    return number == 0;
}

/*
 * Every trace of up to four bytes 0 to 7, from the start, after a reset or at
 * overdrive, on no device and one of each kind.
 */
static int short_traces(struct run_case *c, size_t number)
{
    enum { MOST = 4, BYTES = NO_EVENT + 1 };
    const size_t kind = digit(&number, KINDS + 1);
    const size_t before = digit(&number, 3);
    size_t length = 0;

    bench_of_one_or_none(c, kind);
    c->expected = ANY_NUMBER;
    if (before == 1)
        trace_event(&c->trace, RESET);
    if (before == 2)
        trace_overdrive_skip(&c->trace);
    for (size_t traces = 1; number >= traces; traces *= BYTES) {
        number -= traces;
        length++;
    }
    if (length > MOST)
        return 0;
    for (size_t i = 0; i < length; i++)
        c->trace.events[c->trace.length++] = (uint8_t)digit(&number, BYTES);
    return 1;
}

/* No bytes and few, in each buffer. */
static int lengths(struct run_case *c, size_t number)
{
    c->null = digit(&number, 2) == 0;
    bench_of_one_or_none(c, digit(&number, KINDS + 1));
    c->bench.length = digit(&number, 9);
    trace_repeat(&c->trace, RESET, digit(&number, 4));
    c->answers = digit(&number, 5);
    c->expected = ANY_NUMBER;
    return number == 0;
}

/* Every number of devices that a count can say; all good, or some flat. */
static int counts(struct run_case *c, size_t number)
{
    enum kind kinds[MOST_ENTRIES] = { DS1992 };
    const size_t kind = digit(&number, KINDS);
    const size_t batteries = digit(&number, 2) * 0xB5A3;
    const size_t count = digit(&number, MOST_ENTRIES + 1);

    /* only DS1982 are small enough */
    kinds_of_crowd(kinds, count, count > MOST_DEVICES + 1 ? DS1982 : kind);
    bench_of(c, kinds, count);
    bench_set_batteries(&c->bench, batteries);
    read_from(&c->trace, READ_MEMORY, 0x0000, 40);
    c->expected = count > MOST_DEVICES ? 1 : 0;
    return number == 0;
}

/* Traces and answers around the most events there can be. */
static int limits(struct run_case *c, size_t number)
{
    const size_t kind = digit(&number, KINDS + 1);
    const size_t length = MOST_EVENTS - 2 + digit(&number, 5);
    const size_t answers = length - 2 + digit(&number, 5);

    bench_of_one_or_none(c, kind);
    while (c->trace.length < MOST_EVENTS)
        typical_session(c, kind == KINDS ? DS1982 : (enum kind)kind);
    for (size_t i = c->trace.length; i < length; i++)
        c->trace.events[i] = RESET;
    c->trace.length = length;
    c->answers = answers;
    c->expected = length > MOST_EVENTS ? 5 : answers < length ? 7 : 0;
    return number == 0;
}

/* ------------------------------------------------------------------ */
/* Refusals                                                            */

enum { BENCHES_TO_DAMAGE = 4 };

/*
 * Four devices or eight: of every kind, and more than one of some kinds; of
 * edition 1, or of edition 2 with some of them flat.
 */
static void bench_to_damage(struct run_case *c, size_t which)
{
    static const enum kind kinds[] = { DS1992, DS1996, DS1982, DS1982,
                                       DS1992, DS1982, DS1993, DS1993 };

    bench_of(c, kinds, which % 2 == 0 ? 4 : 8);
    bench_set_batteries(&c->bench, which < 2 ? 0 : 1 + 0x52);
    read_from(&c->trace, READ_MEMORY, 0x0010, 20);
    c->answers = c->trace.length;
}

/* Each cause alone, in many ways. */
static int refusals(struct run_case *c, size_t number)
{
    const size_t bench = digit(&number, BENCHES_TO_DAMAGE);
    const size_t damage = digit(&number, damage_count());
    const size_t choice = digit(&number, 1024);

    bench_to_damage(c, bench);
    if (damage_do(damage, c, choice))
        c->expected = damage_number(damage);
    return number == 0;
}

/* Two causes at once, in some ways: the one that is looked for first wins. */
static int refusals_in_pairs(struct run_case *c, size_t number)
{
    struct dice dice = dice_for(3, number);
    const size_t bench = digit(&number, BENCHES_TO_DAMAGE);
    const size_t later = digit(&number, damage_count());
    const size_t sooner = digit(&number, damage_count());

    digit(&number, 48); /* ways, which the dice choose */
    bench_to_damage(c, bench);
    if (damage_do(later, c, dice_below(&dice, 10000)))
        c->expected = damage_number(later);
    if (sooner < later && damage_do(sooner, c, dice_below(&dice, 10000)))
        c->expected = damage_number(sooner);
    return number == 0;
}

/* The kind of a family byte; KINDS for one that is not built. */
static size_t kind_of_family(size_t family)
{
    size_t kind = 0;

    while (kind < KINDS && kind_family((enum kind)kind) != family)
        kind++;
    return kind;
}

/*
 * The only reason to refuse: the edition, the family or the battery of an
 * entry, each any byte.
 */
static unsigned number_of_entry(size_t edition, size_t kind, size_t battery)
{
    if (edition != 1 && edition != 2)
        return 1;
    if (kind == KINDS || battery > 1)
        return 1;
    return battery == 1 && (edition == 1 || kind == DS1982) ? 1 : 0;
}

/* An entry beside a good one of a DS1982, with bytes of any value. */
static void bench_of_entry(struct run_case *c, size_t edition, size_t family,
                           size_t battery)
{
    const size_t kind = kind_of_family(family);
    const enum kind kinds[] = { DS1982,
                                kind < KINDS ? (enum kind)kind : DS1992 };
    uint8_t *const entry = c->bench.bytes + TABLE + ENTRY_BYTES;

    bench_of(c, kinds, 2);
    c->bench.bytes[EDITION] = (uint8_t)edition;
    entry[0] = (uint8_t)family;
    entry[1] = (uint8_t)battery;
    read_from(&c->trace, READ_MEMORY, 0x0020, 24);
    c->expected = number_of_entry(edition, kind, battery);
}

/* Every family with every second byte, in both editions. */
static int second_bytes(struct run_case *c, size_t number)
{
    const size_t edition = 1 + digit(&number, 2);
    const size_t family = digit(&number, 256);
    const size_t battery = digit(&number, 256);

    bench_of_entry(c, edition, family, battery);
    return number == 0;
}

/* Every edition, with a second byte that some edition knows, and others. */
static int editions(struct run_case *c, size_t number)
{
    static const uint8_t batteries[] = { 0, 1, 2, 255 };
    const enum kind kind = (enum kind)digit(&number, KINDS);
    const size_t battery = batteries[digit(&number, 4)];
    const size_t edition = digit(&number, 256);

    bench_of_entry(c, edition, kind_family(kind), battery);
    return number == 0;
}

/*
 * Every first event, with a byte over 6, a pulse that is refused, and too
 * little room, each there or not.
 */
static int first_events(struct run_case *c, size_t number)
{
    const size_t kind = digit(&number, KINDS + 1);
    const enum event first = (enum event)digit(&number, NO_EVENT);
    const int byte = digit(&number, 2) == 1;
    const int pulse = digit(&number, 2) == 1;
    const int room = digit(&number, 2) == 1;
    const int refused = (pulse || first == PULSE) && kind < DS1982;

    bench_of_one_or_none(c, kind);
    trace_event(&c->trace, first);
    trace_bits(&c->trace, SKIP_ROM, 8);
    if (pulse)
        c->trace.events[5] = PULSE;
    if (byte)
        c->trace.events[7] = NO_EVENT;
    c->answers = room ? c->trace.length - 1 : c->trace.length;
    c->expected = byte              ? 5
                  : first != RESET ? 11
                  : refused        ? 6
                  : room           ? 7
                                   : 0;
    return number == 0;
}

/* ------------------------------------------------------------------ */

/* The groups with most cases come last. */
static const struct {
    const char *name;
    int (*make)(struct run_case *, size_t);
} groups[] = {
    { "rom_commands", rom_commands },
    { "memory_commands", memory_commands },
    { "pairs", pairs },
    { "wrong_turns", wrong_turns },
    { "forks", forks },
    { "protection", protection },
    { "programming_slots", programming_slots },
    { "scratchpad_reads", scratchpad_reads },
    { "reads_to_the_end", reads_to_the_end },
    { "read_targets", read_targets },
    { "cuts_ds1992", cuts_ds1992 },
    { "cuts_ds1993", cuts_ds1993 },
    { "cuts_ds1996", cuts_ds1996 },
    { "cuts_ds1982", cuts_ds1982 },
    { "cuts_flat", cuts_flat },
    { "cuts_overdrive", cuts_overdrive },
    { "cuts_side_by_side", cuts_side_by_side },
    { "overdrive_commands", overdrive_commands },
    { "overdrive_matches", overdrive_matches },
    { "overdrive_pairs", overdrive_pairs },
    { "overdrive_bits", overdrive_bits },
    { "large_images", large_images },
    { "empty_bench", empty_bench },
    { "lengths", lengths },
    { "counts", counts },
    { "limits", limits },
    { "refusals", refusals },
    { "refusals_in_pairs", refusals_in_pairs },
    { "first_events", first_events },
    { "editions", editions },
    { "short_traces", short_traces },
    { "second_bytes", second_bytes },
    { "data_bits", data_bits },
    { "copies_of_two", copies_of_two },
    { "copies", copies },
    { "programmed_bytes", programmed_bytes },
    { "addresses", addresses },
};

const char *run_small_group(size_t group)
{
    return GROUP_NAME(groups, group);
}

int run_case_of(struct run_case *c, int (*make)(struct run_case *, size_t),
                size_t number)
{
    c->trace.length = 0;
    c->answers = ENOUGH;
    c->expected = 0;
    c->null = number % 2 == 0;
    if (!make(c, number))
        return 0;
    c->answers = room_or_enough(c->answers, c->trace.length, number % 3);
    return 1;
}

int run_small_case(struct run_case *c, size_t group, size_t number)
{
    return run_case_of(c, groups[group].make, number);
}
