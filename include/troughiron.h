/*
 * Troughiron: a software bench for 1-Wire memory buttons (DS1992, DS1993, DS1996, DS1982).
 *
 * A bench is an image of bytes. Byte 0 is the number n of devices, 0 to 64, byte 1 the edition, 1 or 2. Then n entries
 * of four bytes follow: family code (08h DS1992, 06h DS1993, 0Ch DS1996, 09h DS1982), the state of the battery (0
 * good; in edition 2 also 1 flat, but not for a DS1982, which has none), the offset of the device's body (low byte
 * first). The bodies follow in the order of the entries, packed, with nothing after the last, 65,535 bytes in all at
 * most:
 *
 *   DS1992, DS1993, DS1996   8 code bytes, TA1, TA2, E/S, 32 scratchpad bytes, 128, 512 or 8,192 bytes of memory: 171,
 *                            555 or 8,235 bytes
 *   DS1982                   8 code bytes, 8 status bytes, 128 data bytes: 144 bytes
 *
 * A code is 8 bytes: family code, serial number (low byte first), CRC.
 *
 * A flat device does every ROM function, since its ROM runs from the line, and is found like any other. Where a good
 * one takes a memory command, it waits for a reset and answers ones; its body stays as it is.
 *
 * Every run starts at regular speed. A DS1996 goes to overdrive speed with two ROM commands of its own: 3Ch (overdrive
 * skip ROM), after which it is at the memory command, and 69h (overdrive match ROM), whose 64 code bits come at
 * overdrive; one that fails this match waits, at regular speed unless it was at overdrive before the command. Events 4,
 * 5 and 6 are heard by devices at overdrive alone: for one that does not hear an event nothing changes. A regular reset
 * is heard by all and returns all to regular speed. In a regular slot a device at overdrive answers 1, and then waits
 * for a regular reset. A flat DS1996 takes its speed from 3Ch and 69h, and then waits.
 *
 * For every function here:
 *   - A slice is a pointer and a length. Any length is fine; a length of 0 may go with a null pointer.
 *   - Buffers of one call must not overlap, and nothing else may change them during the call.
 *   - Nothing is retained after the call, nothing is allocated, and there is no state between calls: calls on different
 *     buffers may run at the same time.
 *   - Every call returns. What it returns and what every buffer then holds is proved, for every input.
 */
#ifndef TROUGHIRON_H
#define TROUGHIRON_H

#include <stddef.h>
#include <stdint.h>

#ifdef __cplusplus
extern "C" {
#endif

/* The version of this interface; the command's is the same. */
#define TROUGHIRON_VERSION_MAJOR 0
#define TROUGHIRON_VERSION_MINOR 2
#define TROUGHIRON_VERSION_PATCH 0
#define TROUGHIRON_VERSION "0.2.0"

/* Events of a trace, one byte each. */
enum {
    TROUGHIRON_WRITE_ZERO = 0, /* write-zero slot */
    TROUGHIRON_WRITE_ONE = 1,  /* write-one slot, which is also the read slot */
    TROUGHIRON_RESET = 2,      /* reset and presence */
    TROUGHIRON_PULSE = 3,      /* program pulse: only where every device is a DS1982 */
    TROUGHIRON_OVERDRIVE_ZERO = 4, /* write-zero slot at overdrive speed */
    TROUGHIRON_OVERDRIVE_ONE = 5,  /* write-one slot, which is also the read slot, at overdrive speed */
    TROUGHIRON_OVERDRIVE_RESET = 6 /* reset and presence at overdrive speed */
};

/* The second byte of an entry. */
enum {
    TROUGHIRON_GOOD = 0,
    TROUGHIRON_FLAT = 1 /* only in edition 2, and not for a DS1982 */
};

/* Families, the first byte of an entry and of a code. */
enum {
    TROUGHIRON_DS1992 = 0x08,
    TROUGHIRON_DS1993 = 0x06,
    TROUGHIRON_DS1996 = 0x0C,
    TROUGHIRON_DS1982 = 0x09
};

/*
 * E/S of a DS1992, DS1993 or DS1996: three flags, and the ending offset in the bits below them. A copy (55h) takes the
 * three registers as they are: write scratchpad (0Fh) loads TA1, TA2 and E/S, and read memory (F0h) loads TA1 and TA2
 * too, on its 16th address bit, and leaves E/S. So after a read of memory the pattern from before it may no longer
 * match.
 */
enum {
    TROUGHIRON_ES_AA = 0x80,     /* authorization accepted: the scratchpad was copied */
    TROUGHIRON_ES_OF = 0x40,     /* overflow: a bit was sent past the end of the scratchpad */
    TROUGHIRON_ES_PF = 0x20,     /* partial byte: a reset came within a data byte */
    TROUGHIRON_ES_ENDING = 0x1F  /* the ending offset */
};

/* What a call returns: a full answer, or a refusal. troughiron_run says below what each is the refusal of. */
enum {
    TROUGHIRON_ANSWERED = 0,
    TROUGHIRON_REFUSED_TABLE = 1,
    TROUGHIRON_REFUSED_LAYOUT = 2,
    TROUGHIRON_REFUSED_CODE = 3,
    TROUGHIRON_REFUSED_ALIKE = 4,
    TROUGHIRON_REFUSED_TRACE = 5,
    TROUGHIRON_REFUSED_PULSE = 6,
    TROUGHIRON_REFUSED_ROOM = 7,
    TROUGHIRON_REFUSED_NO_RESET = 11
};

/* The most events of a trace, and the most devices and bytes of an image. */
#define TROUGHIRON_MOST_EVENTS 32768
#define TROUGHIRON_MOST_DEVICES 64
#define TROUGHIRON_MOST_BYTES 65535

/*
 * Runs a trace on the devices of an image. Every device waits for a reset at the start.
 *
 * Returns 0 where the run is answered. Then
 *   - answers[i], for each event i, is the level after it: of a slot 0 if the trace sends 0 or any device that hears
 *     it pulls low, else 1; of a reset 0 if a device hears it, else 1; of a pulse 1. Bytes of answers past the trace
 *     are as they were.
 *   - the bodies in image are as the devices are left: registers, flags, scratchpads, memory, status. All else of it is
 *     as it was.
 *   - *copied is the number of bytes that all accepted copies (55h) of the trace wrote to memory. A copy of nothing
 *     adds 0; devices that copy in the same slot all count; a program pulse does not.
 *
 * Returns the number of a refusal otherwise, and then nothing is changed, *copied included. It is the first whose cause
 * is there in this list, whose order is not that of the numbers:
 *   1  image shorter than 2 + 4n, n over 64, edition neither 1 nor 2, an unknown family, or a second entry byte that
 *      is nonzero in edition 1, over 1 in edition 2, or 1 for a DS1982
 *   2  image of over 65,535 bytes, or an offset or the image's length differs from the packed layout
 *   3  a code's CRC is wrong, or its family byte is not its entry's
 *   4  two devices have the same code
 *   5  trace of over 32,768 events, or with a byte over 6
 *  11  trace that is not empty and does not begin with a reset at regular speed, event 2
 *   6  a program pulse in the trace while some device is not a DS1982
 *   7  answers shorter than the trace
 *
 * copied must not be null.
 */
uint32_t troughiron_run(uint8_t *image, size_t image_length,
                        const uint8_t *trace, size_t trace_length,
                        uint8_t *answers, size_t answers_length,
                        uint64_t *copied);

/*
 * Searches the devices of an image: the searching master of the 1-Wire search algorithm, stepped with the levels of the
 * line and nothing else. The image is only read.
 *
 * Returns 0 where the search is answered. With n devices,
 *   - codes holds the n codes found, 8 bytes each: every device's code once, ordered by bit 0 first, 0 before 1;
 *   - trace holds the events sent: n passes of a reset and 200 slots, or with n = 0 one reset. troughiron_run of it on
 *     the same image is not refused, leaves the image as it is, and answers what the search saw;
 *   - *passes, *resets and *slots are those of that trace: n, n and 200n, or with n = 0: 0, 1 and 0.
 * Bytes past these are as they were.
 *
 * Returns the number of a refusal otherwise, and then nothing is changed, the three numbers included:
 *   1 to 4  as for troughiron_run
 *   7       room for codes under 8n, or for the trace under 201n, at least 1
 *
 * passes, resets and slots must not be null.
 */
uint32_t troughiron_search(const uint8_t *image, size_t image_length,
                           uint8_t *codes, size_t codes_length,
                           uint8_t *trace, size_t trace_length,
                           uint64_t *passes, uint64_t *resets, uint64_t *slots);

/*
 * Judges a recorded session: a trace, and the answers that a program recorded for it. Three rules are looked at:
 *   A (1)  the recorded answers are the bench's, byte by byte; a recorded byte over 1 differs
 *   B (2)  no memory command 0Fh or 55h completes while more than one device, of any kind, is at the memory command
 *   C (3)  each copy that a device accepts comes after a write scratchpad to that device in this trace (one that is cut
 *          before its 16th address bit is none), and between the 16th address bit of its last write and the copy at
 *          least one read scratchpad of that device showed on the line TA1, TA2, E/S and all bytes from T4:T0 through
 *          the ending offset, with the values that they have just before the copy is accepted; where no bytes lie
 *          between, the registers suffice
 * A device takes part only in the slots that it hears: a command, an address, a pattern and a read count at the
 * device's own speed. In a read a device at regular speed passes over events 4, 5 and 6, and a regular slot ends the
 * read of a device at overdrive. Rule B counts the devices at the memory command at either speed.
 *
 * Returns 0 where the session is judged. Then
 *   - *rule is 0 if all three rules are kept, else the number of the rule that is broken, and *event the event that
 *     breaks it, counted from 0: of A the first answer that differs, of B the last bit of the command, of C the last
 *     bit of the copy's pattern. *event is 0 where no rule is broken. A is looked for first, over the whole trace, then
 *     the earliest B or C.
 *   - work holds, whatever the verdict is, the image as troughiron_run leaves it after the whole trace; bytes of work
 *     past the image's length are as they were. The image itself is only read.
 *
 * Returns the number of a refusal otherwise, and then nothing is changed, *rule and *event included; the order is that
 * of troughiron_run:
 *   1 to 6 and 11  as for troughiron_run
 *   7              answers of another length than the trace, or work shorter than the image
 *
 * work must not overlap image, trace or answers. rule and event must not be null.
 */
uint32_t troughiron_judge(const uint8_t *image, size_t image_length,
                          const uint8_t *trace, size_t trace_length,
                          const uint8_t *answers, size_t answers_length,
                          uint8_t *work, size_t work_length,
                          uint64_t *rule, uint64_t *event);

/* The registration check: 1 for exactly the 8 bytes whose CRC comes out zero, else 0. */
uint32_t troughiron_registration_check(const uint8_t *code, size_t code_length);

#ifdef __cplusplus
}
#endif

#endif
