/*
 * A 1-Wire bus with up to 64 devices (DS1992, DS1993, DS1996, DS1982),
 * simulated slot by slot, a judge of recorded sessions, and a master that
 * searches the bus.
 *
 * Nothing here allocates or keeps state between calls.  Buffers that belong to
 * one call must not overlap.  A pointer whose length is 0 is not used.
 */
#ifndef SECOND_H
#define SECOND_H

#include <stddef.h>
#include <stdint.h>

/*
 * Runs a trace on the devices of an image.
 *
 * The second byte of an entry is 0 in edition 1.  In edition 2 it is 1 for a
 * DS1992, DS1993 or DS1996 whose battery is flat, else 0.  A flat device
 * carries out ROM functions, and then waits for a reset where others take a
 * memory command.
 *
 * A trace has one byte per event: 0 write-zero slot, 1 write-one or read slot,
 * 2 reset, 3 program pulse, and 4, 5, 6 for those slots and the reset at
 * overdrive speed, which only a DS1996 can be at.  All devices are at regular
 * speed at the start.  The level of event i goes to answers[i]; answers
 * past trace_len stay as they were.  The image takes up what the devices store.
 * copied becomes the number of bytes that the copies accepted in this trace
 * wrote to memory, of all devices together; a program pulse copies nothing.
 *
 * Returns 0 when answered, or the first refusal in this list that applies,
 * with nothing changed:
 *   1  image too short for its table, over 64 devices, edition not 1 or 2, a
 *      second entry byte that the edition does not know, or an unknown family
 *   2  an offset or the image length is not the packed layout's, or the image
 *      has over 65535 bytes
 *   3  a code with a wrong CRC, or not of its entry's family
 *   4  two equal codes
 *   5  over 32768 events, or an event byte over 6
 *  11  a trace with events whose first is not a reset at regular speed
 *   6  a program pulse with a device on the bus that is not a DS1982
 *   7  fewer answers than events
 */
uint32_t second_run(uint8_t *image, size_t image_len,
                    const uint8_t *trace, size_t trace_len,
                    uint8_t *answers, size_t answers_len, uint64_t *copied);

/*
 * How many devices have to be looked at for the level of each slot of a trace:
 * in the order of the entries up to the first that pulls low, or all where
 * none does, those that do not hear the slot as well; no device where the
 * master sends 0.  That of event i goes to looked[i], or SECOND_NO_SLOT where
 * it is none; what is past trace_len stays as it was.  The image is only read.
 *
 * Returns 0, or the refusal of second_run with room for looked_len answers.
 */
uint32_t second_looked(const uint8_t *image, size_t image_len,
                       const uint8_t *trace, size_t trace_len,
                       uint8_t *looked, size_t looked_len);

enum { SECOND_NO_SLOT = 255 };

/*
 * Judges a recorded session: the trace that a program sent, and the answers it
 * recorded.  A session is careful where
 *   1  every answer is the level of that event in a run of the trace;
 *   2  no memory command 0Fh or 55h completes while more than one device is at
 *      the memory command;
 *   3  a device accepts a copy only after a write scratchpad to it, complete
 *      up to the 16th address bit, and since that bit of the last one some read
 *      scratchpad of this device showed on the line TA1, TA2 and E/S and the
 *      bytes from T4:T0 through the ending offset, as they are just before the
 *      copy is accepted.
 *
 * rule becomes 0 for a careful session.  Else it is 1, and event the first
 * answer that differs; or, where none does, rule is 2 or 3, and event the last
 * bit of the command or of the pattern that is the first to break either.
 * event is 0 where rule is.
 *
 * The image is only read.  Whatever the verdict, work takes the image as the
 * whole trace leaves it; what is past image_len stays as it was.
 *
 * Returns 0, or a refusal with nothing changed: 1 to 5, 11 and 6 as above, 7
 * when there are not as many answers as events or work is shorter than the
 * image.
 */
uint32_t second_judge(const uint8_t *image, size_t image_len,
                      const uint8_t *trace, size_t trace_len,
                      const uint8_t *answers, size_t answers_len,
                      uint8_t *work, size_t work_len,
                      uint64_t *rule, uint64_t *event);

/*
 * Searches the n devices of an image: a fresh master is stepped against the
 * levels of the bus.
 *
 * Writes 8n bytes of codes in the order found, the trace sent (201n events, or
 * one reset when n is 0), and the passes, resets and slots of that trace.
 *
 * Returns 0, or a refusal with nothing changed: 1 to 4 as above, 7 when there
 * is no room for 8n bytes of codes or for the trace.
 */
uint32_t second_search(const uint8_t *image, size_t image_len,
                       uint8_t *codes, size_t codes_len,
                       uint8_t *trace, size_t trace_len,
                       uint64_t *passes, uint64_t *resets, uint64_t *slots);

/* 1 for 8 bytes whose CRC, taken over all of them, is zero; else 0. */
uint32_t second_registration_check(const uint8_t *code, size_t code_len);

/* How far a searching master came with the levels it was fed. */
struct second_fed {
    int ended;       /* 1 when the master ended, 0 when the levels ran out */
    uint32_t number; /* when ended: 0, or 8, 9, 10; otherwise 0 */
    size_t events;   /* events sent */
    size_t codes;    /* codes completed, 8 bytes each */
};

/*
 * Steps a fresh master with recorded levels, nonzero counting as 1.  Its first
 * step gives the reset; each level then answers the event just sent.  Stops
 * when the master ends or the levels are used up.
 *
 * trace needs room for levels_len + 1 events, and never for more than 12864;
 * codes needs room for 512 bytes.  What is past events and codes stays as it
 * was.
 */
struct second_fed second_feed(const uint8_t *levels, size_t levels_len,
                              uint8_t *trace, uint8_t *codes);

/* A part of one of a DS1982's fields. */
struct second_view {
    int field; /* 0 data, 1 status, -1 empty */
    size_t start, length;
};

/*
 * The bytes a DS1982 read command still has to send from an address, which is
 * cut to the field: F0h and C3h name the data, AAh the status.  Empty for any
 * other command and for fields that are not of 128 and 8 bytes.
 */
struct second_view second_remaining(uint8_t command, uint16_t address,
                                    size_t data_len, size_t status_len);

#endif
