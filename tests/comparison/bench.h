/* Images of benches: how they are laid out, filled, and named part by part. */
#ifndef BENCH_H
#define BENCH_H

#include "dice.h"

#include <stddef.h>
#include <stdint.h>
#include <stdio.h>

/* Those with a scratchpad come first. */
enum kind { DS1992, DS1993, DS1996, SRAM_KINDS, DS1982 = SRAM_KINDS, KINDS };

enum {
    MOST_DEVICES = 64,
    MOST_ENTRIES = 255, /* what the count can say, accepted or not */
    MOST_IMAGE_BYTES = 65535, /* of an accepted image */
    BENCH_ROOM = 80 * 1024
};

/* Where things are in an image. */
enum {
    COUNT = 0,
    EDITION = 1,
    TABLE = 2,
    ENTRY_BYTES = 4, /* family, battery, offset */
    CODE_BYTES = 8,
    CODE_BITS = 64,
    PAGE_BYTES = 32,
    /* in the body of a DS1992, DS1993 or DS1996 */
    TA1 = CODE_BYTES,
    TA2 = TA1 + 1,
    ES = TA2 + 1,
    SCRATCHPAD = ES + 1,
    MEMORY = SCRATCHPAD + PAGE_BYTES,
    /* in the body of a DS1982 */
    STATUS = CODE_BYTES,
    STATUS_BYTES = 8,
    DATA = STATUS + STATUS_BYTES,
    DATA_BYTES = 128
};

/*
 * An image and what it was laid out as.  Damage changes the bytes and the
 * length, and nothing else here.
 */
struct bench {
    size_t count;
    enum kind kinds[MOST_ENTRIES];
    int flat[MOST_ENTRIES];      /* whether a battery is */
    size_t bodies[MOST_ENTRIES]; /* offsets */
    size_t length;
    uint8_t bytes[BENCH_ROOM];
};

const char *kind_name(enum kind kind);
uint8_t kind_family(enum kind kind);
size_t kind_body_bytes(enum kind kind);
size_t kind_memory_bytes(enum kind kind); /* 128 of data for a DS1982 */

/* Shifts bytes into the CRC of a code, bit by bit. */
uint8_t crc_of(const uint8_t *bytes, size_t count);

/* Writes a valid code. */
void code_write(uint8_t *code, uint8_t family, uint64_t serial);

/* Which of two codes is found first, for qsort: bit 0 first, 0 before 1. */
int code_order(const void *left, const void *right);

/*
 * Replaces DS1996, the last of them first, until an image of these devices has
 * so many bytes at most.
 */
void kinds_within(enum kind *kinds, size_t count, size_t bytes);

/*
 * So many devices by one number: all of one kind, or, one past the last kind,
 * of every kind in turn.  DS1996 are as many as an image can hold.
 */
void kinds_of_crowd(enum kind *kinds, size_t count, size_t way);

/* An image of edition 1, all batteries good; the bodies are zero. */
void bench_lay_out(struct bench *b, const enum kind *kinds, size_t count);

/* Makes a bench one of edition 2, all batteries as they are. */
void bench_to_edition_2(struct bench *b);

/* Gives a device a flat battery, and edition 2; a DS1982 has none. */
void bench_flatten(struct bench *b, size_t device);

/*
 * Edition and batteries by one number: 0 is edition 1, others are edition 2,
 * where device i is flat if bit i of one less is set, and it has a battery.
 */
void bench_set_batteries(struct bench *b, size_t way);

/* Lays out a bench and fills the bodies with what a number determines. */
void bench_make(struct bench *b, const enum kind *kinds, size_t count,
                uint64_t number);

/* A device's bytes from an offset in its body on. */
uint8_t *bench_at(struct bench *b, size_t device, size_t offset);
const uint8_t *bench_see(const struct bench *b, size_t device, size_t offset);

/* Gives a device a code of its family that no earlier device has. */
void bench_give_code(struct bench *b, size_t device, uint64_t serial);

/* Takes a device out.  The table is written anew: damage to it is gone. */
void bench_take_out(struct bench *b, size_t device);

/* Whether no device is of another kind than DS1982. */
int bench_takes_pulses(const struct bench *b);

/* Writes the name of the part of an image that a byte belongs to. */
void bench_name_byte(const struct bench *b, size_t place, char *name,
                     size_t room);

/* Shows the devices as they were laid out, even if damage came later. */
void bench_show(FILE *out, const struct bench *b);

void show_bytes(FILE *out, const uint8_t *bytes, size_t count);

#endif
