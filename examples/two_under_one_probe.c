/*
 * Two DS1992 under one probe. Skip ROM addresses both: they take the same write, and every check that the host makes
 * says fine. Match ROM addresses one: only that one takes the record.
 */
#include "line.h"

#include <stdio.h>
#include <stdlib.h>
#include <string.h>

enum { BODY = 171, MEMORY = 43, FIRST = 10, LENGTH = FIRST + 2 * BODY };

static const uint8_t record[] = {'A', '7'};

/* The CRC-8 of a registration code, as a host has it. */
static uint8_t crc8(const uint8_t *bytes, size_t n)
{
    uint8_t crc = 0;
    for (size_t i = 0; i < n; i++) {
        crc ^= bytes[i];
        for (int bit = 0; bit < 8; bit++)
            crc = crc & 1 ? (uint8_t)(crc >> 1 ^ 0x8C) : crc >> 1;
    }
    return crc;
}

/* Two new DS1992, with serial numbers 1 and 2. */
static void new_image(uint8_t image[LENGTH])
{
    memset(image, 0, LENGTH);
    image[0] = 2;
    image[1] = 1;
    for (uint8_t i = 0; i < 2; i++) {
        size_t start = FIRST + (size_t)i * BODY;
        uint8_t *code = image + start;
        image[2 + 4 * i] = TROUGHIRON_DS1992;
        image[2 + 4 * i + 2] = (uint8_t)(start % 256);
        image[2 + 4 * i + 3] = (uint8_t)(start / 256);
        code[0] = TROUGHIRON_DS1992;
        code[1] = i + 1;
        code[7] = crc8(code, 7);
    }
}

/* What the line returned, which is a refusal below 0. */
static int taken(int result)
{
    if (result < 0) {
        fprintf(stderr, "refused: %d\n", -result);
        exit(1);
    }
    return result;
}

static void check(const char *what, int fine)
{
    printf("   %s: %s\n", what, fine ? "fine" : "NOT FINE");
    if (!fine)
        exit(1);
}

static void send_all(struct line *l, const uint8_t *bytes, size_t n)
{
    for (size_t i = 0; i < n; i++)
        taken(line_byte(l, bytes[i]));
}

/* Reset, then skip ROM, or match ROM with a code; returns whether there is a presence. */
static int address(struct line *l, const uint8_t *code)
{
    int presence = taken(line_reset(l));
    taken(line_byte(l, code ? 0x55 : 0xCC));
    if (code)
        send_all(l, code, 8);
    return presence;
}

static int has_record(const struct line *l, int device)
{
    return memcmp(l->image + FIRST + device * BODY + MEMORY + 0x26, record, sizeof record) == 0;
}

static void show_memory(const struct line *l)
{
    for (int device = 0; device < 2; device++) {
        const uint8_t *memory = l->image + FIRST + device * BODY + MEMORY;
        printf("   device %d: %02X %02X, %s the record\n", device + 1, memory[0x26], memory[0x27],
               has_record(l, device) ? "took" : "did not take");
    }
}

/* Write scratchpad at 0026h, read it back, copy it; code is null for skip ROM. */
static void store(struct line *l, const uint8_t *code)
{
    uint8_t read[5];

    printf("1. write scratchpad at 0026h: %02X %02X\n", record[0], record[1]);
    int presence = address(l, code);
    send_all(l, (const uint8_t[]){0x0F, 0x26, 0x00}, 3);
    send_all(l, record, sizeof record);
    check("presence", presence);

    printf("2. read scratchpad\n");
    address(l, code);
    send_all(l, (const uint8_t[]){0xAA}, 1);
    taken(line_read(l, read, sizeof read));
    printf("   TA %02X%02Xh, E/S %02Xh, data %02X %02X\n", read[1], read[0], read[2], read[3], read[4]);
    check("target address", read[0] == 0x26 && read[1] == 0x00);
    check("ending offset, no flags", read[2] == 0x07);
    check("data", read[3] == record[0] && read[4] == record[1]);

    printf("3. copy scratchpad with %02X %02X %02X\n", read[0], read[1], read[2]);
    address(l, code);
    send_all(l, (const uint8_t[]){0x55, read[0], read[1], read[2]}, 4);
    taken(line_read(l, read, 1));
    check("zeros after the copy", read[0] == 0x00);

    printf("4. memory at 0026h\n");
    show_memory(l);
}

int main(void)
{
    static struct line line;
    uint8_t image[LENGTH];

    printf("Two DS1992 under one probe, skip ROM\n");
    new_image(image);
    taken(line_open(&line, image, LENGTH));
    store(&line, NULL);
    printf("Every check said fine, and %s.\n\n",
           has_record(&line, 0) && has_record(&line, 1) ? "both devices took the record" : "not both took it");

    printf("Two DS1992 under one probe, match ROM of device 1\n");
    taken(line_open(&line, image, LENGTH));
    store(&line, image + FIRST);
    printf("Every check said fine, and %s.\n",
           has_record(&line, 0) && !has_record(&line, 1) ? "only device 1 took the record" : "that is not so");
    return 0;
}
