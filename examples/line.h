/* line.h: a line of the bench for a host program that sends one slot at a time. */
#ifndef LINE_H
#define LINE_H

#include <troughiron.h>

#ifdef __cplusplus
extern "C" {
#endif

/* The longest image. */
enum { LINE_IMAGE = TROUGHIRON_MOST_BYTES };

/*
 * The trace since the last regular reset, the image as it was then, and the image as it is now,
 * with the number of bytes that copies wrote to memory since the line was opened. A host reads
 * image, length and copied, sets overdrive, and leaves the others to the functions below.
 */
struct line {
    uint8_t image[LINE_IMAGE];
    size_t length;
    uint64_t copied;
    int overdrive; /* the speed of the slots that come; line_reset sets it to 0 */
    uint8_t start[LINE_IMAGE];
    uint64_t copied_before; /* that reset */
    uint8_t events[TROUGHIRON_MOST_EVENTS], answers[TROUGHIRON_MOST_EVENTS];
    size_t count;
};

/*
 * Each returns a number from 0 on, or a refusal below 0. After a refusal nothing was sent, and the
 * line is as it was:
 *   -TROUGHIRON_REFUSED_TRACE     the trace since the last regular reset is at its end, with 32,767
 *                                 events, or what was asked for goes past it; line_reset starts a
 *                                 new one
 *   -TROUGHIRON_REFUSED_NO_RESET  there was no regular reset yet
 *   -TROUGHIRON_REFUSED_PULSE     a program pulse while some device is not a DS1982
 */
int line_reset(struct line *l);              /* 1 where there is a presence, else 0 */
int line_overdrive_reset(struct line *l);    /* the same, of devices that are at overdrive */
int line_bit(struct line *l, int bit);       /* one slot: its level */
int line_byte(struct line *l, uint8_t byte); /* eight slots: the byte that their levels spell */
int line_read(struct line *l, uint8_t *bytes, size_t count); /* read slots: 0, and the bytes */
int line_pulse(struct line *l);              /* the program pulse: 1 */

/* Puts the devices of an image on the line. Returns 0, or a refusal of the image, -1 to -4. */
int line_open(struct line *l, const uint8_t *image, size_t length);

#ifdef __cplusplus
}
#endif

#endif
