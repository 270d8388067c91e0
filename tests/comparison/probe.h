/*
 * Functions of the crate test_exports: what the host's interface does not have, for
 * the comparison only.
 */
#ifndef PROBE_H
#define PROBE_H

#include <stddef.h>
#include <stdint.h>

/* Returned where the levels are used up and the master would go on. */
enum { PROBE_UNFINISHED = 255 };

/*
 * A fresh master stepped with recorded levels.  Returns 7 where there is less
 * room than so many levels can need, else the number of the master's end: 0, 8,
 * 9 or 10, or PROBE_UNFINISHED.
 */
uint32_t probe_drive(const uint8_t *levels, size_t levels_length,
                     uint8_t *trace, size_t trace_length,
                     uint8_t *codes, size_t codes_length,
                     uint64_t *events, uint64_t *completed);

/*
 * How many devices are looked at for the level of each event of a trace: 0
 * where the master sends 0, the place from 1 of the first that pulls low, all
 * where none does, and 255 for an event that is no slot.  Returns 0, 1 to 6
 * and 11 as the run does, or 7 where there is room for fewer than the events; nothing is
 * written then.
 */
uint32_t probe_looked(const uint8_t *image, size_t image_length,
                      const uint8_t *trace, size_t trace_length,
                      uint8_t *looked, size_t looked_length);

/*
 * The bytes of a DS1982's fields that are still to be read, copied as far as
 * there is room; returns how many they are.
 */
uint64_t probe_remaining(uint8_t command, uint16_t address,
                         const uint8_t *data, size_t data_length,
                         const uint8_t *status, size_t status_length,
                         uint8_t *into, size_t into_length);

#endif
