/* The CRCs of 1-Wire devices, for the bytes that a session sends and expects. */
#ifndef CRC_H
#define CRC_H

#include <stddef.h>
#include <stdint.h>

/* The CRC-8 of a registration code and of a DS1982's answers. */
uint8_t crc8(const uint8_t *bytes, size_t count);

/* The CRC-16 as devices send it: inverted, to be sent with its low byte first. */
uint16_t crc16(const uint8_t *bytes, size_t count);

#endif
