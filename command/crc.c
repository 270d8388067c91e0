#include "crc.h"

/* Polynomials with their lowest power first, as the bits of a byte are sent. */
enum { CRC8_POLYNOMIAL = 0x8C, CRC16_POLYNOMIAL = 0xA001 };

static unsigned crc(unsigned polynomial, const uint8_t *bytes, size_t count)
{
    unsigned sum = 0;

    for (size_t i = 0; i < 8 * count; i++) {
        const unsigned bit = bytes[i / 8] >> i % 8 & 1;

        sum = (sum ^ bit) & 1 ? sum >> 1 ^ polynomial : sum >> 1;
    }
    return sum;
}

uint8_t crc8(const uint8_t *bytes, size_t count)
{
    return (uint8_t)crc(CRC8_POLYNOMIAL, bytes, count);
}

uint16_t crc16(const uint8_t *bytes, size_t count)
{
    return (uint16_t)~crc(CRC16_POLYNOMIAL, bytes, count);
}
