/*
 * Registration codes: 8 bytes, and their text: family code, serial number as engraved, with its highest byte first,
 * CRC.
 */
#ifndef CODE_H
#define CODE_H

#include "kind.h"

#include <stdbool.h>
#include <stdint.h>

/* Room for "08 000000FBC52B 8F". */
enum { CODE_TEXT = 19, SERIAL_DIGITS = 12 };

/* Sixteen hexadecimal digits, with blanks and dashes between them where one likes. */
bool code_parse(uint8_t code[CODE_SIZE], const char *text);

/* Twelve hexadecimal digits. */
bool serial_parse(uint64_t *serial, const char *text);

void code_write(char text[CODE_TEXT], const uint8_t code[CODE_SIZE]);

/* A code of a family with a serial number and the CRC that the registration check accepts. */
void code_make(uint8_t code[CODE_SIZE], uint8_t family, uint64_t serial);

/* Gives a code the CRC that the registration check accepts. */
void code_complete(uint8_t code[CODE_SIZE]);

/* The value of a hexadecimal digit, or -1. */
int digit_value(char digit);

/* A number of so many hexadecimal digits, and nothing after them. */
bool hex_parse(size_t *number, const char *text, int digits);

/* Two hexadecimal digits, and nothing after them. */
bool byte_parse(uint8_t *byte, const char *text);

#endif
