#include "code.h"

#include "troughiron.h"

#include <stdio.h>
#include <string.h>

int digit_value(char digit)
{
    static const char digits[] = "0123456789ABCDEF0123456789abcdef";
    const char *const found = digit ? strchr(digits, digit) : NULL;

    return found ? (int)(found - digits) % 16 : -1;
}

bool byte_parse(uint8_t *byte, const char *text)
{
    const int high = digit_value(text[0]);
    const int low = high < 0 ? -1 : digit_value(text[1]);

    if (low < 0 || text[2])
        return false;
    *byte = (uint8_t)(16 * high + low);
    return true;
}

/* A number of so many hexadecimal digits, with blanks and dashes between them where separated. */
static bool digits_parse(uint64_t *number, const char *text, size_t digits, bool separated)
{
    size_t count = 0;

    for (*number = 0; *text; text++) {
        if (separated && strchr(" -", *text))
            continue;
        if (digit_value(*text) < 0 || count++ == digits)
            return false;
        *number = *number << 4 | (uint64_t)digit_value(*text);
    }
    return count == digits;
}

bool hex_parse(size_t *number, const char *text, int digits)
{
    uint64_t value;
    const bool parsed = digits_parse(&value, text, (size_t)digits, false);

    *number = (size_t)value;
    return parsed;
}

bool serial_parse(uint64_t *serial, const char *text)
{
    return digits_parse(serial, text, SERIAL_DIGITS, false);
}

bool code_parse(uint8_t code[CODE_SIZE], const char *text)
{
    uint64_t number;

    if (!digits_parse(&number, text, 2 * CODE_SIZE, true))
        return false;
    code[0] = (uint8_t)(number >> 56);
    for (size_t i = 1; i < 7; i++)
        code[i] = (uint8_t)(number >> 8 * i);
    code[7] = (uint8_t)number;
    return true;
}

void code_write(char text[CODE_TEXT], const uint8_t code[CODE_SIZE])
{
    snprintf(text, CODE_TEXT, "%02X %02X%02X%02X%02X%02X%02X %02X", code[0], code[6], code[5], code[4], code[3],
             code[2], code[1], code[7]);
}

void code_complete(uint8_t code[CODE_SIZE])
{
    for (unsigned crc = 0; crc < 256; crc++) {
        code[7] = (uint8_t)crc;
        if (troughiron_registration_check(code, CODE_SIZE))
            return;
    }
}

void code_make(uint8_t code[CODE_SIZE], uint8_t family, uint64_t serial)
{
    code[0] = family;
    for (size_t i = 0; i < 6; i++)
        code[1 + i] = (uint8_t)(serial >> 8 * i);
    code_complete(code);
}
