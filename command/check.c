/* troughiron check: whether a code is valid, however it is written. */
#include "bytes.h"
#include "code.h"
#include "commands.h"
#include "json.h"
#include "outputs.h"
#include "status.h"
#include "troughiron.h"

#include <string.h>

enum { DIGITS = 2 * CODE_SIZE, DIGITS_WITHOUT_CRC = DIGITS - 2, LONGEST = 96 };

/* A code as it was given: its digits, and the lengths of the groups that they stand in. */
struct written {
    char digits[DIGITS + 1];
    size_t groups[DIGITS];
    size_t count; /* of groups */
};

enum reading { AS_ENGRAVED, IN_WIRE_ORDER, WITHOUT_CRC };

/* ------------------------------------------------------------------ */
/* Digits in groups                                                    */

/* A report has "#2" and "DS1992" beside a code. */
static bool is_beside(const char *word, size_t length)
{
    return word[0] == '#' || kind_named(word, length);
}

/* Adds a group of digits; false where there are too many, or others. */
static bool group_add(struct written *w, const char *group, size_t length)
{
    const size_t before = strlen(w->digits);

    if (before + length > DIGITS)
        return false;
    for (size_t i = 0; i < length; i++)
        if (digit_value(group[i]) < 0)
            return false;
    memcpy(w->digits + before, group, length);
    w->groups[w->count++] = length;
    return true;
}

static bool written_parse(struct written *w, const char *text)
{
    while (*text) {
        const size_t word = strcspn(text, " ");
        const size_t group = strcspn(text, " -.:,");

        if (word > 0 && is_beside(text, word)) {
            text += word;
        } else {
            if (group > 0 && !group_add(w, text, group))
                return false;
            text += group + (text[group] != '\0');
        }
    }
    return true;
}

/* ------------------------------------------------------------------ */
/* Which bytes they are                                                */

static bool is_valid(const uint8_t code[CODE_SIZE])
{
    return troughiron_registration_check(code, CODE_SIZE);
}

static void wire_order(uint8_t code[CODE_SIZE], const char *digits)
{
    for (size_t i = 0; i < CODE_SIZE; i++)
        code[i] = (uint8_t)(16 * digit_value(digits[2 * i]) + digit_value(digits[2 * i + 1]));
}

/*
 * Sixteen digits say by the CRC which order they are in; where that does not tell, bytes that stand alone are in wire
 * order.
 */
static enum reading whole_code(uint8_t code[CODE_SIZE], const struct written *w)
{
    uint8_t engraved[CODE_SIZE], wire[CODE_SIZE];
    bool take_wire = w->count == CODE_SIZE;

    code_parse(engraved, w->digits);
    wire_order(wire, w->digits);
    if (is_valid(engraved) != is_valid(wire))
        take_wire = is_valid(wire);
    memcpy(code, take_wire ? wire : engraved, CODE_SIZE);
    return take_wire ? IN_WIRE_ORDER : AS_ENGRAVED;
}

/* Family and serial number, as in 08.000000000001. */
static bool is_without_crc(const struct written *w)
{
    return w->count == 2 && w->groups[0] == 2 && w->groups[1] == SERIAL_DIGITS;
}

static bool code_read(uint8_t code[CODE_SIZE], enum reading *reading, const char *text)
{
    struct written w = { 0 };

    if (!written_parse(&w, text))
        return false;
    if (strlen(w.digits) == DIGITS) {
        *reading = whole_code(code, &w);
        return true;
    }
    if (!is_without_crc(&w))
        return false;
    strcat(w.digits, "00");
    code_parse(code, w.digits);
    code_complete(code);
    *reading = WITHOUT_CRC;
    return true;
}

/* ------------------------------------------------------------------ */
/* The command                                                         */

static void print_checked(uint8_t code[CODE_SIZE], enum reading reading, bool valid)
{
    static const char *const readings[] = {
        "read as engraved",
        "read in wire order",
        "read as engraved, and given its CRC",
    };
    const struct kind *const kind = kind_of_family(code[0]);
    char text[CODE_TEXT];

    code_write(text, code);
    printf("%s: %s", text, valid ? "valid" : "not valid");
    if (!valid) {
        code_complete(code);
        printf(", the CRC of these bytes is %02X", code[7]);
    }
    printf(", %s, %s\n", kind ? kind->name : "a family that the bench does not have", readings[reading]);
}

static int checked_json(uint8_t code[CODE_SIZE], enum reading reading, bool valid)
{
    static const char *const readings[] = { "engraved", "wire", "without CRC" };
    const struct kind *const kind = kind_of_family(code[0]);
    struct json json = { 0 };
    char text[CODE_TEXT];

    code_write(text, code);
    json_start(&json, "check");
    json_text(&json, "code", text);
    json_bytes(&json, "wire", code, CODE_SIZE);
    json_text(&json, "read_as", readings[reading]);
    json_truth(&json, "valid", valid);
    code_complete(code);
    json_bytes(&json, "CRC", code + CODE_SIZE - 1, 1);
    if (kind)
        json_text(&json, "kind", kind->name);
    else
        json_null(&json, "kind");
    return json_end(&json, stdout);
}

static int check_code(uint8_t code[CODE_SIZE], enum reading reading, bool json)
{
    const bool valid = is_valid(code);
    int status;

    if (json) {
        status = checked_json(code, reading, valid);
    } else {
        print_checked(code, reading, valid);
        status = report_flush(stdout);
    }

    return status != DONE ? status : valid ? DONE : NOT_VALID;
}

static int not_a_code(const char *text)
{
    return bad("check: a code such as '08 000000000001 C6', '08 01 00 00 00 00 00 C6' or '08.000000000001' expected, "
               "not '%s'",
               text);
}

/* A code may be given in parts. */
int check_command(struct words *words)
{
    char text[LONGEST] = "";
    uint8_t code[CODE_SIZE];
    enum reading reading;
    bool json = false;
    const struct option options[] = { { "--json", NULL, &json } };
    const int status = options_take(words, options, sizeof options / sizeof *options);

    if (status != DONE)
        return status;
    if (words->count == 0)
        return words_wrong(words, "a code");
    for (size_t i = 0; i < words->count; i++) {
        if (strlen(text) + strlen(words->list[i]) + 2 > sizeof text)
            return not_a_code(words->list[i]);
        strcat(text, i > 0 ? " " : "");
        strcat(text, words->list[i]);
    }
    return code_read(code, &reading, text) ? check_code(code, reading, json) : not_a_code(text);
}
