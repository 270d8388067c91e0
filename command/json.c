#include "json.h"

#include "outputs.h"
#include "troughiron.h"

#include <string.h>

/* ------------------------------------------------------------------ */
/* Texts                                                               */

/* The length of the character of UTF-8 that bytes start with, or 0 where they start with none. */
static size_t utf8_length(const char *text)
{
    const unsigned char first = (unsigned char)*text;
    const size_t length = first < 0x80 ? 1 : first >= 0xC2 && first < 0xE0 ? 2 : first >= 0xE0 && first < 0xF0 ? 3
                        : first >= 0xF0 && first < 0xF5 ? 4 : 0;
    const unsigned char second = length > 1 ? (unsigned char)text[1] : 0;

    for (size_t i = 1; i < length; i++)
        if (((unsigned char)text[i] & 0xC0) != 0x80)
            return 0;
    /* Longer than it need be, half of a pair, or past the last character. */
    if ((first == 0xE0 && second < 0xA0) || (first == 0xED && second > 0x9F) || (first == 0xF0 && second < 0x90) ||
        (first == 0xF4 && second > 0x8F))
        return 0;
    return length;
}

/* A byte that is no character, as in the name of a file, is given as the character of its number. */
static void add_text(struct bytes *out, const char *text)
{
    bytes_print(out, "\"");
    for (size_t length; *text; text += length > 0 ? length : 1) {
        length = utf8_length(text);
        if (*text == '"' || *text == '\\')
            bytes_print(out, "\\%c", *text);
        else if (length == 0 || (*text >= 0 && *text < ' '))
            bytes_print(out, "\\u%04X", (unsigned char)*text);
        else
            bytes_add(out, text, length);
    }
    bytes_print(out, "\"");
}

/* ------------------------------------------------------------------ */
/* Values                                                              */

/* A comma after the value before, a new line, and the name. */
static void begin(struct json *j, const char *name)
{
    if (j->after)
        bytes_print(&j->text, ",");
    if (j->depth > 0)
        bytes_print(&j->text, "\n%*s", 2 * j->depth, "");
    if (name)
        bytes_print(&j->text, "\"%s\": ", name);
    j->after = true;
}

void json_open(struct json *j, const char *name, char bracket)
{
    begin(j, name);
    bytes_print(&j->text, "%c", bracket);
    j->depth++;
    j->after = false;
}

void json_close(struct json *j, char bracket)
{
    j->depth--;
    if (j->after)
        bytes_print(&j->text, "\n%*s", 2 * j->depth, "");
    bytes_print(&j->text, "%c", bracket);
    j->after = true;
}

void json_text(struct json *j, const char *name, const char *text)
{
    begin(j, name);
    add_text(&j->text, text);
}

void json_number(struct json *j, const char *name, uint64_t number)
{
    begin(j, name);
    bytes_print(&j->text, "%llu", (unsigned long long)number);
}

void json_truth(struct json *j, const char *name, bool truth)
{
    begin(j, name);
    bytes_print(&j->text, "%s", truth ? "true" : "false");
}

void json_null(struct json *j, const char *name)
{
    begin(j, name);
    bytes_print(&j->text, "null");
}

/* Each number by one hexadecimal digit or by two. */
static void add_digits(struct json *j, const char *name, bool pairs, const uint8_t *bytes, size_t count)
{
    static const char hexadecimal[] = "0123456789ABCDEF";

    begin(j, name);
    bytes_print(&j->text, "\"");
    for (size_t i = 0; i < count; i++) {
        if (pairs)
            bytes_add(&j->text, &hexadecimal[bytes[i] >> 4], 1);
        bytes_add(&j->text, &hexadecimal[bytes[i] & 15], 1);
    }
    bytes_print(&j->text, "\"");
}

void json_bytes(struct json *j, const char *name, const uint8_t *bytes, size_t count)
{
    add_digits(j, name, true, bytes, count);
}

void json_digits(struct json *j, const char *name, const uint8_t *numbers, size_t count)
{
    add_digits(j, name, false, numbers, count);
}

void json_print(struct json *j, const char *name, const char *format, ...)
{
    va_list arguments;

    begin(j, name);
    bytes_print(&j->text, "\"");
    va_start(arguments, format);
    bytes_vprint(&j->text, format, arguments);
    va_end(arguments);
    bytes_print(&j->text, "\"");
}

/* ------------------------------------------------------------------ */
/* Whole reports                                                       */

void json_start(struct json *j, const char *command)
{
    json_open(j, NULL, '{');
    json_text(j, "troughiron", TROUGHIRON_VERSION);
    json_text(j, "report", command);
}

int json_end(struct json *j, FILE *out)
{
    json_close(j, '}');
    bytes_print(&j->text, "\n");
    fwrite(j->text.data, 1, j->text.length, out);
    bytes_free(&j->text);
    return report_flush(out);
}
