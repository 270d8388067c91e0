#include "reader.h"

#include "status.h"

#include <stdarg.h>
#include <stdio.h>
#include <stdlib.h>
#include <string.h>

const char blanks[] = " \t\r";

char *next_word(struct reader *r)
{
    char *const word = rest_of_line(r);
    char *const end = word + strcspn(word, blanks);

    r->rest = *end ? end + 1 : end;
    *end = '\0';
    return *word ? word : NULL;
}

char *rest_of_line(struct reader *r)
{
    return r->rest + strspn(r->rest, blanks);
}

const char *shown(char room[SHOWN_ROOM], const char *text)
{
    size_t at = 0;

    for (size_t i = 0; i < SHOWN && text[i]; i++) {
        const bool printable = text[i] >= ' ' && text[i] <= '~';

        at += (size_t)snprintf(room + at, SHOWN_ROOM - at, printable ? "%c" : "\\x%02X", (unsigned char)text[i]);
    }
    snprintf(room + at, SHOWN_ROOM - at, "%s", strlen(text) > SHOWN ? "..." : "");
    return room;
}

int wrong(const struct reader *r, const char *step, const char *expected, const char *found)
{
    char room[SHOWN_ROOM];

    if (!found)
        return wrong_line(r, "%s: %s expected", step, expected);
    return wrong_line(r, "%s: %s expected, not '%s'", step, expected, shown(room, found));
}

int wrong_bytes(const struct reader *r, const char *step, const char *expected, const char *found)
{
    char room[SHOWN_ROOM];

    if (found && *found == '$')
        return wrong_line(r, "%s: nothing was kept as '%s'", step, shown(room, found + 1));
    return wrong(r, step, expected, found);
}

int wrong_line(const struct reader *r, const char *format, ...)
{
    struct bytes text = { 0 };
    va_list arguments;

    va_start(arguments, format);
    bytes_vprint(&text, format, arguments);
    va_end(arguments);

    const int status = bad_line(r->place->file, r->place->line, "%s", (const char *)text.data);

    bytes_free(&text);
    return status;
}

int nothing_after(struct reader *r, const char *step)
{
    const char *const word = next_word(r);

    return word ? wrong(r, step, "nothing more", word) : DONE;
}

bool number_parse(size_t *number, const char *text, size_t most)
{
    if (!*text || strspn(text, "0123456789") != strlen(text) || strlen(text) > 9)
        return false;
    *number = (size_t)strtoul(text, NULL, 10);
    return *number <= most;
}
