#include "status.h"

#include <errno.h>
#include <stdarg.h>
#include <stdio.h>
#include <stdlib.h>
#include <string.h>

static void say(const char *format, va_list arguments)
{
    vfprintf(stderr, format, arguments);
    fputc('\n', stderr);
}

int bad(const char *format, ...)
{
    va_list arguments;

    fputs("troughiron: ", stderr);
    va_start(arguments, format);
    say(format, arguments);
    va_end(arguments);
    return BAD;
}

int bad_line(const char *file, size_t line, const char *format, ...)
{
    va_list arguments;

    fprintf(stderr, "troughiron: %s:%zu: ", file, line);
    va_start(arguments, format);
    say(format, arguments);
    va_end(arguments);
    return BAD;
}

int bad_system(const char *file)
{
    return bad("%s: %s", *file ? file : "''", strerror(errno));
}

int bad_usage(const char *command, const char *format, ...)
{
    va_list arguments;

    fprintf(stderr, "troughiron%s%s: ", *command ? " " : "", command);
    va_start(arguments, format);
    vfprintf(stderr, format, arguments);
    va_end(arguments);
    fprintf(stderr, " (see 'troughiron%s%s --help')\n", *command ? " " : "", command);
    return USAGE;
}

int refused(const char *file, uint32_t refusal, const char *format, ...)
{
    va_list arguments;

    fprintf(stderr, "troughiron: %s: refusal %u: ", file, (unsigned)refusal);
    va_start(arguments, format);
    say(format, arguments);
    va_end(arguments);
    return REFUSED + (int)refusal;
}

_Noreturn void out_of_memory(void)
{
    fputs("troughiron: out of memory\n", stderr);
    exit(BAD);
}
