/* What the command ends with, and how it says why. */
#ifndef STATUS_H
#define STATUS_H

#include <stddef.h>
#include <stdint.h>

/* Exit statuses. A refusal of the library ends with REFUSED plus its number. */
enum {
    DONE = 0,
    BAD = 1,          /* bad input, or the system does not give what is needed */
    USAGE = 2,        /* the command line is not one that the command knows */
    NOT_VALID = 3,    /* check: the code is not valid */
    NOT_ACCEPTED = 4, /* judge: the session breaks a rule */
    NOT_MET = 5,      /* a session: an expectation is not met */
    REFUSED = 10
};

/* Each writes one line to standard error and returns the exit status. */
int bad(const char *format, ...) __attribute__((format(printf, 1, 2)));
int bad_line(const char *file, size_t line, const char *format, ...) __attribute__((format(printf, 3, 4)));
int bad_system(const char *file); /* with the cause in errno */
int bad_usage(const char *command, const char *format, ...) __attribute__((format(printf, 2, 3)));
int refused(const char *file, uint32_t refusal, const char *format, ...) __attribute__((format(printf, 3, 4)));

/* Ends the program: no memory is left. Files are replaced only after the last allocation. */
_Noreturn void out_of_memory(void);

#endif
