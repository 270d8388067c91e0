/*
 * A subject is a function of the library that is held against that of the
 * second program.  It makes cases, tries them on both, and explains what
 * differs; the program in tests/compare.c only counts them off.
 */
#ifndef SUBJECT_H
#define SUBJECT_H

#include <stddef.h>
#include <stdint.h>
#include <stdio.h>

/* The number that a case expects to be returned: none, alike will do. */
enum { ANY_NUMBER = 0xFFFF };

/* The name of a group in a table of them; NULL past the last. */
#define GROUP_NAME(groups, group) \
    ((group) < sizeof(groups) / sizeof *(groups) ? (groups)[group].name : NULL)

struct subject {
    const char *name;

    /* Buffers of a subject, and room for one case; goes back with free. */
    void *(*create)(void);

    /* The small cases come in groups; NULL past the last. */
    const char *(*group)(size_t group);

    /* Makes a small case; 0 when the number is past the group's last. */
    int (*small)(void *state, size_t group, size_t number);

    /* Makes the case that a seed and a number determine. */
    void (*generated)(void *state, uint64_t seed, uint64_t number);

    /* Tries the case on both programs; 0 when every output is alike. */
    int (*differs)(void *state);

    /* Says what came out, cutting a case that differs as far as it does. */
    void (*explain)(void *state, FILE *out);

    /* A line on what has been tried so far. */
    void (*summary)(const void *state, FILE *out);
};

/* Room for the state of a subject, all zero; never NULL. */
void *subject_allocate(const char *name, size_t bytes);

extern const struct subject run_subject;
extern const struct subject looked_subject;
extern const struct subject judge_subject;
extern const struct subject search_subject;
extern const struct subject registration_subject;
extern const struct subject feed_subject;
extern const struct subject view_subject;

#endif
