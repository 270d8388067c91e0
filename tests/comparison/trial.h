/*
 * One call, made on both programs, each with buffers of its own that end where
 * reading on is a fault; and the first output that is not alike.
 */
#ifndef TRIAL_H
#define TRIAL_H

#include "guarded.h"

#include <stddef.h>
#include <stdint.h>
#include <stdio.h>

enum { LIBRARY, SECOND, PROGRAMS };
enum { MOST_BUFFERS = 4, MOST_NUMBERS = 4 };

/* No level and no event, so that a byte that is not written shows. */
enum { UNWRITTEN = 0xA5 };
#define UNWRITTEN_NUMBER UINT64_C(0xA5A5A5A5A5A5A5A5)

/* What a program is given, and the numbers that it hands back. */
struct given {
    const void *arguments; /* what is neither a buffer nor a number */
    uint8_t *buffers[MOST_BUFFERS];
    size_t lengths[MOST_BUFFERS];
    uint64_t numbers[MOST_NUMBERS]; /* the first is the one returned */
};

/* The form of a call.  Names end at the first NULL. */
struct form {
    void (*functions[PROGRAMS])(struct given *g);
    struct {
        const char *name;
        size_t room;
        int only_read;
    } buffers[MOST_BUFFERS];
    const char *numbers[MOST_NUMBERS];
};

struct trial {
    const struct form *form;
    struct guarded rooms[PROGRAMS][MOST_BUFFERS];
    const uint8_t *before[MOST_BUFFERS]; /* NULL: UNWRITTEN bytes */
    struct given given[PROGRAMS];
    struct fault faults[PROGRAMS];
};

/* What is not right, in the order it is looked at. */
enum aspect {
    ALIKE,
    FAULT,     /* a program did not come back */
    NUMBER,    /* handed back */
    BYTE,      /* of a buffer */
    ONLY_READ, /* a program wrote into a buffer that it only reads */
    IN_FRONT,  /* a program wrote in front of a buffer */
    PAST_END,  /* alike, but both wrote past what they hand back */
    CLAIM      /* alike, but not what is said of it */
};

struct difference {
    enum aspect aspect;
    int program;       /* that did it, where one did */
    size_t which;      /* buffer or number */
    size_t place;      /* byte of the buffer */
    const char *claim; /* that does not hold */
};

void trial_create(struct trial *t, const struct form *form);

/*
 * Lends each program a buffer with these bytes, or where they are NULL with
 * UNWRITTEN ones.  An empty one can be a null pointer.
 */
void trial_lend(struct trial *t, size_t buffer, const uint8_t *bytes,
                size_t length, int null);

/* Makes the call on both.  All buffers have been lent. */
struct difference trial_call(struct trial *t, const void *arguments);

/* What the library returned, and one of its buffers as it left it. */
uint64_t trial_returned(const struct trial *t);
const uint8_t *trial_bytes(const struct trial *t, size_t buffer);

/* Whether the library left a buffer as it was, from a place on. */
int trial_kept(const struct trial *t, size_t buffer, size_t from);

struct difference trial_claim(const char *claim);

/*
 * What is claimed of a call that is alike so far: the number returned, unless
 * any will do; and that a buffer is as it was from a place on.
 */
struct difference trial_expect(const struct trial *t, struct difference d,
                               unsigned number);
struct difference trial_expect_kept(const struct trial *t,
                                    struct difference d, size_t buffer,
                                    size_t from);

/* Whether one of the programs did not come back in time. */
int trial_hangs(const struct trial *t);

/*
 * Whether a difference is one to be looked for in less of the same input: a
 * claim need not hold of that, and a call that hangs takes too long.
 */
int trial_can_be_cut(const struct trial *t, struct difference d);

void trial_explain(FILE *out, const struct trial *t, struct difference d);

#endif
