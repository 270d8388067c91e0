/*
 * What goes on at the event where a session breaks a rule, found by runs of the library. That it does is the library's
 * word; here the circumstances are looked for, to be named.
 */
#ifndef FINDINGS_H
#define FINDINGS_H

#include "readback.h"
#include "session.h"
#include "troughiron.h"

/* The rules by the library's numbers. */
enum { ACCEPTED = 0, RULE_A = 1, RULE_B = 2, RULE_C = 3 };

struct judged {
    const struct session *session;
    const uint8_t *recorded, *levels; /* the answers that were recorded, and those of the bench */
    uint64_t rule, event;
};

struct findings {
    /* by their index: those that pull low (A), are there to take the command (B), accept the copy (C) */
    size_t devices[TROUGHIRON_MOST_DEVICES];
    size_t count;
    uint8_t command;          /* B: the byte of the memory command */
    struct readback readback; /* C, where the device is found */
};

/* Of a session that is not accepted. */
struct findings findings_of(const struct judged *j);

/* The session as the line carried it. */
struct carried carried_of(const struct judged *j);

#endif
