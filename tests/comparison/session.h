/*
 * Sessions that dice determine: transactions that mostly make sense, on the
 * devices of a bench.
 */
#ifndef SESSION_H
#define SESSION_H

#include "dice.h"
#include "run.h"

#include <stddef.h>
#include <stdint.h>

/*
 * A session being written.  To know the registers a device will have, the
 * second program runs what is written so far, part by part.
 */
struct session {
    struct dice *dice;
    struct trace *trace;
    const struct bench *bench;
    int pulses;     /* whether any are sent */
    int overdrive;  /* whether the master takes devices to be at overdrive */
    size_t start;   /* of the present transaction: its reset */
    size_t fast;    /* from where on it is to be at overdrive; SIZE_MAX: not */
    size_t lapse;   /* where it gets a regular slot then; SIZE_MAX: nowhere */
    size_t learned; /* events that have been run; the next is a reset */
    uint8_t image[BENCH_ROOM]; /* as these events leave it */
    uint8_t now[BENCH_ROOM];   /* as the reset of the transaction leaves it */
    uint8_t answers[TRACE_ROOM];
};

/* A session without events, whose trace is that of a case. */
void session_start(struct session *s, struct dice *dice, struct run_case *c);

/*
 * The reset of the next transaction, at the speed that devices are taken to be
 * at; 0 when there is no room for it.
 */
int session_reset(struct session *s);

/* A command has just been sent after which the devices are at overdrive. */
void session_speed_up(struct session *s);

/* All that comes next is at regular speed, from the next reset on. */
void session_slow_down(struct session *s);

/* Gives the present transaction its speed; to be done before it is used. */
void session_finish(struct session *s);

/* The body of a device as the present transaction's reset leaves it. */
const uint8_t *session_learn(struct session *s, size_t device);

/* From a reset to the end, or cut anywhere. */
void session_transaction(struct session *s, size_t device);

/* The device a transaction is about: mostly the one that others are. */
size_t session_device(struct session *s, size_t favourite);

/* Any event at any place, over another or between two. */
void session_disturb(struct session *s);

/* A whole session, of any number of transactions. */
void some_session(struct dice *dice, struct run_case *c);

#endif
