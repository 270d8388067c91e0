/*
 * Buffers that end where reading or writing on is a fault, and calls that come
 * back even if they fault or never end.
 */
#ifndef GUARDED_H
#define GUARDED_H

#include <stddef.h>
#include <stdint.h>

/* Memory whose last byte is the last before an unreadable page. */
struct guarded {
    uint8_t *end;
    size_t room;
};

struct guarded guarded_create(size_t room);

/*
 * The last so many bytes, at most the room.  A few bytes in front of them get
 * a mark; no bytes at all start right at the unreadable page.
 */
uint8_t *guarded_take(const struct guarded *g, size_t length);

/* Whether the mark in front of the last so many bytes is still there. */
int guarded_mark_kept(const struct guarded *g, size_t length);

/* How a call ended: signal 0 if it came back. */
struct fault {
    int signal;
    const uint8_t *address; /* that was read or written, where it is known */
};

/* Whether a fault is at the unreadable page, and how far past the end. */
int guarded_overrun(const struct guarded *g, struct fault fault,
                    size_t *distance);

/* To be called once, before any guarded_call. */
void guarded_prepare(void);

/* Calls a function, and comes back after some seconds at the latest. */
struct fault guarded_call(void (*function)(void *), void *argument);

#endif
