/* A signal that asks for the end is kept waiting while temporary files are there, so that none is left. */
#ifndef INTERRUPT_H
#define INTERRUPT_H

#include <stdbool.h>

/* From here on an interruption is only noted. What waits for the system then ends with EINTR. */
void interrupt_defer(void);

/* Whether one was noted. */
bool interrupted(void);

/*
 * For a command that goes on until it is interrupted: an interruption is only noted from here on, whatever else allows
 * or asks for one, and is asked for here. Nothing that is being written is cut off by it.
 */
void interrupt_keep(void);
bool interrupt_kept(void);

/* Interruptions end the command again; one that was noted ends it now. */
void interrupt_allow(void);

#endif
