/* A pseudo-terminal in the place of a serial port. */
#ifndef TERMINAL_H
#define TERMINAL_H

#include <stdbool.h>

struct terminal {
    int file;         /* our side */
    char *name;       /* of the side that a program opens */
    const char *link; /* a symbolic link to that side, or null */
    bool linked;
};

/*
 * Opens one, and makes a link to it, where link is not null, in the place of nothing or of an older link of the kind.
 * Returns DONE, or says why not.
 */
int terminal_open(struct terminal *t, const char *link);

/* The speed that the program has set, in baud. */
unsigned terminal_baud(const struct terminal *t);

void terminal_close(struct terminal *t);

#endif
