/* What is run: an image and a session, or a session that names its bench, or an image and raw events. */
#ifndef INPUTS_H
#define INPUTS_H

#include "options.h"
#include "session.h"

struct inputs {
    const char *command;
    const char *image, *session; /* paths; the image is null where the session has a bench of its own */
    bool raw;                    /* the session is raw events */
};

/* Takes them from the words of a command; trace is the path of raw events, or null. Returns DONE, or says why not. */
int inputs_take(struct inputs *i, const struct words *words, const char *trace);

/* Reads them into a session. Returns DONE, or says why not. */
int inputs_read(const struct inputs *i, struct session *s);

/* Whether a path, which may be null, is standard input. */
bool is_standard_input(const char *path);

#endif
