/* What a file holds that the command writes, and whether one that is there already may be replaced. */
#ifndef REPLACE_H
#define REPLACE_H

#include <stdbool.h>

enum holding {
    HOLDS_IMAGE,
    HOLDS_ANSWERS,
    HOLDS_TRACE,
    HOLDS_WAVEFORM,
    HOLDS_SAVE,
    HOLDS_STEPS,
    HOLDS_SESSION,
    HOLDS_LOG,
    HOLDS_JUNIT,
    HOLDS_MEMORY,
    HOLDS_PAGE
};

/* What was asked for: -f, and the image that was read, or null, which may be written over as it was named twice. */
struct replacing {
    bool forced;
    const char *own;
};

/* Whether a file that is there may be replaced by one that holds something. Returns DONE, or says why not. */
int replace_allowed(const struct replacing *asked, const char *path, enum holding holding);

/* Says that a file is there already, and what replaces it. */
int replace_refused(const char *path);

#endif
