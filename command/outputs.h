/*
 * The files that a command writes. All of them are staged, each in a temporary file beside its place, before the first
 * is put into its place: whatever fails, a file is there as it was or complete.
 */
#ifndef OUTPUTS_H
#define OUTPUTS_H

#include "replace.h"

#include <stddef.h>
#include <stdio.h>

enum { MOST_OUTPUTS = 7 };

struct output {
    const char *path;
    enum holding holding;
    bool fresh; /* nothing is in the place */
    char *place;     /* path with its symbolic links followed */
    char *temporary; /* null where the place is written itself: standard output, a device, a pipe */
    const void *bytes;
    size_t length;
};

struct outputs {
    struct output list[MOST_OUTPUTS];
    size_t count;
    struct replacing replacing; /* of files that are there */
};

/*
 * Stages bytes, which must stay until the commit, for a path, or for standard output with "-". A path of null is none.
 * Returns DONE, or says why not.
 */
int outputs_stage(struct outputs *o, const char *path, enum holding holding, const void *bytes, size_t length);

/* Flushes the report, then puts every file into its place. Returns DONE, or says why not. */
int outputs_commit(struct outputs *o, FILE *report);

/* Removes what is staged and not in its place. */
void outputs_free(struct outputs *o);

/* Flushes a report. Returns DONE, or says why not. */
int report_flush(FILE *report);

#endif
