/* What a tester does with the devices while a program drives the line: commands at once, or at a moment of a script. */
#ifndef STAGING_H
#define STAGING_H

#include "live.h"
#include "recorder.h"

/* A command that waits for its moment. */
struct moment {
    size_t line; /* of the script */
    bool done;
    uint64_t resets;   /* after so many, or 0 */
    uint8_t bytes[16]; /* once the line has carried these in one transaction */
    size_t count;
    char *command;
};

struct staging {
    struct live *live;
    struct replacing replacing;
    const char *script; /* its name */
    struct moment *moments;
    size_t count, room;
    bool quit;
};

/* Does a command. Returns DONE, or says why not. */
int staging_do(struct staging *s, const char *command);

/* Reads a script. Returns DONE, or says why not. */
int staging_read(struct staging *s, const char *path);

/* Does the commands whose moment has come. */
void staging_look(struct staging *s, const struct recorder *r);

void staging_free(struct staging *s);

#endif
