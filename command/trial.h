/* Trials of sessions as tests: each in a process of its own, several side by side. */
#ifndef TRIAL_H
#define TRIAL_H

#include "bytes.h"

#include <stdbool.h>
#include <stdio.h>
#include <sys/types.h>
#include <time.h>

struct trial {
    const char *path;
    int status; /* that it ended with; DONE for a session that meets all that it expects */
    struct bytes log; /* what it said, without the command's name before each line */
    double seconds;
    bool done;
    /* while it runs */
    pid_t process;
    FILE *said;
    struct timespec start;
};

/* Starts a trial. Returns DONE, or says why not. */
int trial_start(struct trial *t);

/* Waits for one of those that run, and takes in what it said. Returns DONE, or says why not. */
int trial_wait(struct trial *list, size_t count);

#endif
