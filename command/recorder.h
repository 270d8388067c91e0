/* What happens on a line that is driven live: a log with a line for each transaction, and runs in files. */
#ifndef RECORDER_H
#define RECORDER_H

#include "live.h"
#include "replace.h"

#include <stdio.h>

/* What a log starts with. */
#define LOG_START "# Transactions of troughiron serve: number, presence, and the bytes that the line carried.\n"

struct recorder {
    const char *name; /* runs are written to files of this name, or null */
    FILE *log;        /* or null */
    struct replacing replacing;
    struct bytes image;           /* that the run starts with */
    struct bytes events, answers; /* of the run */
    size_t transaction;           /* where the last transaction of the run starts */
    size_t runs, transactions;    /* that are written */
    int status;                   /* DONE, or what a file that could not be written ends with */
};

/* The files of a run, by number: image, trace, answers and session. A path is the caller's to free. */
enum { RECORDED_FILES = 4 };
char *recorded_path(const char *name, size_t run, size_t file);
enum holding recorded_holding(size_t file);

/* What the recorder hears of the line. */
struct listener recorder_listener(struct recorder *r);

/* The bytes that the line has carried since the last reset of either speed, up to the first slots that are none. */
size_t transaction_bytes(const struct recorder *r, uint8_t *bytes, size_t room);

/* Writes what is not written yet. Returns DONE, or says why not. */
int recorder_end(struct recorder *r);

void recorder_free(struct recorder *r);

#endif
