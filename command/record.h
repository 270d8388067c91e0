/* What run and search leave behind: the session with its answers, and the files that are asked for. */
#ifndef RECORD_H
#define RECORD_H

#include "bytes.h"
#include "replace.h"
#include "report.h"

#include <stdio.h>

/* Paths, "-" for standard output, or null; and what of the files that are there may be replaced. */
struct record_paths {
    const char *image, *answers, *trace, *vcd, *html;
    struct replacing replacing;
};

/*
 * Where the report goes: standard error where a file takes standard output. Null, with a word, where two files have the
 * same place.
 */
FILE *record_report(const char *command, const struct record_paths *paths);

/* Writes the files that are asked for, after the report; the page is given. Returns DONE, or says why not. */
int record_write(const struct record_paths *paths, FILE *report, const struct run_outcome *run,
                 const struct bytes *page);

#endif
