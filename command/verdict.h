/* Expectations of a session: bytes of which some may be any, and whether they are met. */
#ifndef VERDICT_H
#define VERDICT_H

#include "reader.h"

struct pattern {
    struct bytes values, any; /* any is 1 where the value is no matter */
    bool open;                /* it ends with "...": what comes after it is no matter */
};

/* Reads the bytes that begin with a word, up to the end of the line. Returns DONE, or says why not. */
int pattern_read(struct pattern *p, struct reader *r, const char *word);

void pattern_free(struct pattern *p);

/* Each gives the step its verdict, and returns DONE. Bytes are compared with as many as the pattern has. */
int conclude(struct reader *r, bool met, const char *expected, const char *got);
int compare(struct reader *r, const struct pattern *p, const uint8_t *got);

/* An expectation of what a device holds, which begins with a word. */
int expect_held(struct reader *r, const char *word);

#endif
