/*
 * Which cause of a refusal is there. That there is one is the library's word; here it is only looked for, to be named.
 */
#ifndef CAUSE_H
#define CAUSE_H

#include "bytes.h"
#include "session.h"

/* Each says on one line why the library refused, and returns the exit status. */
int image_refused(const char *name, const struct bytes *image, uint32_t refusal);
int run_refused(const struct session *s, const struct bytes *image, size_t room, uint32_t refusal);

#endif
