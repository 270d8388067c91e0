/* The outcome of trials as a JUnit file, which build servers read. */
#ifndef JUNIT_H
#define JUNIT_H

#include "trial.h"

/* What such a file starts with. */
#define JUNIT_START "<?xml version=\"1.0\" encoding=\"UTF-8\"?>\n<testsuites name=\"troughiron\""

void junit_write(struct bytes *out, const struct trial *list, size_t count);

#endif
