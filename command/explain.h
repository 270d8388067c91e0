/* Why a session is not accepted, in words. */
#ifndef EXPLAIN_H
#define EXPLAIN_H

#include "findings.h"

#include <stdio.h>

/* The rule and the place, and under them what goes on there. */
void explain(FILE *out, const struct judged *j, const struct findings *f);

#endif
