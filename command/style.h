/* Colour where a report goes to a terminal, nowhere else, and not where NO_COLOR is set. */
#ifndef STYLE_H
#define STYLE_H

#include <stdbool.h>
#include <stdio.h>

/* Whether a report may be coloured. */
bool style_wanted(FILE *report);

/* Writes text, bright where wanted. */
void style_bright(FILE *report, bool wanted, const char *text);

#endif
