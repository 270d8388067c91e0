/* The line of a transaction as it is drawn on a page: the steps, each with its bytes. */
#ifndef HTML_LINE_H
#define HTML_LINE_H

#include "report.h"

/* The events from one on up to another. */
void html_line(struct bytes *page, const struct run_outcome *run, size_t first, size_t end);

/* Text with what has a meaning in a page replaced. */
void html_text(struct bytes *page, const char *text, size_t length);

#endif
