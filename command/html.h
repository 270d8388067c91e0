/* A run as a page that any browser shows, with nothing to install and nothing from elsewhere. */
#ifndef HTML_H
#define HTML_H

#include "json_reports.h"

/* What such a page starts with. */
#define HTML_START "<!DOCTYPE html>\n<!-- A run of troughiron. -->\n"

void html_write(struct bytes *page, const struct run_outcome *run);

#endif
