/* What reports for programs have in common with those for readers: devices, and what a run did. */
#ifndef JSON_REPORTS_H
#define JSON_REPORTS_H

#include "findings.h"
#include "image.h"
#include "json.h"
#include "report.h"

/* A device of an image, with all that it holds. */
void json_device(struct json *j, const struct device *device);

/* Why a session is not accepted. */
void json_judged(struct json *j, const struct judged *judged, const struct findings *f);

/* What a run did: its steps, copies, transactions with what each changed, numbers, and what changed in all. */
void json_run(struct json *j, const struct run_outcome *run);

#endif
