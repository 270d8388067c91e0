#include "junit.h"

#include "status.h"

#include <string.h>

/* Text for an attribute or an element. What is no printable ASCII, and no new line, is given by number. */
static void print_text(struct bytes *out, const char *text, size_t length)
{
    static const char special[] = "<>&\"";
    static const char *const names[] = { "&lt;", "&gt;", "&amp;", "&quot;" };

    for (size_t i = 0; i < length; i++) {
        const char *const found = text[i] ? strchr(special, text[i]) : NULL;

        if (found)
            bytes_print(out, "%s", names[found - special]);
        else if (text[i] == '\n' || (text[i] >= ' ' && text[i] <= '~'))
            bytes_print(out, "%c", text[i]);
        else
            bytes_print(out, "\\x%02X", (unsigned char)text[i]);
    }
}

/* An expectation that is not met is a failure; what could not be run is an error. */
static const char *outcome(const struct trial *t)
{
    return t->status == NOT_MET ? "failure" : "error";
}

static void print_trial(struct bytes *out, const struct trial *t)
{
    const char *const log = (const char *)t->log.data;
    const char *const line = t->log.length > 0 ? memchr(log, '\n', t->log.length) : NULL;

    bytes_print(out, "    <testcase classname=\"sessions\" name=\"");
    print_text(out, t->path, strlen(t->path));
    bytes_print(out, "\" time=\"%.3f\"", t->seconds);
    if (t->status == DONE) {
        bytes_print(out, "/>\n");
        return;
    }
    bytes_print(out, ">\n      <%s message=\"", outcome(t));
    print_text(out, log, line ? (size_t)(line - log) : t->log.length);
    bytes_print(out, "\">");
    print_text(out, log, t->log.length);
    bytes_print(out, "</%s>\n    </testcase>\n", outcome(t));
}

static void print_counts(struct bytes *out, const struct trial *list, size_t count)
{
    size_t failures = 0, errors = 0;
    double seconds = 0;

    for (size_t i = 0; i < count; i++) {
        failures += list[i].status == NOT_MET;
        errors += list[i].status != DONE && list[i].status != NOT_MET;
        seconds += list[i].seconds;
    }
    bytes_print(out, " tests=\"%zu\" failures=\"%zu\" errors=\"%zu\" time=\"%.3f\">\n", count, failures, errors,
                seconds);
}

void junit_write(struct bytes *out, const struct trial *list, size_t count)
{
    bytes_print(out, JUNIT_START);
    print_counts(out, list, count);
    bytes_print(out, "  <testsuite name=\"sessions\"");
    print_counts(out, list, count);
    for (size_t i = 0; i < count; i++)
        print_trial(out, &list[i]);
    bytes_print(out, "  </testsuite>\n</testsuites>\n");
}
