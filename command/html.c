#include "html.h"

#include "event.h"
#include "html_line.h"
#include "status.h"

#include <stdlib.h>
#include <string.h>

/* A session with more events is shown folded, but for its first transaction. */
enum { AT_A_GLANCE = 600 };

static const char style[] =
    "<style>\n"
    ":root { color-scheme: light dark; --line: #1a1a1a; --device: #c2410c; --dim: #666; --box: #d4d4d4;\n"
    "  --bad: #b91c1c; --paper: #fff; --fast: #ecfdf5; }\n"
    "@media (prefers-color-scheme: dark) {\n"
    "  :root { --line: #e5e5e5; --device: #fb923c; --dim: #a3a3a3; --box: #404040; --bad: #f87171;\n"
    "    --paper: #171717; --fast: #12291f; }\n"
    "}\n"
    "body { margin: 1rem auto; max-width: 76rem; padding: 0 1rem; background: var(--paper); color: var(--line);\n"
    "  font: 1rem/1.4 system-ui, sans-serif; }\n"
    "h1 { font-size: 1.3rem; overflow-wrap: anywhere; }\n"
    "details { border-top: 1px solid var(--box); padding: .5rem 0; }\n"
    "summary { cursor: pointer; font-weight: 600; }\n"
    ".line { display: flex; flex-wrap: wrap; gap: .6rem .9rem; margin: .6rem 0; }\n"
    ".step > span { font-size: .8rem; color: var(--dim); overflow-wrap: anywhere; }\n"
    ".step > div { display: flex; flex-wrap: wrap; }\n"
    "figure { margin: 0; text-align: center; border-left: 1px dotted var(--box);\n"
    "  font: .75rem/1.2 ui-monospace, monospace; }\n"
    "figure.not { color: var(--bad); }\n"
    "figure[data-fast] { background: var(--fast); }\n"
    "figcaption i { color: var(--dim); font-style: normal; }\n"
    "svg { display: block; }\n"
    "path { fill: none; stroke: var(--line); stroke-width: 1.5; }\n"
    "path.device { stroke: var(--device); stroke-width: 3; }\n"
    "pre { overflow-x: auto; margin: .3rem 0; font: .8rem/1.35 ui-monospace, monospace; }\n"
    "</style>\n";

/* ------------------------------------------------------------------ */
/* Text                                                                */

void html_text(struct bytes *page, const char *text, size_t length)
{
    for (size_t i = 0; i < length; i++) {
        if (text[i] == '<')
            bytes_print(page, "&lt;");
        else if (text[i] == '>')
            bytes_print(page, "&gt;");
        else if (text[i] == '&')
            bytes_print(page, "&amp;");
        else
            bytes_add(page, text + i, 1);
    }
}

static void add_pre(struct bytes *page, const char *text, size_t length)
{
    bytes_print(page, "<pre>");
    html_text(page, text, length);
    bytes_print(page, "</pre>\n");
}

static void add_head(struct bytes *page, const char *name)
{
    bytes_print(page, HTML_START "<html lang=\"en\">\n<meta charset=\"utf-8\">\n"
                                 "<meta name=\"viewport\" content=\"width=device-width\">\n<title>");
    html_text(page, name, strlen(name));
    bytes_print(page, "</title>\n%s<h1>", style);
    html_text(page, name, strlen(name));
    bytes_print(page, "</h1>\n<p>The line, byte by byte; a <span style=\"color: var(--device)\">thick stroke</span> is "
                      "a low that devices hold. Under each byte: what the master sent, and what the line answered; "
                      "<span style=\"background: var(--fast)\">shaded</span>: at overdrive.</p>\n");
}

/* ------------------------------------------------------------------ */
/* Transactions                                                        */

/* The report of a run as text, and where the transactions start in it. */
struct told {
    char *text;
    size_t length;
    struct bytes starts; /* longs */
};

static struct told tell(const struct run_outcome *run)
{
    struct told told = { 0 };
    FILE *const out = open_memstream(&told.text, &told.length);

    if (!out)
        out_of_memory();
    report_run(out, run, false, &told.starts);
    if (fclose(out) != 0)
        out_of_memory();
    return told;
}

static size_t start_of(const struct told *told, size_t index)
{
    long place;

    if (index >= told->starts.length / sizeof place)
        return told->length;
    memcpy(&place, told->starts.data + index * sizeof place, sizeof place);
    return (size_t)place;
}

/* The end of the transaction that starts at an event: the next reset, or the end of all. */
static size_t transaction_end(const struct bytes *events, size_t first)
{
    size_t end = first + 1;

    while (end < events->length && !is_regular_reset(events->data[end]))
        end++;
    return end;
}

static void add_transaction(struct bytes *page, const struct run_outcome *run, size_t number, size_t first, size_t end)
{
    const bool open = run->session->events.length <= AT_A_GLANCE || number == 1;

    bytes_print(page, "<details%s>\n<summary>Transaction %zu: events %zu to %zu, %s</summary>\n", open ? " open" : "",
                number, first, end - 1, run->answers[first] ? "no presence" : "presence");
    html_line(page, run, first, end);
}

/* The last part of the report, which begins after an empty line, is of the whole run. */
static size_t end_of_steps(const struct told *told)
{
    const char *at = strstr(told->text, "\n\n");

    return at ? (size_t)(at - told->text) + 1 : told->length;
}

void html_write(struct bytes *page, const struct run_outcome *run)
{
    const struct bytes *const events = &run->session->events;
    struct told told = tell(run);
    const size_t steps = end_of_steps(&told);
    size_t number = 0;

    add_head(page, run->session->name);
    add_pre(page, told.text, start_of(&told, 0) < steps ? start_of(&told, 0) : steps);
    for (size_t first = 0, end; first < events->length; first = end, number++) {
        const size_t from = start_of(&told, number), to = start_of(&told, number + 1);

        end = transaction_end(events, first);
        add_transaction(page, run, number + 1, first, end);
        add_pre(page, told.text + from, (to < steps ? to : steps) - from);
        bytes_print(page, "</details>\n");
    }
    add_pre(page, told.text + steps, told.length - steps);
    bytes_print(page, "</html>\n");
    free(told.text);
    bytes_free(&told.starts);
}
