/*
 * What is claimed of the whole of a search, looked at in the library's outputs
 * alone: the codes, the trace, its run on the same image, and a fresh master
 * that is given the answers.
 */
#include "search.h"

#include "probe.h"
#include "trace.h"
#include "troughiron.h"

#include <stdlib.h>
#include <string.h>

size_t search_code_room(size_t devices)
{
    return CODE_BYTES * devices;
}

size_t search_trace_room(size_t devices)
{
    return devices == 0 ? 1 : PASS_EVENTS * devices;
}

/* ------------------------------------------------------------------ */
/* The codes                                                           */

static int codes_are_the_devices(const struct bench *b, const uint8_t *codes)
{
    uint8_t wanted[MOST_CODE_BYTES];

    for (size_t i = 0; i < b->count; i++)
        memcpy(wanted + CODE_BYTES * i, bench_see(b, i, 0), CODE_BYTES);
    if (b->count == 0)
        return 1;
    qsort(wanted, b->count, CODE_BYTES, code_order);
    return memcmp(wanted, codes, CODE_BYTES * b->count) == 0;
}

/* ------------------------------------------------------------------ */
/* The trace                                                           */

/* Each pass is a reset, the command, and 64 times two reads, one direction. */
static int pass_leads_to(const uint8_t *pass, const uint8_t *code)
{
    struct trace wanted;

    wanted.length = 0;
    trace_search(&wanted, code);
    return wanted.length == PASS_EVENTS
           && memcmp(wanted.events, pass, PASS_EVENTS) == 0;
}

static int passes_lead_to_the_codes(size_t count,
                                    const struct search_found *found)
{
    for (size_t i = 0; i < count; i++)
        if (!pass_leads_to(found->trace + PASS_EVENTS * i,
                           found->codes + CODE_BYTES * i))
            return 0;
    return count > 0 || found->trace[0] == RESET;
}

static int counts_are_of_the_trace(size_t events,
                                   const struct search_found *found)
{
    uint64_t passes = 0, resets = 0, slots = 0;

    for (size_t i = 0; i < events; i++)
        if (found->trace[i] == RESET)
            resets++;
        else if (found->trace[i] <= WRITE_ONE) {
            slots++;
            passes += i > 0 && found->trace[i - 1] == RESET;
        }
    return found->passes == passes && found->resets == resets
           && found->slots == slots;
}

static int counts_are_of_the_devices(size_t count,
                                     const struct search_found *found)
{
    return found->passes == count && found->resets == (count ? count : 1)
           && found->slots == 200 * count;
}

/* ------------------------------------------------------------------ */
/* The run of the trace, and the master fed with its answers           */

static int trace_can_be_run(const struct bench *b, const uint8_t *trace,
                            size_t events, uint8_t *answers)
{
    static uint8_t image[BENCH_ROOM];
    uint64_t copied;

    memcpy(image, b->bytes, b->length);
    return troughiron_run(image, b->length, trace, events, answers, events,
                          &copied)
               == 0
           && copied == 0 && memcmp(image, b->bytes, b->length) == 0;
}

static int master_goes_the_same_way(size_t count, size_t events,
                                    const struct search_found *found,
                                    const uint8_t *answers)
{
    static uint8_t trace[MOST_SEARCH_EVENTS + 1];
    uint8_t codes[MOST_CODE_BYTES];
    uint64_t sent, completed;

    return probe_drive(answers, events, trace, sizeof trace, codes,
                       sizeof codes, &sent, &completed)
               == 0
           && sent == events && completed == count
           && memcmp(trace, found->trace, events) == 0
           && (count == 0
               || memcmp(codes, found->codes, CODE_BYTES * count) == 0);
}

const char *search_claim_broken(const struct bench *b,
                                const struct search_found *found)
{
    static uint8_t answers[MOST_SEARCH_EVENTS];
    const size_t events = search_trace_room(b->count);

    if (!codes_are_the_devices(b, found->codes))
        return "every device's code once, ordered by bit 0 first";
    if (!passes_lead_to_the_codes(b->count, found))
        return "a pass of 201 events for each code, or one reset";
    if (!counts_are_of_the_trace(events, found))
        return "passes, resets and slots are those of the trace";
    if (!counts_are_of_the_devices(b->count, found))
        return "passes, resets and slots are n, n and 200n, or 0, 1 and 0";
    if (!trace_can_be_run(b, found->trace, events, answers))
        return "the trace can be run, copies nothing and leaves the image";
    if (!master_goes_the_same_way(b->count, events, found, answers))
        return "a master given the run's answers sends this trace again";
    return NULL;
}
