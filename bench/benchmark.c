/*
 * How fast the library is, beside the second program: the run of long traces,
 * the judge of recorded ones and the search, for few devices and many.
 */
#include "measure.h"
#include "workload.h"

#include <stdio.h>

enum { FEW_EVENTS = 1000, PASS_EVENTS = 201 };

/* What a row of the tables is about, and the times of its columns. */
struct row {
    const struct workload *workload;
    size_t sizes; /* numbers of devices */
    struct times by_size[SIZES];
    size_t events[SIZES];
    struct times few; /* FEW_EVENTS events, with the most devices */
};

static double per_event(const struct row *r, size_t size, enum program p)
{
    return r->by_size[size].of[p] / (double)r->events[size];
}

static double per_device_and_event(const struct row *r, size_t size,
                                   enum program p)
{
    return per_event(r, size, p) / (double)r->workload->devices[size];
}

/* ------------------------------------------------------------------ */
/* Measuring                                                           */

static struct bench bench;
static struct trace trace;

static struct times measure(enum task task)
{
    switch (task) {
    case SEARCH:
        return measure_search(&bench);
    case JUDGE:
        return measure_judge(&bench, &trace);
    default:
        return measure_run(&bench, &trace);
    }
}

static struct row measure_workload(const struct workload *w)
{
    struct row r = { .workload = w };

    while (r.sizes < SIZES && w->devices[r.sizes] > 0) {
        const size_t devices = w->devices[r.sizes];

        workload_make(w, devices, MOST_EVENTS, &bench, &trace);
        r.by_size[r.sizes] = measure(w->task);
        r.events[r.sizes++] =
            w->task == SEARCH ? PASS_EVENTS * devices : MOST_EVENTS;
    }
    trace.length = FEW_EVENTS;
    if (w->task != SEARCH)
        r.few = measure(w->task);
    return r;
}

/* ------------------------------------------------------------------ */
/* Showing                                                             */

static void show_head(void)
{
    printf("Ratio: the second program's time divided by the library's; 1.00 is"
           " as fast.\n\n"
           "%-29s %7s  %-21s  %-19s  %5s\n"
           "%-29s %7s  %10s %10s  %9s %9s\n",
           "", "", "events per second", "ns per device, slot", "ratio", "",
           "devices", "library", "second", "library", "second");
}

static void show_row(const struct row *r)
{
    for (size_t i = 0; i < r->sizes; i++)
        printf("%-29s %7zu  %10.0f %10.0f  %9.2f %9.2f  %5.2f\n",
               i == 0 ? r->workload->name : "", r->workload->devices[i],
               1 / per_event(r, i, LIBRARY), 1 / per_event(r, i, SECOND),
               1e9 * per_device_and_event(r, i, LIBRARY),
               1e9 * per_device_and_event(r, i, SECOND),
               r->by_size[i].of[SECOND] / r->by_size[i].of[LIBRARY]);
}

static void show_growth_head(void)
{
    printf("\nGrowth: how many times more it costs, divided by how many times"
           " more there is to do;\n1.00 is in proportion. The most devices are"
           " 64, or 7 DS1996; the second pair is with these.\n\n"
           "%-29s  %-17s  %-17s\n%-29s  %8s %8s  %8s %8s\n",
           "", "1 to most devices", "1,000 to 32,768 events", "", "library",
           "second", "library", "second");
}

static double growth_by_devices(const struct row *r, enum program p)
{
    return per_device_and_event(r, r->sizes - 1, p)
           / per_device_and_event(r, 0, p);
}

static double growth_by_events(const struct row *r, enum program p)
{
    return per_event(r, r->sizes - 1, p) / (r->few.of[p] / FEW_EVENTS);
}

static void show_growth(const struct row *r)
{
    printf("%-29s  %8.2f %8.2f", r->workload->name,
           growth_by_devices(r, LIBRARY), growth_by_devices(r, SECOND));
    if (r->few.of[LIBRARY] > 0)
        printf("  %8.2f %8.2f", growth_by_events(r, LIBRARY),
               growth_by_events(r, SECOND));
    printf("\n");
}

int main(void)
{
    enum { MOST_ROWS = 32 };
    struct row rows[MOST_ROWS];
    size_t count = 0;

    show_head();
    for (const struct workload *w = workloads; w->name; w++) {
        rows[count] = measure_workload(w);
        show_row(&rows[count++]);
    }
    show_growth_head();
    for (size_t i = 0; i < count; i++)
        show_growth(&rows[i]);
    return 0;
}
