/* Benches to be made: the words for devices, as in "3xds1992 ds1993:000000FBC52B@memory.bin", and their image. */
#ifndef BENCH_H
#define BENCH_H

#include "bytes.h"
#include "kind.h"

/* What the count of an image can say; how many of them the library accepts is the library's to say. */
enum { MOST_PLANNED = 255 };

/* A device to be made. */
struct plan {
    const struct kind *kind;
    bool flat;
    bool has_serial;
    uint64_t serial;
    char *memory; /* the path of a file, or null */
};

struct bench {
    struct plan plans[MOST_PLANNED];
    size_t count;
    uint64_t next_serial;
    bool filled; /* with fill, else as a new device is */
    uint8_t fill;
    const char *memory; /* the path of a file for every device without one, or null */
    const struct bytes *others; /* an image whose devices come before these, or null */
    const char *beside; /* a file beside which those of the words are, or null: in the working folder */
};

/* Adds the devices of a word to those to be made. Returns null, or what was expected in its place. */
const char *bench_add(struct bench *b, const char *word);

/* How many memories are to come from standard input. */
size_t bench_from_input(const struct bench *b);

/* Writes the image. A file or the library can refuse it, which is then said of a name. Returns the exit status. */
int bench_image(struct bytes *image, struct bench *b, const char *name);

void bench_free(struct bench *b);

#endif
