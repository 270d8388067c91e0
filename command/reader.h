/* The reader of a session's text, and what the functions that read a step share. */
#ifndef READER_H
#define READER_H

#include "code.h"
#include "session.h"
#include "sofar.h"

/* Lines that are read again, from one on. */
struct loop {
    char *start;
    size_t line;
    size_t left; /* times, this one among them */
    bool bad;    /* its line is bad, which has been said */
};

enum { MOST_LOOPS = 8, MOST_INCLUDED = 8 };

/* Where a text is read: its file, its line, and the lines after it. */
struct place {
    const char *path, *file; /* file is what messages call it */
    size_t line;
    char *next, *end;
    struct loop loops[MOST_LOOPS];
    size_t loop_count;
};

/* Something that a session gave a name: a device, by its index, or bytes. */
struct named {
    char *name;
    size_t device;
    struct bytes bytes;
};

struct names {
    struct named *list;
    size_t count;
};

struct reader {
    struct session *session;
    bool has_bench; /* the image, or one that the session names */
    struct place *place;
    size_t depth; /* of texts that are included */
    size_t again; /* lines that came by repeat and include */
    struct bytes line;
    char *rest; /* of the line */
    bool overdrive; /* the speed of the master */
    struct names devices, kept;
    struct bytes sent; /* by the last send */
    struct sofar sofar;
    int status;
    bool stopped; /* no further line is read */
};

/* ------------------------------------------------------------------ */
/* Words and messages                                                  */

extern const char blanks[];

/* The next word of the line, or null; it is cut off the rest. */
char *next_word(struct reader *r);

/* What is left of the line, without blanks before it. */
char *rest_of_line(struct reader *r);

/* Words for a message: the start of a long one, and bytes that are no printable ASCII by number. */
enum { SHOWN = 40, SHOWN_ROOM = 4 * SHOWN + sizeof "..." };
const char *shown(char room[SHOWN_ROOM], const char *text);

/* Says that a step expects something, and not what was found, which may be null. Returns BAD. */
int wrong(const struct reader *r, const char *step, const char *expected, const char *found);

/* The same of bytes, of which those that were kept begin with a dollar. */
int wrong_bytes(const struct reader *r, const char *step, const char *expected, const char *found);

/* Says what is wrong with the line. Returns BAD. */
int wrong_line(const struct reader *r, const char *format, ...) __attribute__((format(printf, 2, 3)));

/* Says so where there is one more word. */
int nothing_after(struct reader *r, const char *step);

/* A decimal number of at most most, or false. */
bool number_parse(size_t *number, const char *text, size_t most);

/* ------------------------------------------------------------------ */
/* Devices, and bytes that were kept                                   */

/* The index of the device "#2", or of one that has a name. Returns DONE, or says why not. */
int device_find(struct reader *r, const char *step, const char *word, size_t *index);

/* Whether a text starts with a word that stands for a device, known or not. */
bool starts_with_device(const char *text);

/* Adds the bytes of a word: two digits, $NAME for bytes that were kept, or a CRC of the bytes that it is over. */
bool bytes_word(const struct reader *r, struct bytes *onto, const struct bytes *over, const char *word);

/* The last step that has events, or null. */
const struct step *last_step(const struct reader *r);

/* The levels that the line answered in it, of those that are there to be answered; whole bytes where asked for. */
int last_answer(struct reader *r, const char *step, bool whole, const uint8_t **levels, size_t *count);

void names_free(struct names *n);

/* ------------------------------------------------------------------ */
/* Steps. Each reads the rest of a line that begins with its word, and returns DONE, or says why not. */

int read_reset(struct reader *r);
int read_pulse(struct reader *r);
int read_skip(struct reader *r);
int read_match(struct reader *r);
int read_overdrive(struct reader *r);
int read_speed(struct reader *r);
int read_rom(struct reader *r);
int read_search(struct reader *r);
int read_send(struct reader *r);
int read_bits(struct reader *r);
int read_read(struct reader *r);
int read_events(struct reader *r);
int read_name(struct reader *r);
int read_keep(struct reader *r);
int read_expect(struct reader *r);
int read_bench(struct reader *r);
int read_repeat(struct reader *r);
int read_end(struct reader *r);
int read_include(struct reader *r);

/* Reads all lines of a text; the status has what is wrong with them. Returns DONE, or says why it cannot be read. */
int read_text(struct reader *r, const char *path);

#endif
