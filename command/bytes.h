/* Bytes that grow, and whole files of them. */
#ifndef BYTES_H
#define BYTES_H

#include <stdarg.h>
#include <stddef.h>
#include <stdint.h>

struct bytes {
    uint8_t *data; /* null with no room */
    size_t length, room;
};

void bytes_add(struct bytes *b, const void *more, size_t count);
void bytes_repeat(struct bytes *b, uint8_t byte, size_t count);
void bytes_print(struct bytes *b, const char *format, ...) __attribute__((format(printf, 2, 3)));
void bytes_vprint(struct bytes *b, const char *format, va_list arguments) __attribute__((format(printf, 2, 0)));
void bytes_free(struct bytes *b);

/* Memory for count elements, grown from old; never null. */
void *grown(void *old, size_t count, size_t size);

/* Reads a whole file, or standard input for "-", onto the end of b. Returns DONE, or says why not. */
int bytes_read(struct bytes *b, const char *path);

/* The same of a file that may be longer, which is then not read to its end, but past a number of bytes. */
int bytes_read_most(struct bytes *b, const char *path, size_t most);

/* What messages call a file. */
const char *input_name(const char *path);

/* The path of a file that is named relative to the folder of another one, or of the working folder for null. */
char *path_beside(const char *other, const char *name);

#endif
