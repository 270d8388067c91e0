#include "bytes.h"

#include "status.h"

#include <errno.h>
#include <fcntl.h>
#include <stdio.h>
#include <stdlib.h>
#include <string.h>
#include <unistd.h>

/* No file of a bench is near this long; a device that never ends is. */
enum { LONGEST_FILE = 4 << 20 };

void *grown(void *old, size_t count, size_t size)
{
    void *const new = count <= SIZE_MAX / size ? realloc(old, count ? count * size : 1) : NULL;

    if (!new)
        out_of_memory();
    return new;
}

static void make_room(struct bytes *b, size_t more)
{
    if (more <= b->room - b->length)
        return;
    if (more > SIZE_MAX / 2 - b->length)
        out_of_memory();
    b->room = 2 * (b->length + more);
    b->data = grown(b->data, b->room, 1);
}

void bytes_add(struct bytes *b, const void *more, size_t count)
{
    if (count == 0)
        return;
    make_room(b, count);
    memcpy(b->data + b->length, more, count);
    b->length += count;
}

void bytes_repeat(struct bytes *b, uint8_t byte, size_t count)
{
    if (count == 0)
        return;
    make_room(b, count);
    memset(b->data + b->length, byte, count);
    b->length += count;
}

void bytes_vprint(struct bytes *b, const char *format, va_list arguments)
{
    va_list again;

    va_copy(again, arguments);

    const int length = vsnprintf(NULL, 0, format, arguments);

    if (length < 0)
        out_of_memory();
    make_room(b, (size_t)length + 1);
    vsnprintf((char *)b->data + b->length, (size_t)length + 1, format, again);
    va_end(again);
    b->length += (size_t)length;
}

void bytes_print(struct bytes *b, const char *format, ...)
{
    va_list arguments;

    va_start(arguments, format);
    bytes_vprint(b, format, arguments);
    va_end(arguments);
}

void bytes_free(struct bytes *b)
{
    free(b->data);
    *b = (struct bytes){ 0 };
}

const char *input_name(const char *path)
{
    return strcmp(path, "-") == 0 ? "standard input" : path;
}

char *path_beside(const char *other, const char *name)
{
    const char *const slash = other && *name != '/' ? strrchr(other, '/') : NULL;
    const size_t folder = slash ? (size_t)(slash + 1 - other) : 0;
    char *const path = grown(NULL, folder + strlen(name) + 1, 1);

    if (folder > 0)
        memcpy(path, other, folder);
    strcpy(path + folder, name);
    return path;
}

/* Reads on until there are more bytes than most. */
static int read_all(struct bytes *b, int file, const char *name, size_t most)
{
    uint8_t part[4096];
    ssize_t count;

    while (b->length <= most && (count = read(file, part, sizeof part)) != 0) {
        if (count < 0 && errno == EINTR)
            continue;
        if (count < 0)
            return bad_system(name);
        bytes_add(b, part, (size_t)count);
    }
    return DONE;
}

int bytes_read_most(struct bytes *b, const char *path, size_t most)
{
    const int standard = strcmp(path, "-") == 0;
    const int file = standard ? STDIN_FILENO : open(path, O_RDONLY);

    if (file < 0)
        return bad_system(path);

    const int status = read_all(b, file, input_name(path), most);

    if (!standard)
        close(file);
    return status;
}

int bytes_read(struct bytes *b, const char *path)
{
    const int status = bytes_read_most(b, path, LONGEST_FILE);

    if (status == DONE && b->length > LONGEST_FILE)
        return bad("%s: longer than %d bytes", input_name(path), LONGEST_FILE);
    return status;
}
