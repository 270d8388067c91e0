#include "outputs.h"

#include "bytes.h"
#include "interrupt.h"
#include "status.h"

#include <errno.h>
#include <fcntl.h>
#include <stdbool.h>
#include <stdlib.h>
#include <string.h>
#include <sys/stat.h>
#include <unistd.h>

static const char *output_name(const char *path)
{
    return strcmp(path, "-") == 0 ? "standard output" : path;
}

static int write_all(int file, const void *bytes, size_t length, const char *name)
{
    const char *next = bytes;

    while (length > 0) {
        const ssize_t count = write(file, next, length);

        if (count < 0 && errno == EINTR && !interrupted())
            continue;
        if (count < 0)
            return bad_system(name);
        next += count;
        length -= (size_t)count;
    }
    return DONE;
}

/* ------------------------------------------------------------------ */
/* Staging                                                             */

static char *copied(const char *text)
{
    char *const copy = grown(NULL, strlen(text) + 1, 1);

    return strcpy(copy, text);
}

/* The mode of a new file, as open would give it. */
static mode_t new_mode(void)
{
    const mode_t mask = umask(0);

    umask(mask);
    return 0666 & ~mask;
}

static int fill_temporary(struct output *o, mode_t mode)
{
    const int file = mkstemp(o->temporary);
    int status = DONE;

    if (file < 0) {
        status = bad_system(o->path);
        *o->temporary = '\0'; /* there is none to remove */
        return status;
    }
    status = write_all(file, o->bytes, o->length, o->path);
    if (status == DONE && (fchmod(file, mode) != 0 || fsync(file) != 0))
        status = bad_system(o->path);
    if (close(file) != 0 && status == DONE)
        status = bad_system(o->path);
    return status;
}

static int stage_beside(struct output *o, mode_t mode)
{
    static const char ending[] = ".XXXXXX";
    const size_t length = strlen(o->place);

    o->temporary = grown(NULL, length + sizeof ending, 1);
    memcpy(o->temporary, o->place, length);
    memcpy(o->temporary + length, ending, sizeof ending);
    return fill_temporary(o, mode);
}

/*
 * The path with its folder's links followed, so that two names of a place compare equal; null, with the cause in errno,
 * with no such folder.
 */
static char *place_of_new(const char *path)
{
    const char *const slash = strrchr(path, '/');
    const char *const name = slash ? slash + 1 : path;
    char *const folder = copied(slash ? path : ".");

    if (slash)
        folder[slash - path + (slash == path)] = '\0';

    char *const real = realpath(folder, NULL);
    char *const place = real ? grown(NULL, strlen(real) + strlen(name) + 2, 1) : NULL;

    if (place)
        strcat(strcat(strcpy(place, real), real[1] ? "/" : ""), name);
    free(real);
    free(folder);
    return place;
}

/* A link to nothing and a path of no name are no places for a file. */
static int stage_new(struct output *o)
{
    struct stat link;
    const size_t length = strlen(o->path);

    if (length == 0 || o->path[length - 1] == '/' || lstat(o->path, &link) == 0) {
        errno = ENOENT;
        return bad_system(o->path);
    }
    o->fresh = true;
    o->place = place_of_new(o->path);
    return o->place ? stage_beside(o, new_mode()) : bad_system(o->path);
}

/* A new file, or one that may be replaced. What is no file, as a device or a pipe, is written to and not replaced. */
static int stage_file(struct output *o, const struct replacing *replacing)
{
    struct stat there;

    if (stat(o->path, &there) != 0)
        return errno == ENOENT ? stage_new(o) : bad_system(o->path);
    if (S_ISDIR(there.st_mode)) {
        errno = EISDIR;
        return bad_system(o->path);
    }
    if (access(o->path, W_OK) != 0)
        return bad_system(o->path);
    if (S_ISREG(there.st_mode) && replace_allowed(replacing, o->path, o->holding) != DONE)
        return BAD;
    o->place = realpath(o->path, NULL);
    if (!o->place)
        return bad_system(o->path);
    return S_ISREG(there.st_mode) ? stage_beside(o, there.st_mode & 07777) : DONE;
}

/* Two names of one place would leave one file of two. */
static int place_is_free(const struct outputs *o, const struct output *new)
{
    for (const struct output *old = o->list; old < new; old++)
        if (old->temporary && new->temporary && strcmp(old->place, new->place) == 0)
            return bad("%s: the same file as %s", new->path, old->path);
    return DONE;
}

int outputs_stage(struct outputs *o, const char *path, enum holding holding, const void *bytes, size_t length)
{
    if (!path)
        return DONE;

    struct output *const new = &o->list[o->count++];

    *new = (struct output){ .path = path, .holding = holding, .bytes = bytes, .length = length };
    interrupt_defer();

    const int status = strcmp(path, "-") == 0 ? DONE : stage_file(new, &o->replacing);

    return status == DONE ? place_is_free(o, new) : status;
}

/* ------------------------------------------------------------------ */
/* Into place                                                          */

/*
 * Makes a renamed file last through a loss of power, where the system can. The name, which is beside the place, is used
 * up.
 */
static void sync_folder(char *name)
{
    char *const slash = strrchr(name, '/');

    if (slash)
        slash[slash == name] = '\0';

    const int file = open(slash ? name : ".", O_RDONLY);

    if (file >= 0) {
        (void)fsync(file);
        close(file);
    }
    *name = '\0';
}

static int write_place(const struct output *o)
{
    const bool standard = strcmp(o->path, "-") == 0;

    if (interrupted())
        return BAD;

    const int file = standard ? STDOUT_FILENO : open(o->place, O_WRONLY);

    if (file < 0)
        return bad_system(o->path);

    int status = write_all(file, o->bytes, o->length, output_name(o->path));

    if (!standard && close(file) != 0 && status == DONE)
        status = bad_system(o->path);
    return status;
}

/*
 * A link, unlike a rename, replaces nothing that was put there meanwhile. Where the system has no links, a rename has
 * to do.
 */
static int put_new(const struct output *o)
{
    if (link(o->temporary, o->place) == 0) {
        unlink(o->temporary);
        return DONE;
    }
    if (errno == EEXIST)
        return replace_refused(o->path);
    return rename(o->temporary, o->place) == 0 ? DONE : bad_system(o->path);
}

static int put_again(const struct output *o)
{
    return rename(o->temporary, o->place) == 0 ? DONE : bad_system(o->path);
}

static int put_into_place(struct output *o)
{
    if (!o->temporary)
        return write_place(o);

    const int status = o->fresh ? put_new(o) : put_again(o);

    if (status == DONE)
        sync_folder(o->temporary);
    return status;
}

int report_flush(FILE *report)
{
    const char *const name = report == stderr ? "standard error" : "standard output";

    if (fflush(report) != 0)
        return bad_system(name);
    return ferror(report) ? bad("%s: cannot be written", name) : DONE;
}

static int commit_those(struct outputs *o, bool staged_beside)
{
    int status = DONE;

    for (size_t i = 0; i < o->count && status == DONE; i++)
        if (!o->list[i].temporary == !staged_beside)
            status = put_into_place(&o->list[i]);
    return status;
}

/*
 * What has no temporary file, a pipe or a device, can fail in the middle and so goes first: then no file is replaced.
 */
int outputs_commit(struct outputs *o, FILE *report)
{
    int status = report_flush(report);

    if (status == DONE)
        status = commit_those(o, false);
    if (status == DONE && interrupted())
        status = BAD;
    return status == DONE ? commit_those(o, true) : status;
}

void outputs_free(struct outputs *o)
{
    for (size_t i = 0; i < o->count; i++) {
        if (o->list[i].temporary && *o->list[i].temporary)
            unlink(o->list[i].temporary);
        free(o->list[i].temporary);
        free(o->list[i].place);
    }
    o->count = 0;
    interrupt_allow();
}
