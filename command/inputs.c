#include "inputs.h"

#include "image.h"
#include "status.h"

#include <string.h>
#include <sys/stat.h>

bool is_standard_input(const char *path)
{
    return path && strcmp(path, "-") == 0;
}

int inputs_take(struct inputs *i, const struct words *words, const char *trace)
{
    i->command = words->command;
    i->raw = trace;
    if (trace && words->count != 1)
        return words_wrong(words, "one image");
    if (words->count != 1 && words->count != 2)
        return words_wrong(words, "an image and a session, or a session with a bench,");
    i->image = trace || words->count == 2 ? words->list[0] : NULL;
    i->session = trace ? trace : words->list[words->count - 1];
    if (is_standard_input(i->image) && is_standard_input(i->session))
        return bad_usage(words->command, "only one of the image and the session can come from standard input");
    return DONE;
}

/* What is no file, as a pipe, can be read only once. */
static bool is_file(const char *path)
{
    struct stat there;

    return !is_standard_input(path) && stat(path, &there) == 0 && S_ISREG(there.st_mode);
}

/* An image in the place of a session, which is forgotten after it. */
static int session_is_there(const struct inputs *i)
{
    struct bytes file = { 0 };
    const bool asked = is_file(i->session);
    int status = asked ? bytes_read_most(&file, i->session, FAR_TOO_LONG) : DONE;

    if (status == DONE && asked && image_refusal(&file) == 0)
        status = bad_usage(i->command, "%s is an image; a session expected after it", i->session);
    bytes_free(&file);
    return status;
}

int inputs_read(const struct inputs *i, struct session *s)
{
    struct bytes image = { 0 };
    int status = i->image ? image_read(&image, i->image) : session_is_there(i);

    if (status == DONE && i->raw)
        status = session_read_raw(s, i->session, &image);
    else if (status == DONE)
        status = session_read(s, i->session, i->image ? &image : NULL);
    bytes_free(&image);
    return status;
}
