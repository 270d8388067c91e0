#include "replace.h"

#include "gtkwave.h"
#include "html.h"
#include "image.h"
#include "junit.h"
#include "recorder.h"
#include "status.h"
#include "text.h"
#include "troughiron.h"
#include "vcd.h"

#include <string.h>
#include <sys/stat.h>

/* Whether no byte is over a number. */
static bool all_within(const struct bytes *file, uint8_t most)
{
    for (size_t i = 0; i < file->length; i++)
        if (file->data[i] > most)
            return false;
    return true;
}

static bool starts_with(const struct bytes *file, const char *start)
{
    const size_t length = strlen(start);

    return file->length >= length && memcmp(file->data, start, length) == 0;
}

/* In an empty file, as mktemp makes it, there is nothing to lose. */
static bool holds(const struct bytes *file, enum holding holding)
{
    if (file->length == 0)
        return true;
    switch (holding) {
    case HOLDS_IMAGE:
        return image_refusal(file) == 0;
    case HOLDS_ANSWERS:
        return all_within(file, 1);
    case HOLDS_TRACE:
        return all_within(file, TROUGHIRON_OVERDRIVE_RESET);
    case HOLDS_WAVEFORM:
        return starts_with(file, VCD_START);
    case HOLDS_SAVE:
        return starts_with(file, SAVE_START);
    case HOLDS_STEPS:
        return starts_with(file, STEPS_START);
    case HOLDS_SESSION:
        return starts_with(file, RECORDED_START);
    case HOLDS_LOG:
        return starts_with(file, LOG_START);
    case HOLDS_JUNIT:
        return starts_with(file, JUNIT_START);
    case HOLDS_MEMORY:
        return kind_with_memory(file->length);
    case HOLDS_PAGE:
        return starts_with(file, HTML_START);
    }
    return false;
}

static bool same_file(const char *one, const char *other)
{
    struct stat a, b;

    return stat(one, &a) == 0 && stat(other, &b) == 0 && a.st_dev == b.st_dev && a.st_ino == b.st_ino;
}

int replace_refused(const char *path)
{
    return bad("%s: there is such a file already, and only -f replaces it", path);
}

int replace_allowed(const struct replacing *asked, const char *path, enum holding holding)
{
    static const char *const names[] = { "image", "file of answers", "trace", "waveform of this command",
                                         "save file of this command", "file of steps of this command",
                                         "session that was recorded", "log of this command",
                                         "JUnit file of this command", "memory of a device",
                                         "page of this command" };
    struct bytes file = { 0 };

    if (holding == HOLDS_IMAGE && asked->own && same_file(asked->own, path))
        return DONE;
    if (!asked->forced)
        return replace_refused(path);

    int status = bytes_read(&file, path);

    if (status == DONE && !holds(&file, holding))
        status = bad("%s: this is no %s, and -f replaces nothing else", path, names[holding]);
    bytes_free(&file);
    return status;
}
