#include "gtkwave.h"

#include "vcd.h"

#include <stdlib.h>
#include <string.h>
#include <sys/stat.h>

/* ------------------------------------------------------------------ */
/* Paths                                                               */

/* Standard output, a device and a pipe have nothing beside them. */
static bool is_file(const char *path)
{
    struct stat there;

    return strcmp(path, "-") != 0 && (stat(path, &there) != 0 || S_ISREG(there.st_mode));
}

/* A path with another ending in the place of ".vcd", or after it where it ends otherwise. */
static char *with_ending(const char *path, const char *ending)
{
    static const char old[] = ".vcd";
    const size_t length = strlen(path), cut = sizeof old - 1;
    const bool ends = length > cut && strcmp(path + length - cut, old) == 0 && path[length - cut - 1] != '/';
    const size_t kept = ends ? length - cut : length;
    char *const new = grown(NULL, kept + strlen(ending) + 1, 1);

    memcpy(new, path, kept);
    return strcpy(new + kept, ending) - kept;
}

char *save_path(const char *vcd)
{
    return is_file(vcd) ? with_ending(vcd, ".gtkw") : NULL;
}

char *steps_path(const char *vcd)
{
    return is_file(vcd) ? with_ending(vcd, ".steps") : NULL;
}

/* ------------------------------------------------------------------ */
/* Contents                                                            */

static const char *name_of(const char *path)
{
    const char *const slash = strrchr(path, '/');

    return slash ? slash + 1 : path;
}

/*
 * Names without a folder are taken from beside the save file. The zoom is a power of two, and shows a reset and the
 * byte after it. The numbers before the names say how a signal is shown: as a bit, and by the texts of the steps.
 */
void save_write(struct bytes *out, const char *vcd)
{
    char *const steps = with_ending(vcd, ".steps"), *const save = with_ending(vcd, ".gtkw");

    bytes_print(out, "%s[dumpfile] \"%s\"\n[savefile] \"%s\"\n", SAVE_START, name_of(vcd), name_of(save));
    bytes_print(out, "[timestart] 0\n[size] 1200 400\n[pos] -1 -1\n*-8.5 -1\n[sst_expanded] 0\n");
    bytes_print(out, "@28\n%s.line\n%s.master\n%s.pulse\n%s.overdrive\n", VCD_SCOPE, VCD_SCOPE, VCD_SCOPE, VCD_SCOPE);
    bytes_print(out, "@2020\n^1 %s\n%s.step\n", name_of(steps), VCD_SCOPE);
    free(steps);
    free(save);
}

static void step_write(struct bytes *out, const struct session *s, const struct step *step)
{
    bytes_print(out, "%zu %s %zu: ", step_number(s, step), s->unit, step->line);
    for (const char *c = step->text; *c; c++)
        bytes_repeat(out, *c >= ' ' && *c <= '~' ? (uint8_t)*c : '_', 1);
    bytes_repeat(out, '\n', 1);
}

/* A line that is repeated is there so many times, always with the same text. */
void steps_write(struct bytes *out, const struct session *s)
{
    bytes_print(out, STEPS_START);
    for (size_t i = 0; i < s->count; i++)
        if (s->steps[i].count > 0)
            step_write(out, s, &s->steps[i]);
}
