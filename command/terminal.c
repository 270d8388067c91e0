#include "terminal.h"

#include "bytes.h"
#include "status.h"

#include <errno.h>
#include <fcntl.h>
#include <stdlib.h>
#include <string.h>
#include <sys/stat.h>
#include <termios.h>
#include <unistd.h>

/* The terminal as a serial port is: nothing is echoed, changed or kept back. */
static int make_raw(int file)
{
    struct termios settings;

    if (tcgetattr(file, &settings) != 0)
        return bad_system("pseudo-terminal");
    settings.c_iflag = 0;
    settings.c_oflag = 0;
    settings.c_lflag = 0;
    settings.c_cflag = CS8 | CREAD | CLOCAL;
    settings.c_cc[VMIN] = 1;
    settings.c_cc[VTIME] = 0;
    cfsetispeed(&settings, B9600);
    cfsetospeed(&settings, B9600);
    return tcsetattr(file, TCSANOW, &settings) == 0 ? DONE : bad_system("pseudo-terminal");
}

/* A link that leads to a terminal, or to one that is gone, is from an earlier time and makes room. */
static bool is_old_link(const char *path)
{
    struct stat link, target;

    if (lstat(path, &link) != 0 || !S_ISLNK(link.st_mode))
        return false;
    return stat(path, &target) != 0 || S_ISCHR(target.st_mode);
}

static int make_link(struct terminal *t)
{
    if (is_old_link(t->link) && unlink(t->link) != 0)
        return bad_system(t->link);
    if (symlink(t->name, t->link) != 0)
        return bad_system(t->link);
    t->linked = true;
    return DONE;
}

int terminal_open(struct terminal *t, const char *link)
{
    *t = (struct terminal){ .file = posix_openpt(O_RDWR | O_NOCTTY), .link = link };
    if (t->file < 0 || grantpt(t->file) != 0 || unlockpt(t->file) != 0)
        return bad_system("pseudo-terminal");

    const char *const name = ptsname(t->file);

    if (!name)
        return bad_system("pseudo-terminal");
    t->name = strcpy(grown(NULL, strlen(name) + 1, 1), name);

    const int status = make_raw(t->file);

    return status == DONE && link ? make_link(t) : status;
}

/* Both sides of a pseudo-terminal have the same settings. */
unsigned terminal_baud(const struct terminal *t)
{
    static const struct {
        speed_t speed;
        unsigned baud;
    } speeds[] = { { B300, 300 }, { B1200, 1200 }, { B2400, 2400 }, { B4800, 4800 }, { B9600, 9600 },
                   { B19200, 19200 }, { B38400, 38400 } };
    struct termios settings;

    if (tcgetattr(t->file, &settings) != 0)
        return 0;
    for (size_t i = 0; i < sizeof speeds / sizeof *speeds; i++)
        if (cfgetospeed(&settings) == speeds[i].speed)
            return speeds[i].baud;
    return 115200; /* 57,600 and above are not told apart: all of them are slots */
}

/* A link that another has made in the place since is not ours to remove. */
static bool is_own_link(const struct terminal *t)
{
    char target[256];
    const ssize_t length = readlink(t->link, target, sizeof target);

    return length == (ssize_t)strlen(t->name) && memcmp(target, t->name, (size_t)length) == 0;
}

void terminal_close(struct terminal *t)
{
    if (t->linked && is_own_link(t))
        unlink(t->link);
    if (t->file >= 0)
        close(t->file);
    free(t->name);
}
