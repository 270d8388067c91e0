#include "interrupt.h"

#include <signal.h>
#include <stddef.h>

static const int signals[] = { SIGHUP, SIGINT, SIGTERM };

enum { SIGNALS = sizeof signals / sizeof *signals };

static volatile sig_atomic_t noted; /* the signal, or 0 */
static bool kept;                   /* until the command asks for it */

static void note(int number)
{
    noted = number;
}

/* One that is ignored, as nohup does, stays so. */
static void replace(int number, void (*old)(int), void (*new)(int))
{
    struct sigaction action;

    if (sigaction(number, NULL, &action) != 0 || action.sa_handler != old)
        return;
    action.sa_handler = new;
    action.sa_flags = 0;
    sigaction(number, &action, NULL);
}

void interrupt_defer(void)
{
    for (size_t i = 0; i < SIGNALS; i++)
        replace(signals[i], SIG_DFL, note);
}

bool interrupted(void)
{
    return noted != 0 && !kept;
}

void interrupt_keep(void)
{
    interrupt_defer();
    kept = true;
}

bool interrupt_kept(void)
{
    return noted != 0;
}

void interrupt_allow(void)
{
    if (kept)
        return;
    for (size_t i = 0; i < SIGNALS; i++)
        replace(signals[i], note, SIG_DFL);
    if (noted)
        raise(noted);
}
