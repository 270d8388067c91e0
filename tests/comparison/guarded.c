#define _DEFAULT_SOURCE /* for MAP_ANONYMOUS */

#include "guarded.h"

#include <setjmp.h>
#include <signal.h>
#include <stdio.h>
#include <stdlib.h>
#include <string.h>
#include <sys/mman.h>
#include <time.h>
#include <unistd.h>

enum {
    UNREADABLE = 1 << 16, /* bytes: an overrun may be a long one */
    MARK_BYTES = 32,
    MARK = 0x5A,
    PATIENCE = 20 /* seconds */
};

struct guarded guarded_create(size_t room)
{
    const size_t page = (size_t)sysconf(_SC_PAGESIZE);
    const size_t readable = (room + MARK_BYTES + page - 1) / page * page;
    uint8_t *const start = mmap(NULL, readable + UNREADABLE,
                                PROT_READ | PROT_WRITE,
                                MAP_PRIVATE | MAP_ANONYMOUS, -1, 0);

    if (start == MAP_FAILED
        || mprotect(start + readable, UNREADABLE, PROT_NONE) != 0) {
        perror("guarded memory");
        exit(2);
    }
    return (struct guarded){ start + readable, room };
}

uint8_t *guarded_take(const struct guarded *g, size_t length)
{
    if (length > g->room) {
        fprintf(stderr, "no guarded room for %zu bytes\n", length);
        exit(2);
    }
    memset(g->end - length - MARK_BYTES, MARK, MARK_BYTES);
    return g->end - length;
}

int guarded_mark_kept(const struct guarded *g, size_t length)
{
    for (size_t i = 1; i <= MARK_BYTES; i++)
        if (*(g->end - length - i) != MARK)
            return 0;
    return 1;
}

int guarded_overrun(const struct guarded *g, struct fault fault,
                    size_t *distance)
{
    const uintptr_t end = (uintptr_t)g->end, at = (uintptr_t)fault.address;

    *distance = (size_t)(at - end);
    return at >= end && *distance < UNREADABLE;
}

/* A signal handler is handed no argument of ours, so these are global. */
static sigjmp_buf way_out;
static volatile sig_atomic_t calling;
static volatile struct fault last_fault;

static void leave_call(int signal, siginfo_t *info, void *context)
{
    (void)context;
    if (calling) {
        calling = 0;
        last_fault.signal = signal;
        last_fault.address =
            signal == SIGSEGV || signal == SIGBUS ? info->si_addr : NULL;
        siglongjmp(way_out, 1);
    }
    if (signal != SIGALRM) /* our own fault: let it end the program */
        sigaction(signal, &(struct sigaction){ .sa_handler = SIG_DFL }, NULL);
}

void guarded_prepare(void)
{
    static const int signals[] = { SIGSEGV, SIGBUS,  SIGILL,
                                   SIGFPE,  SIGABRT, SIGALRM };
    /* Left by a jump, a handler must not leave its signal blocked. */
    struct sigaction action = { .sa_sigaction = leave_call,
                                .sa_flags = SA_SIGINFO | SA_NODEFER };

    sigemptyset(&action.sa_mask);
    for (size_t i = 0; i < sizeof signals / sizeof *signals; i++)
        sigaction(signals[i], &action, NULL);
}

/* Once a second will do, and the clock is cheaper than the alarm. */
static void put_off_alarm(void)
{
    static time_t last;
    const time_t now = time(NULL);

    if (now != last)
        alarm(PATIENCE);
    last = now;
}

struct fault guarded_call(void (*function)(void *), void *argument)
{
    if (sigsetjmp(way_out, 0) != 0)
        return (struct fault){ last_fault.signal, last_fault.address };
    put_off_alarm();
    calling = 1;
    function(argument);
    calling = 0;
    return (struct fault){ 0, NULL };
}
