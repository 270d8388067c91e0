#include "trial.h"

#include "cause.h"
#include "session.h"
#include "status.h"
#include "troughiron.h"

#include <errno.h>
#include <stdlib.h>
#include <string.h>
#include <sys/wait.h>
#include <unistd.h>

/* What messages of the command begin with, which a log of its own trials need not say. */
static const char command_name[] = "troughiron: ";

/* ------------------------------------------------------------------ */
/* In the process of a trial                                           */

static int run_whole(const struct session *s)
{
    struct bytes image = { 0 }, answers = { 0 };
    uint64_t copied;

    bytes_add(&image, s->image.data, s->image.length);
    bytes_repeat(&answers, 0, s->events.length);

    const uint32_t refusal = troughiron_run(image.data, image.length, s->events.data, s->events.length, answers.data,
                                            answers.length, &copied);
    const int status = refusal ? run_refused(s, &image, answers.length, refusal) : DONE;

    bytes_free(&image);
    bytes_free(&answers);
    return status;
}

/* A test that expects nothing cannot fail, and so is none. */
static int try_session(const char *path)
{
    struct session session = { 0 };
    int status = session_read(&session, path, NULL);

    if (status == DONE)
        status = run_whole(&session);
    if (status == DONE && session.expectations == 0)
        status = bad("%s: nothing is expected, so that it cannot fail", session.name);
    if (status == DONE)
        status = session_verdict(&session);
    session_free(&session);
    return status;
}

/* ------------------------------------------------------------------ */
/* Outside of it                                                       */

int trial_start(struct trial *t)
{
    t->said = tmpfile();
    if (!t->said)
        return bad_system("a temporary file");
    clock_gettime(CLOCK_MONOTONIC, &t->start);
    t->process = fork();
    if (t->process < 0)
        return bad_system("a process");
    if (t->process == 0)
        _exit(dup2(fileno(t->said), STDERR_FILENO) < 0 ? BAD : try_session(t->path));
    return DONE;
}

static double seconds_since(const struct timespec *start)
{
    struct timespec now;

    clock_gettime(CLOCK_MONOTONIC, &now);
    return (double)(now.tv_sec - start->tv_sec) + (double)(now.tv_nsec - start->tv_nsec) / 1e9;
}

/* The text that a trial wrote, line by line. */
static void take_log(struct trial *t)
{
    char *line = NULL;
    size_t room = 0;

    rewind(t->said);
    while (getline(&line, &room, t->said) >= 0) {
        const bool named = strncmp(line, command_name, strlen(command_name)) == 0;

        bytes_print(&t->log, "%s", named ? line + strlen(command_name) : line);
    }
    free(line);
    fclose(t->said);
    t->said = NULL;
}

static void finish(struct trial *t, int ended)
{
    t->seconds = seconds_since(&t->start);
    t->status = WIFEXITED(ended) ? WEXITSTATUS(ended) : BAD;
    take_log(t);
    if (WIFSIGNALED(ended))
        bytes_print(&t->log, "%s: ended by signal %d\n", t->path, WTERMSIG(ended));
    t->done = true;
}

int trial_wait(struct trial *list, size_t count)
{
    int ended;
    pid_t process;

    do
        process = wait(&ended);
    while (process < 0 && errno == EINTR);
    if (process < 0)
        return bad_system("a process");
    for (size_t i = 0; i < count; i++)
        if (!list[i].done && list[i].process == process)
            finish(&list[i], ended);
    return DONE;
}
