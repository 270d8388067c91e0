/* troughiron serve: the devices of an image behind a serial port, for programs that drive an adapter. */
#include "adapter.h"
#include "commands.h"
#include "image.h"
#include "interrupt.h"
#include "outputs.h"
#include "recorder.h"
#include "staging.h"
#include "status.h"
#include "terminal.h"

#include <errno.h>
#include <poll.h>
#include <stdlib.h>
#include <string.h>
#include <sys/stat.h>
#include <time.h>
#include <unistd.h>

/* How long, in milliseconds, is waited for a byte before the other things are looked at. */
enum { PATIENCE = 100 };

struct serve {
    const char *image_path, *output, *link, *adapter_name, *script, *log_path;
    struct terminal terminal;
    struct adapter adapter;
    struct live live;
    struct recorder recorder;
    struct staging staging;
    bool opened;        /* a program has the terminal open */
    bool quiet;
    struct bytes typed; /* a command on standard input that has no end yet */
    bool listens;       /* to standard input */
    int status;
};

/* ------------------------------------------------------------------ */
/* The status line                                                     */

static void print_status(const struct serve *s)
{
    uint8_t bytes[256];
    const size_t count = transaction_bytes(&s->recorder, bytes, sizeof bytes);
    static time_t shown;

    if (s->quiet || !isatty(STDERR_FILENO) || time(NULL) == shown)
        return;
    shown = time(NULL);
    fprintf(stderr, "\r%llu resets, %llu slots, %zu devices, last bytes", (unsigned long long)s->live.resets,
            (unsigned long long)s->live.slots, live_count(&s->live));
    for (size_t i = count > 8 ? count - 8 : 0; i < count; i++)
        fprintf(stderr, " %02X", bytes[i]);
    fputs("\033[K", stderr);
}

/* ------------------------------------------------------------------ */
/* Bytes of the program                                                */

static int send_back(struct serve *s, const struct bytes *reply)
{
    size_t at = 0;

    while (at < reply->length) {
        const ssize_t count = write(s->terminal.file, reply->data + at, reply->length - at);

        if (count < 0 && errno == EIO)
            return DONE; /* the program is gone, and nobody reads */
        if (count < 0 && errno != EINTR)
            return bad_system(s->terminal.name);
        at += count > 0 ? (size_t)count : 0;
    }
    return DONE;
}

static int take_bytes(struct serve *s, const uint8_t *bytes, size_t count)
{
    struct bytes reply = { 0 };

    for (size_t i = 0; i < count; i++) {
        s->adapter.take(&s->adapter, &s->live, terminal_baud(&s->terminal), bytes[i], &reply);
        staging_look(&s->staging, &s->recorder);
    }

    const int status = send_back(s, &reply);

    bytes_free(&reply);
    return status == DONE ? s->recorder.status : status;
}

/* Where a program has closed the terminal, the next one finds the adapter as it is when it is plugged in. */
static int read_terminal(struct serve *s)
{
    uint8_t bytes[4096];
    const ssize_t count = read(s->terminal.file, bytes, sizeof bytes);

    if (count < 0 && errno == EINTR)
        return DONE;
    if (count < 0 && errno == EIO) {
        s->opened = false;
        return DONE;
    }
    if (count < 0)
        return bad_system(s->terminal.name);
    if (!s->opened)
        s->adapter.open(&s->adapter);
    s->opened = true;
    return take_bytes(s, bytes, (size_t)count);
}

/* ------------------------------------------------------------------ */
/* Commands on standard input                                          */

/* Where it is no terminal, file or pipe, as in the background, nobody types there. */
static bool is_typed(void)
{
    struct stat input;

    return isatty(STDIN_FILENO) || (fstat(STDIN_FILENO, &input) == 0 && !S_ISCHR(input.st_mode));
}

/* A command that is wrong is said, and the bench goes on. */
static void do_lines(struct serve *s)
{
    uint8_t *newline;

    while (!s->staging.quit && s->typed.length > 0 &&
           (newline = memchr(s->typed.data, '\n', s->typed.length)) != NULL) {
        const size_t length = (size_t)(newline - s->typed.data) + 1;

        *newline = '\0';
        (void)staging_do(&s->staging, (const char *)s->typed.data);
        memmove(s->typed.data, s->typed.data + length, s->typed.length - length);
        s->typed.length -= length;
    }
}

static void read_input(struct serve *s)
{
    char text[512];
    const ssize_t count = read(STDIN_FILENO, text, sizeof text);

    if (count < 0 && errno == EINTR)
        return;
    if (count > 0)
        bytes_add(&s->typed, text, (size_t)count);
    else
        bytes_add(&s->typed, "\nquit\n", 6); /* the end of input is the end */
    do_lines(s);
}

/* ------------------------------------------------------------------ */
/* The loop                                                            */

/* A terminal that nobody has open is always ready, with nothing to read; then only the time is waited for. */
static int wait_once(struct serve *s)
{
    struct pollfd files[] = { { .fd = s->terminal.file, .events = POLLIN },
                              { .fd = s->listens ? STDIN_FILENO : -1, .events = POLLIN } };
    int status = DONE;

    if (poll(files, 2, PATIENCE) < 0)
        return errno == EINTR ? DONE : bad_system("poll");
    if (files[1].revents)
        read_input(s);
    if (files[0].revents & POLLIN)
        status = read_terminal(s);
    else if (files[0].revents & POLLHUP) {
        const struct timespec pause = { .tv_nsec = PATIENCE * 100000L };

        s->opened = false;
        nanosleep(&pause, NULL);
    }
    print_status(s);
    return status;
}

static int serve_all(struct serve *s)
{
    int status = DONE;

    if (!s->link)
        printf("%s\n", s->terminal.name);
    if (report_flush(stdout) != DONE)
        return BAD;
    staging_look(&s->staging, &s->recorder);
    while (status == DONE && !s->staging.quit && !interrupt_kept())
        status = wait_once(s);
    if (!s->quiet && isatty(STDERR_FILENO))
        fputs("\r\033[K", stderr);
    return status;
}

/* ------------------------------------------------------------------ */
/* The beginning and the end                                           */

/* What cannot be written at the end is said at the start: a place is tried with an empty file, which is not kept. */
static int check_place(const struct serve *s, const char *path, enum holding holding)
{
    struct outputs outputs = { .replacing = s->recorder.replacing };
    const int status = outputs_stage(&outputs, path, holding, "", 0);

    outputs_free(&outputs);
    return status;
}

static int check_files(const struct serve *s)
{
    int status = check_place(s, s->output, HOLDS_IMAGE);

    for (size_t i = 0; s->recorder.name && status == DONE && i < RECORDED_FILES; i++) {
        char *const path = recorded_path(s->recorder.name, 1, i);

        status = check_place(s, path, recorded_holding(i));
        free(path);
    }
    return status;
}

/* A log is written as it comes, so that one can look at it meanwhile; a file that is there is replaced by the rule. */
static int open_log(struct serve *s)
{
    struct stat there;

    if (strcmp(s->log_path, "-") == 0) {
        s->recorder.log = stdout;
        return DONE;
    }
    if (stat(s->log_path, &there) == 0 && S_ISREG(there.st_mode) &&
        replace_allowed(&s->recorder.replacing, s->log_path, HOLDS_LOG) != DONE)
        return BAD;
    s->recorder.log = fopen(s->log_path, "w");
    if (!s->recorder.log)
        return bad_system(s->log_path);
    fputs(LOG_START, s->recorder.log);
    return DONE;
}

static int close_log(struct serve *s)
{
    FILE *const log = s->recorder.log;
    int status = DONE;

    if (!log || log == stdout)
        return DONE;
    if (fflush(log) != 0 || ferror(log))
        status = bad_system(s->log_path);
    fclose(log);
    s->recorder.log = NULL;
    return status;
}

static int open_all(struct serve *s)
{
    struct bytes image = { 0 };
    int status = image_read(&image, s->image_path);

    if (status == DONE) {
        live_open(&s->live, &image, recorder_listener(&s->recorder));
        s->staging.live = &s->live;
        if (s->script)
            status = staging_read(&s->staging, s->script);
    }
    if (status == DONE)
        status = check_files(s);
    if (status == DONE && s->log_path)
        status = open_log(s);
    /* From the link on an end leaves nothing behind. */
    if (status == DONE) {
        interrupt_keep();
        status = terminal_open(&s->terminal, s->link);
    }
    bytes_free(&image);
    return status;
}

/* The image is written whatever ended the serving, and whether or not the last run could be. */
static int save_all(struct serve *s)
{
    const struct bytes *const image = live_image(&s->live);
    struct outputs outputs = { .replacing = s->recorder.replacing };
    const int recorded = recorder_end(&s->recorder);
    int status = outputs_stage(&outputs, s->output, HOLDS_IMAGE, image->data, image->length);

    if (status == DONE)
        status = outputs_commit(&outputs, stderr);
    outputs_free(&outputs);
    if (s->live.lost > 0)
        fprintf(stderr, "troughiron: slots or pulses that reached no device: %llu; before the first reset, more than "
                        "32766 after one, or a pulse that a device does not stand\n",
                (unsigned long long)s->live.lost);

    const int logged = close_log(s);

    return status != DONE ? status : recorded != DONE ? recorded : logged;
}

static void free_all(struct serve *s)
{
    (void)close_log(s);
    terminal_close(&s->terminal);
    staging_free(&s->staging);
    recorder_free(&s->recorder);
    live_free(&s->live);
    bytes_free(&s->typed);
}

static int take_words(struct serve *s, const struct words *words)
{
    if (words->count != 1)
        return words_wrong(words, "one image");
    s->image_path = words->list[0];
    s->recorder.replacing.own = strcmp(s->image_path, "-") == 0 ? NULL : s->image_path;
    s->staging.replacing = s->recorder.replacing;
    s->listens = is_typed() && strcmp(s->image_path, "-") != 0;
    if (!s->adapter_name)
        s->adapter_name = "ds9097";
    if (!adapter_named(&s->adapter, s->adapter_name))
        return bad_usage("serve", "an adapter ds9097 or ds2480b expected, not '%s'", s->adapter_name);
    return DONE;
}

int serve_command(struct words *words)
{
    static struct serve s = { .terminal = { .file = -1 } };
    const struct option options[] = {
        { "-o", &s.output, NULL },
        { "--output", &s.output, NULL },
        { "--link", &s.link, NULL },
        { "--adapter", &s.adapter_name, NULL },
        { "--record", &s.recorder.name, NULL },
        { "--script", &s.script, NULL },
        { "--log", &s.log_path, NULL },
        { "--quiet", NULL, &s.quiet },
        { "-f", NULL, &s.recorder.replacing.forced },
        { "--force", NULL, &s.recorder.replacing.forced },
    };
    int status = options_take(words, options, sizeof options / sizeof *options);

    if (status == DONE)
        status = take_words(&s, words);
    if (status != DONE)
        return status;
    status = open_all(&s);
    if (status == DONE) {
        const int served = serve_all(&s), saved = save_all(&s);

        status = served == DONE ? saved : served;
    }
    free_all(&s);
    return status;
}
