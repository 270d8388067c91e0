/* troughiron: a software bench for 1-Wire memory buttons, from a shell. */
#include "commands.h"
#include "outputs.h"
#include "status.h"
#include "troughiron.h"

#include <signal.h>
#include <stdio.h>
#include <string.h>

static int print(const char *text)
{
    fputs(text, stdout);
    return report_flush(stdout);
}

static bool is_one_of(const char *word, const char *one, const char *other)
{
    return strcmp(word, one) == 0 || strcmp(word, other) == 0;
}

static bool asks_for_help(const struct words *words)
{
    for (size_t i = 0; i < words->count && strcmp(words->list[i], "--") != 0; i++)
        if (is_one_of(words->list[i], "--help", "-h"))
            return true;
    return false;
}

static int help(int count, char **words)
{
    const char *const command = count > 0 && strcmp(words[0], "help") != 0 ? words[0] : "";
    const char *const text = help_text(command);

    return text ? print(text) : bad_usage("", "unknown command '%s'", command);
}

static int dispatch(struct words *words)
{
    static const struct {
        const char *name;
        int (*run)(struct words *words);
    } commands[] = { { "new", new_command },
                     { "show", show_command },
                     { "edit", edit_command },
                     { "run", run_command },
                     { "test", test_command },
                     { "judge", judge_command },
                     { "search", search_command },
                     { "check", check_command },
                     { "serve", serve_command } };

    for (size_t i = 0; i < sizeof commands / sizeof *commands; i++)
        if (strcmp(words->command, commands[i].name) == 0)
            return asks_for_help(words) ? print(help_text(words->command)) : commands[i].run(words);
    return bad_usage("", "unknown command '%s'", words->command);
}

int main(int argc, char **argv)
{
    /* A pipe that nobody reads and a file that may not grow are errors like others, and are said. */
    signal(SIGPIPE, SIG_IGN);
    signal(SIGXFSZ, SIG_IGN);
    if (argc < 2)
        return bad_usage("", "a command expected");
    if (is_one_of(argv[1], "--version", "-V"))
        return print("troughiron " TROUGHIRON_VERSION "\n");
    if (is_one_of(argv[1], "--help", "-h"))
        return print(help_text(""));
    if (strcmp(argv[1], "help") == 0)
        return help(argc - 2, argv + 2);

    struct words words = { .command = argv[1], .list = argv + 2, .count = (size_t)(argc - 2) };

    return dispatch(&words);
}
