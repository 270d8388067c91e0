/* The command line of a subcommand: options in any order among the other words. */
#ifndef OPTIONS_H
#define OPTIONS_H

#include <stdbool.h>
#include <stddef.h>

/* An option with a value, or one that is on or off. */
struct option {
    const char *name; /* with its dashes */
    const char **value;
    bool *on;
};

/* The words that follow a subcommand's name. */
struct words {
    const char *command;
    char **list;
    size_t count;
};

/* Takes the options out of the words; "--" ends them. Returns DONE, or says why not. */
int options_take(struct words *words, const struct option *options, size_t count);

/* Says what a number of words is wrong with. */
int words_wrong(const struct words *words, const char *expected);

#endif
