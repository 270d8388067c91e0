#include "options.h"

#include "status.h"

#include <string.h>

/* What may stand right after the name of an option: nothing, "=VALUE" after a long one, a value after a short one. */
static bool may_follow(const struct option *option, const char *rest)
{
    if (!*rest)
        return true;
    return option->name[1] == '-' ? *rest == '=' : !option->on;
}

/* The option that a word names, alone or with its value. */
static const struct option *option_named(const char *word, const struct option *options, size_t count)
{
    for (size_t i = 0; i < count; i++) {
        const size_t length = strlen(options[i].name);

        if (strncmp(word, options[i].name, length) == 0 && may_follow(&options[i], word + length))
            return &options[i];
    }
    return NULL;
}

/* The value in the word of an option itself, or null. */
static const char *value_inside(const char *word, const struct option *option)
{
    const char *const rest = word + strlen(option->name);

    return *rest ? rest + (option->name[1] == '-') : NULL;
}

/* Takes the option at place i; returns the number of words that it has, or 0. */
static size_t option_take(const struct words *words, size_t i, const struct option *option)
{
    const char *const inside = value_inside(words->list[i], option);
    const char *const value = inside ? inside : i + 1 < words->count ? words->list[i + 1] : NULL;

    if (option->on && inside) {
        bad_usage(words->command, "%s takes no value", option->name);
        return 0;
    }
    if (option->on) {
        *option->on = true;
        return 1;
    }
    if (!value) {
        bad_usage(words->command, "%s needs a value", option->name);
        return 0;
    }
    if (*option->value) {
        bad_usage(words->command, "%s is given twice", option->name);
        return 0;
    }
    *option->value = value;
    return inside ? 1 : 2;
}

static bool is_option(const char *word)
{
    return word[0] == '-' && word[1];
}

int options_take(struct words *words, const struct option *options, size_t count)
{
    size_t kept = 0, i = 0;

    while (i < words->count && strcmp(words->list[i], "--") != 0) {
        if (!is_option(words->list[i])) {
            words->list[kept++] = words->list[i++];
            continue;
        }

        const struct option *const option = option_named(words->list[i], options, count);
        const size_t taken = option ? option_take(words, i, option) : 0;

        if (!option)
            return bad_usage(words->command, "unknown option '%s'", words->list[i]);
        if (!taken)
            return USAGE;
        i += taken;
    }
    if (i < words->count)
        i++; /* past "--" */
    memmove(words->list + kept, words->list + i, (words->count - i) * sizeof *words->list);
    words->count = kept + words->count - i;
    return DONE;
}

int words_wrong(const struct words *words, const char *expected)
{
    return bad_usage(words->command, "%s expected, not %zu word%s", expected, words->count,
                     words->count == 1 ? "" : "s");
}
