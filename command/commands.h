/* The subcommands. Each takes the words after its name and returns the exit status. */
#ifndef COMMANDS_H
#define COMMANDS_H

#include "options.h"

int new_command(struct words *words);
int show_command(struct words *words);
int run_command(struct words *words);
int search_command(struct words *words);
int check_command(struct words *words);
int serve_command(struct words *words);
int test_command(struct words *words);
int judge_command(struct words *words);
int edit_command(struct words *words);

/* The help of the command ("") or of a subcommand, or null. */
const char *help_text(const char *command);

#endif
