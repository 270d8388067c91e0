/* Small cases of the run: the DS1996, both speeds, and images full of them. */
#ifndef RUN_OVERDRIVE_H
#define RUN_OVERDRIVE_H

#include "run.h"

#include <stddef.h>

/* Each makes a case of a group, and gives 0 past its last. */
int overdrive_commands(struct run_case *c, size_t number);
int overdrive_matches(struct run_case *c, size_t number);
int overdrive_pairs(struct run_case *c, size_t number);
int overdrive_bits(struct run_case *c, size_t number);
int large_images(struct run_case *c, size_t number);

#endif
