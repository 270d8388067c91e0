/*
 * What GTKWave needs beside a waveform to show it at once: a save file with the signals and a zoom at the first event,
 * and a file that gives the numbers of the steps their texts.
 */
#ifndef GTKWAVE_H
#define GTKWAVE_H

#include "bytes.h"
#include "session.h"

/* What these files start with. */
#define SAVE_START "[*] troughiron\n"
#define STEPS_START "-1 idle\n"

/* The paths of the two files beside a waveform, to be freed; null where the waveform does not go to a file. */
char *save_path(const char *vcd);
char *steps_path(const char *vcd);

void save_write(struct bytes *out, const char *vcd);
void steps_write(struct bytes *out, const struct session *s);

#endif
