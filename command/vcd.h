/* The line as a waveform with nominal slot widths, a value change dump. */
#ifndef VCD_H
#define VCD_H

#include "bytes.h"
#include "session.h"

/* What every waveform of the command starts with, and the scope that its signals are in. */
#define VCD_START "$version troughiron $end\n"
#define VCD_SCOPE "bench"

/*
 * Adds the waveform to out. Times are in microseconds. Signals: line, what the wire does; master, what the master alone
 * does to it; pulse, the program pulse; overdrive, the speed of the master; mark, which changes where a step starts;
 * step, the number of the step.
 */
void vcd_write(struct bytes *out, const struct session *s, const uint8_t *answers);

#endif
