/* The runs of the comparison. Each ends the program on a difference, and returns whether all that
 * it has to meet was met. */
#ifndef RUNS_H
#define RUNS_H

#include <stdbool.h>
#include <stdint.h>

/* So many drawn calls, one after the other, on sessions that go on. */
bool run_calls(uint64_t count);

/* So many damaged images; in a long run each byte of some in turn comes first. */
bool run_images(uint64_t count);

/* Each length from 0 to 700 of each slice. */
bool run_lengths(void);

/* The offsets that the header names, on drawn sessions and answers. */
bool run_fields(void);

/* The calls of a script on standard input. */
bool run_script(void);

#endif
