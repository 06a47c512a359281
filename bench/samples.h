/* The samples of the bench programs, the same in each of them.
 *
 * In words, for a program in another language: x begins as 1. To draw, x becomes the remainder of
 * 1103515245 * x + 12345 divided by 2147483648 (2^31), which stays below 2^62 on the way; the value
 * drawn is x divided by 262144 and rounded down (0 to 8191), less 4096, as a 64-bit float: a whole
 * number from -4096 to 4095. The sample of a point is three such draws, for x, y and z.
 *
 * The session opens with P points, both tolerances 1048576, limit 1, positions, velocities and all
 * opening samples 0. A step is a predict, three draws, and a correct with them. At nine points an
 * estimate moves by at most 31.3 times the largest sample and its velocity by at most 147 times, so
 * every first correction is accepted; no position leaves 2^41 within 1,000,000 steps.
 *
 * The checksum begins as 0 and takes, by exclusive or, the bits of each report: three positions and
 * three velocities of each predicted point and of each accepted one. A program called with P and
 * STEPS prints it after STEPS steps as 16 digits 0 to 9 and a to f, and a newline. */
#ifndef SAMPLES_H
#define SAMPLES_H

#include <inttypes.h>
#include <stdint.h>
#include <stdio.h>
#include <stdlib.h>
#include <string.h>

#define STEPS_MOST 1000000

struct draws {
    uint64_t x;
};

static inline double draw(struct draws *d)
{
    d->x = (1103515245 * d->x + 12345) % 2147483648;
    return (double)((int64_t)(d->x / 262144) - 4096);
}

/* Takes a report into a checksum. */
static inline void take(uint64_t *checksum, double report)
{
    uint64_t bits;
    memcpy(&bits, &report, sizeof bits);
    *checksum ^= bits;
}

/* A whole number from 0 to the largest, or the end of the program with a line. */
static inline int whole(const char *program, const char *text, long least, long most)
{
    char *end;
    long value = strtol(text, &end, 10);
    if (*text < '0' || *text > '9' || *end != 0 || value < least || value > most) {
        fprintf(stderr, "%s: %s is not from %ld to %ld\n", program, text, least, most);
        exit(2);
    }
    return (int)value;
}

/* Reads P and STEPS. */
static inline void read_pace(const char *program, int count, char **arguments, int *points,
                             int *steps)
{
    if (count != 3) {
        fprintf(stderr, "%s: give P and STEPS\n", program);
        exit(2);
    }
    *points = whole(program, arguments[1], 1, 9);
    *steps = whole(program, arguments[2], 0, STEPS_MOST);
}

#endif
