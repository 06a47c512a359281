/*
 * durungkilat.h - orbits stepped at equal intervals of time, in exact fractions.
 *
 * The host evaluates the forces on a body and hands in its accelerations; the library answers with
 * positions (Gauss-Jackson) and velocities (summed Adams) on three axes. Link one archive:
 *
 *     gcc -Iinclude program.c target/lib/libdurungkilat.a
 *
 * `./build` makes it, and the shared object target/lib/libdurungkilat.so beside it. Both are for
 * Linux on x86-64. docs/HOST.md says how to choose units and tolerances; a whole host is in
 * examples/orbit.c.
 *
 * A session steps one body. Its whole state is an image, 656 bytes that the host owns:
 *
 *     open      begins a session at a point, with samples at that point and at earlier ones
 *     predict   answers where the body will be one step later
 *     correct   takes the sample at that place and answers a better one: accepted, or once more
 *     withdraw  takes a prediction back
 *
 * The library allocates nothing and keeps nothing between calls. Calls on different images may run
 * at the same time in different threads; those on one image may not. An image is plain bytes: to
 * save a session write them to a file, to go on with it read them back, to try something out copy
 * them.
 *
 *
 * UNITS
 *
 * A tick is the host's unit of length, of any size that it likes. Time is counted in steps, so that
 * a velocity is in ticks per step. A sample is an acceleration times the step squared, in ticks:
 * three doubles x, y, z. Each is rounded to the nearest whole tick, a tie to the even one.
 *
 * Positions and velocities are exact values: a whole number of ticks, rounded down, and a remainder
 * from 0 to 159667199, in units of 1/159667200 tick. Minus three and a half ticks are the whole -4
 * and the remainder 79833600. Beside the two stands the same as a double, here -3.5: the remainder
 * divided by 159667200, then added to the whole, both times rounded to the nearest, which is how
 * the processor rounds in every program that does not set it otherwise.
 *
 *
 * SLICES
 *
 * A slice is a pointer and a length in bytes. Whatever its bytes are, and however long it is, a
 * call answers as said here. What the host has to see to:
 *
 *   - at the pointer there is memory of that length
 *   - image, answer and samples do not overlap
 *   - a pointer is null only where its length is 0; such a slice is an empty one, whose length is
 *     wrong in every call
 *
 * Slices need no alignment. Samples are only read.
 */
#ifndef DURUNGKILAT_H
#define DURUNGKILAT_H

#include <stddef.h>
#include <stdint.h>
#include <string.h>

#ifdef __cplusplus
extern "C" {
#endif

/* Lengths of slices in bytes; samples have 24 bytes for each back point. */
#define DURUNGKILAT_IMAGE_LENGTH 656
#define DURUNGKILAT_ANSWER_LENGTH 200
#define DURUNGKILAT_SAMPLE_LENGTH 24

/* Limits. A position is at least -2^52 and below 2^52, a velocity at least -2^40 and below 2^40. */
#define DURUNGKILAT_POINTS_MOST 9
#define DURUNGKILAT_TOLERANCE_MOST 1048576
#define DURUNGKILAT_LIMIT_MOST 8
#define DURUNGKILAT_SAMPLE_MOST 268435456
#define DURUNGKILAT_ACCEPTED_MOST 1000000

/* The parts of a tick that a remainder counts. */
#define DURUNGKILAT_PARTS 159667200


/*
 * NUMBERS
 *
 * Each call returns 0 or the number of a refusal. A refusal leaves the answer all zero and the
 * image as it was, but for these:
 *
 *   - 14 leaves both slices as they were, byte for byte
 *   - any other refusal of open leaves the image of a closed session
 *   - 8 leaves the session settled at the point before, as a withdrawal does
 *
 * Where several apply, the first in this order is returned:
 *
 *   open      14, 1, 2, 3, 6, 4, 13, 5
 *   predict   14, 7, 9, 6
 *   correct   14, 7, 4, 13, 5, 6, 8
 *   withdraw  14, 7
 */
#define DURUNGKILAT_DONE 0
#define DURUNGKILAT_POINTS_OFF 1        /* points is not from 1 to 9 */
#define DURUNGKILAT_SAMPLES_OFF 2       /* the samples have not 24 bytes for each point */
#define DURUNGKILAT_SETTING_OFF 3       /* a tolerance over 1048576, or a limit not from 1 to 8 */
#define DURUNGKILAT_NOT_A_NUMBER 4      /* a sample has a NaN */
#define DURUNGKILAT_SAMPLE_TOO_LARGE 5  /* a sample rounds to more than 268435456 ticks, or less
                                           than minus as many */
#define DURUNGKILAT_OUT_OF_RANGE 6      /* a position or velocity, given or worked out */
#define DURUNGKILAT_WRONG_STATE 7       /* the call does not fit the state of the session */
#define DURUNGKILAT_NO_AGREEMENT 8      /* the last correction allowed, and a value moved too far */
#define DURUNGKILAT_ALL_POINTS_MADE 9   /* the session has accepted 1000000 points */
#define DURUNGKILAT_INFINITE 13         /* a sample has an infinity, and none has a NaN */
#define DURUNGKILAT_NO_IMAGE 14         /* the image slice holds no session's image, or the answer
                                           slice has not 200 bytes */


/*
 * CALLS
 */

/*
 * Begins a session. Whatever the image slice held is overwritten and not looked at.
 *
 * points              the number of back points, 1 to 9: the more, the higher the order
 * position_tolerance  in ticks, 0 to 1048576: how far a correction may move a position
 * velocity_tolerance  in ticks per step, 0 to 1048576: the same of a velocity
 * limit               the most corrections of one point, 1 to 8
 * x, y, z             the position at the newest back point, in ticks
 * vx, vy, vz          the velocity there, in ticks per step
 * samples             of each back point three doubles x, y, z, the oldest point first, the lowest
 *                     byte of a double first; on x86-64 an array of doubles has these bytes
 *
 * Returns 0, and the session is settled with no accepted points and the answer is all zero; or 1,
 * 2, 3, 4, 5, 6 or 13, and the session is closed; or 14, for a wrong length of image or answer
 * alone.
 */
uint32_t durungkilat_open(uint8_t *image, size_t image_length, uint8_t *answer,
                          size_t answer_length, uint64_t points, uint64_t position_tolerance,
                          uint64_t velocity_tolerance, uint64_t limit, int64_t x, int64_t y,
                          int64_t z, int64_t vx, int64_t vy, int64_t vz, const uint8_t *samples,
                          size_t samples_length);

/*
 * Predicts the next point of a settled session.
 *
 * Returns 0, and the answer has the point, and the session awaits a sample; or 6, 7, 9 or 14.
 */
uint32_t durungkilat_predict(uint8_t *image, size_t image_length, uint8_t *answer,
                             size_t answer_length);

/*
 * Corrects the point that is awaited by the sample x, y, z, which is to be evaluated at the point
 * of the last answer. All six values are compared with those of that answer.
 *
 * Returns 0, and the answer has one of two kinds:
 *
 *   - DURUNGKILAT_ACCEPTED and the point, where none moved by more than its tolerance: the session
 *     is settled there and has one accepted point more
 *   - DURUNGKILAT_AGAIN, the new point and the largest change of a position and of a velocity,
 *     where some did: the session awaits another sample, evaluated at the new point
 *
 * or 4, 5, 6, 7, 8, 13 or 14. After 4, 5, 6 and 13 the session still awaits a sample, and the
 * correction does not count.
 */
uint32_t durungkilat_correct(uint8_t *image, size_t image_length, uint8_t *answer,
                             size_t answer_length, double x, double y, double z);

/*
 * Takes a prediction back: the session is settled as it was before.
 *
 * Returns 0, and the answer is all zero; or 7 or 14.
 */
uint32_t durungkilat_withdraw(uint8_t *image, size_t image_length, uint8_t *answer,
                              size_t answer_length);


/*
 * THE ANSWER
 *
 * 25 words. A word has eight bytes, the lowest first; one that can be negative is in two's
 * complement. First comes the kind, then eight values of three words each. Offsets are in bytes.
 */
#define DURUNGKILAT_KIND 0
#define DURUNGKILAT_X 8
#define DURUNGKILAT_VX 32
#define DURUNGKILAT_Y 56
#define DURUNGKILAT_VY 80
#define DURUNGKILAT_Z 104
#define DURUNGKILAT_VZ 128
#define DURUNGKILAT_POSITION_CHANGE 152 /* the largest, as a size; zero but for the kind again */
#define DURUNGKILAT_VELOCITY_CHANGE 176

/* In a value, from its offset on. */
#define DURUNGKILAT_WHOLE 0     /* signed */
#define DURUNGKILAT_REMAINDER 8 /* 0 to 159667199 */
#define DURUNGKILAT_REPORT 16   /* the bits of the double */

/* Kinds. All calls but correct have the kind 0, and so has every refusal. */
#define DURUNGKILAT_ACCEPTED 1
#define DURUNGKILAT_AGAIN 2


/*
 * THE IMAGE
 *
 * 82 words: a table of contents with three words for each of four bodies, then the bodies.
 *
 *   kind          offset  length
 *   1, settings       96      56
 *   2, sums          152     192
 *   3, samples       344     216
 *   4, estimate      560      96
 *
 * A closed image is the table and zeros. Bytes that no session can have are refused 14, so that a
 * file that was cut or overwritten seldom passes for a session; but there is no checksum, and bytes
 * that some session can have are taken for that one.
 */
#define DURUNGKILAT_TABLE 0      /* four entries */
#define DURUNGKILAT_SETTINGS 96
#define DURUNGKILAT_SUMS 152     /* of x, y, z */
#define DURUNGKILAT_SAMPLES 344  /* nine places, the newest first, each x, y, z in whole ticks */
#define DURUNGKILAT_ESTIMATE 560 /* of x, y, z */

/* An entry of the table. */
#define DURUNGKILAT_ENTRY_LENGTH 24
#define DURUNGKILAT_ENTRY_KIND 0
#define DURUNGKILAT_ENTRY_OFFSET 8
#define DURUNGKILAT_ENTRY_BODY_LENGTH 16

/* The settings, as offsets in the image. */
#define DURUNGKILAT_STATE 96
#define DURUNGKILAT_POINTS 104
#define DURUNGKILAT_POSITION_TOLERANCE 112
#define DURUNGKILAT_VELOCITY_TOLERANCE 120
#define DURUNGKILAT_LIMIT 128
#define DURUNGKILAT_ACCEPTED_POINTS 136
#define DURUNGKILAT_CORRECTIONS 144 /* of the point awaited; while starting the later rounds */

/* The sums of an axis, each whole and remainder: the first and the second sum, and what the samples
 * but the oldest give to the next corrected position and velocity. */
#define DURUNGKILAT_SUMS_LENGTH 64
#define DURUNGKILAT_FIRST_SUM 0
#define DURUNGKILAT_SECOND_SUM 16
#define DURUNGKILAT_HELD_POSITION 32
#define DURUNGKILAT_HELD_VELOCITY 48

/* The estimate of an axis, each whole and remainder: the last answer while a sample is awaited, the
 * epoch while starting, else zero. */
#define DURUNGKILAT_ESTIMATE_LENGTH 32
#define DURUNGKILAT_ESTIMATE_POSITION 0
#define DURUNGKILAT_ESTIMATE_VELOCITY 16

/* States. A starting session is between the rounds of a start from an epoch, for which there are no
 * calls here: open begins another session, and the other three answer 7. */
#define DURUNGKILAT_CLOSED 0
#define DURUNGKILAT_SETTLED 1
#define DURUNGKILAT_AWAITING 2
#define DURUNGKILAT_STARTING 3

#ifdef __cplusplus
}
#endif


/*
 * HELPERS
 *
 * For an offset within the slice, on any processor.
 */

/* A word that is not negative: a kind, a state, a count, a remainder. */
static inline uint64_t durungkilat_word(const uint8_t *slice, size_t offset)
{
    uint64_t word = 0;
    int i;
    for (i = 7; i >= 0; i--)
        word = word << 8 | slice[offset + (size_t)i];
    return word;
}

/* A word that can be negative: the whole ticks of a value, a sample of an image. */
static inline int64_t durungkilat_signed(const uint8_t *slice, size_t offset)
{
    uint64_t word = durungkilat_word(slice, offset);
    int64_t value;
    memcpy(&value, &word, sizeof value);
    return value;
}

/* The double of a value, as durungkilat_report(answer, DURUNGKILAT_X). */
static inline double durungkilat_report(const uint8_t *answer, size_t value)
{
    uint64_t word = durungkilat_word(answer, value + DURUNGKILAT_REPORT);
    double report;
    memcpy(&report, &word, sizeof report);
    return report;
}

#endif
