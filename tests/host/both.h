/* Calls made on the library and on the peer, and what came of them held together. */
#ifndef BOTH_H
#define BOTH_H

#include "../../include/durungkilat.h"
#include "../../peer/host.h"

#define SLICE_MOST 1024

enum call_kind { OPEN, PREDICT, CORRECT, WITHDRAW, CALLS };

/* A slice as a host lends it; a null one has length 0. */
struct slice {
    uint8_t bytes[SLICE_MOST];
    size_t length;
    bool null;
};

/* A call and what it is given beside the image and the answer. */
struct call {
    enum call_kind kind;
    uint64_t points, tolerances[2], limit;
    int64_t position[AXES], velocity[AXES];
    struct slice samples; /* of an opening */
    double sample[AXES]; /* of a correction */
};

/* To be called once: whether slices are blocks of their own length, for valgrind, and what a line
 * on a difference is to say of the run. */
void prepare_both(bool exact, const char *run);

/* Makes the call on both sides, each with its own copies of the slices, which take what is left.
 * Ends the program where the number or a byte of a slice is another; the number. */
uint32_t make(const struct call *c, struct slice *image, struct slice *answer);

/* The same with a whole image that takes what is left, and an answer slice of the right length. */
uint32_t make_on(const struct call *c, uint8_t image[IMAGE_LENGTH]);

/* An image in a slice. */
struct slice slice_of(const uint8_t image[IMAGE_LENGTH]);

/* An answer slice of a length, with bytes of any kind. */
struct slice answer_slice(size_t length);

/* How many calls were made. */
uint64_t calls_made(void);

/* What was met so far, as lines; the items met fewer times than that are named. Whether there are
 * none. */
bool print_met(uint64_t least);

#endif
