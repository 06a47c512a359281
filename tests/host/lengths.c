/* Slices of every length, each beside slices that are right, and the empty ones also as null. */
#include "draw.h"
#include "runs.h"
#include "sessions.h"

#include <stdio.h>

#define LENGTH_MOST 700

/* A slice of that length: the given bytes as far as they go. */
static struct slice cut(struct slice s, size_t length, bool null)
{
    for (size_t i = s.length; i < length; i++)
        s.bytes[i] = (uint8_t)draw_word();
    s.length = length;
    s.null = null;
    return s;
}

/* The call with an image slice, an answer slice or both of that length. */
static void call_with(const struct call *c, const uint8_t *image, size_t length, bool null)
{
    for (int which = 1; which <= 3; which++) {
        struct slice lent = slice_of(image), answer = answer_slice(ANSWER_LENGTH);
        if (which & 1)
            lent = cut(lent, length, null);
        if (which & 2)
            answer = cut(answer, length, null);
        make(c, &lent, &answer);
    }
}

/* Openings of every number of points with samples of that length. */
static void open_with(size_t length, bool null)
{
    for (uint64_t points = 0; points <= PLACES + 1; points++) {
        uint8_t image[IMAGE_LENGTH];
        struct record before = drawn_session((enum state)below(4));
        struct call c = drawn_opening();
        save_image(&before, image);
        c.points = points;
        c.samples = cut(c.samples, length, null);
        make_on(&c, image);
    }
}

/* Every call with slices of that length, on every state. */
static void every_call(size_t length, bool null)
{
    for (int state = CLOSED; state <= STARTING; state++) {
        uint8_t image[IMAGE_LENGTH];
        struct record r = drawn_session((enum state)state);
        struct call opening = drawn_opening(), correction = drawn_correction(&r);
        struct call predict = plain_call(PREDICT), withdraw = plain_call(WITHDRAW);
        save_image(&r, image);
        call_with(&opening, image, length, null);
        call_with(&predict, image, length, null);
        call_with(&correction, image, length, null);
        call_with(&withdraw, image, length, null);
    }
    open_with(length, null);
}

bool run_lengths(void)
{
    for (int time = 0; time < 2; time++) {
        for (size_t length = 0; length <= LENGTH_MOST; length++)
            every_call(length, false);
        every_call(0, true);
    }
    printf("lengths from 0 to %d of image, answer and samples, and null\n", LENGTH_MOST);
    return true;
}
