/* Drawn calls. */
#include "draw.h"
#include "runs.h"
#include "sessions.h"

/* A run that is long enough meets everything at least so often. */
#define LONG_RUN 100000
#define MET_LEAST 20

static uint8_t image[IMAGE_LENGTH];
static struct record held;

/* Hands in another image than that of the session, which stays. */
static void call_on_damaged(const struct call *c)
{
    struct slice lent = slice_of(image), answer = answer_slice(ANSWER_LENGTH);
    lent.bytes[below(IMAGE_LENGTH)] ^= (uint8_t)(1 + below(255));
    make(c, &lent, &answer);
}

/* Lends slices of which one or both have another length. */
static void call_with_lengths(const struct call *c)
{
    struct slice lent = slice_of(image), answer = answer_slice(ANSWER_LENGTH);
    uint64_t which = 1 + below(3);
    if (which & 1)
        lent.length = ONE_OF(size_t, 0, 1, 655, 657, 200, below(SLICE_MOST));
    if (which & 2)
        answer.length = ONE_OF(size_t, 0, 1, 199, 201, 656, below(SLICE_MOST));
    lent.null = lent.length == 0 && once_in(2);
    answer.null = answer.length == 0 && once_in(2);
    make(c, &lent, &answer);
}

/* Puts another session in the place of the one held. */
static void hold(struct record r)
{
    save_image(&r, image);
    read_image(image, IMAGE_LENGTH, &held);
}

/* An opening, or a call that mostly fits the state. */
static struct call next_call(void)
{
    if (once_in(20) || (held.state == CLOSED && once_in(2)))
        return once_in(2) ? drawn_opening() : faulty_opening();
    if (once_in(10) || held.state == CLOSED || held.state == STARTING)
        return any_call(&held);
    if (held.state == SETTLED)
        return plain_call(PREDICT);
    return once_in(5) ? plain_call(WITHDRAW) : drawn_correction(&held);
}

bool run_calls(uint64_t count)
{
    hold(drawn_session(CLOSED));
    while (calls_made() < count) {
        struct call c = next_call();
        uint64_t choice = below(100);
        if (choice < 4) {
            call_on_damaged(&c);
        } else if (choice < 8) {
            call_with_lengths(&c);
        } else {
            make_on(&c, image);
            read_image(image, IMAGE_LENGTH, &held);
        }
        if (once_in(50)) {
            hold(drawn_session((enum state)below(4)));
        } else if ((held.state == SETTLED || held.state == AWAITING) && once_in(8)) {
            struct record moved = held;
            bring_to_limit(&moved);
            hold(moved);
        }
    }
    return print_met(count < LONG_RUN ? 0 : MET_LEAST);
}
