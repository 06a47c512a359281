/* A run: points predicted one after the other, each corrected sample by sample. */
#include "shared.h"

/* The samples not read yet, of three floats each. */
struct unread {
    const double *next;
    uint64_t count;
};

/* Corrects with sample after sample for as long as it has to be done again; the last answer. */
static struct answer correct_on(struct record *r, struct unread *rest)
{
    struct answer last = {.kind = AGAIN};
    while (last.kind == AGAIN && rest->count > 0) {
        last = correct(r, rest->next);
        rest->next += AXES;
        rest->count -= 1;
    }
    return last;
}

/* One point, from its prediction on; the last answer. */
static struct answer next_point(struct record *r, struct unread *rest)
{
    struct answer prediction = predict(r);
    return prediction.number != 0 ? prediction : correct_on(r, rest);
}

struct run_answer run_session(struct record *r, uint64_t wanted, const double *samples, size_t length)
{
    struct unread rest = {samples, length / AXES};
    struct answer last = {.kind = ACCEPTED};
    uint64_t points = 0;
    if (!is_settled(r))
        return (struct run_answer){.number = 7};
    if (length % AXES != 0)
        return (struct run_answer){.number = 2};
    while (last.kind == ACCEPTED && points < wanted && rest.count > 0) {
        last = next_point(r, &rest);
        points += last.kind == ACCEPTED;
    }
    return (struct run_answer){last.number, points, length / AXES - rest.count};
}
