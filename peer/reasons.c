/* Why a correction is answered as it is: the value that is the reason, and the sample's difference. */
#include "shared.h"

/* Values are numbered in the order in which they are looked at: 1 to 3 positions, 4 to 6 velocities. */
#define VALUES (2 * AXES)

static bool is_position(int value)
{
    return value <= AXES;
}

static wide value_of(const struct motion point[AXES], int value)
{
    struct motion m = point[(value - 1) % AXES];
    return is_position(value) ? m.position : m.velocity;
}

/* The first axis whose float alone calls for the number. */
static int first_at_fault(const double sample[AXES], int number)
{
    int64_t tick;
    for (int axis = 1; axis <= AXES; axis++)
        if (round_all(&sample[axis - 1], 1, &tick) == number)
            return axis;
    return 0;
}

static int first_out_of_range(const struct motion point[AXES])
{
    for (int value = 1; value <= VALUES; value++) {
        wide number = value_of(point, value);
        if (!in_range(is_position(value) ? (struct motion){number, 0} : (struct motion){0, number}))
            return value;
    }
    return 0;
}

/* Names the first value that moves by more than the tolerance of its kind, its change and that. */
static void name_moved(struct reason *result, struct tolerances tolerances,
                       const struct motion before[AXES], const struct motion after[AXES])
{
    for (int value = 1; value <= VALUES; value++) {
        wide change = value_of(after, value) - value_of(before, value);
        uint64_t tolerance = is_position(value) ? tolerances.position : tolerances.velocity;
        wide most = (wide)tolerance * PARTS;
        if (change < -most || most < change) {
            result->value = value;
            result->change = change;
            result->tolerance = tolerance;
            return;
        }
    }
}

/* The difference of order p at the new sample: the binomials of (1 - x)^p over it and those held. */
static int64_t difference_at(int64_t newest, const int64_t *held, uint64_t points)
{
    int64_t result = newest, binomial = 1;
    for (uint64_t back = 1; back <= points; back++) {
        binomial = -binomial * (int64_t)(points + 1 - back) / (int64_t)back;
        result += binomial * held[back - 1];
    }
    return result;
}

struct reason why(const struct record *r, const double sample[AXES])
{
    struct record tried = *r;
    struct answer answered = correct(&tried, sample);
    struct reason result = {.number = answered.number, .kind = answered.kind};
    struct motion before[AXES], after[AXES];
    int64_t ticks[AXES];
    if (result.number == 7)
        return result;
    if (round_all(sample, AXES, ticks) != 0) {
        result.value = first_at_fault(sample, result.number);
        return result;
    }
    for (int i = 0; i < AXES; i++) {
        before[i] = estimate(&r->axes[i]);
        after[i] = corrected_with(r->axes[i], r->points, ticks[i]);
    }
    if (result.number == 6)
        result.value = first_out_of_range(after);
    else if (result.kind != ACCEPTED)
        name_moved(&result, r->tolerances, before, after);
    result.given = r->corrections == 0;
    for (int i = 0; result.given && i < AXES; i++)
        result.differences[i] = difference_at(ticks[i], r->axes[i].samples, r->points);
    return result;
}
