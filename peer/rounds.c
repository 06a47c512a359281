/* The rounds that start a session from an epoch at the centre of its points. */
#include "shared.h"

#include <string.h>

/* The points of an axis by their steps before the newest, and the sums at the newest. */
struct course {
    wide first_sum, second_sum;
    struct motion at[PLACES];
};

/* Formulas */

/* Turns a series into its product with 1 - x, as far as it is kept. */
static void step_back(int64_t *coefficients, uint64_t points)
{
    for (uint64_t i = points - 1; i > 0; i--)
        coefficients[i] -= coefficients[i - 1];
}

/* The course with the given sums at the newest point. */
static struct course course_from(wide first, wide second, const int64_t *samples, uint64_t points)
{
    struct course result = {.first_sum = first, .second_sum = second};
    int64_t b[PLACES], l[PLACES], c[PLACES];
    differences(samples, points, b);
    memcpy(l, cowell_corrector + 2, points * sizeof *l);
    memcpy(c, adams_corrector + 1, points * sizeof *c);
    for (uint64_t j = 0; j < points; j++) {
        wide before = second - first;
        result.at[j].position = before + series(l, b, points);
        result.at[j].velocity = first + series(c, b, points);
        second = before;
        first -= (wide)samples[j] * PARTS;
        step_back(l, points);
        step_back(c, points);
    }
    return result;
}

/* The course that has the epoch at its centre. */
static struct course course_through(struct motion epoch, const int64_t *samples, uint64_t points)
{
    uint64_t centre = (points - 1) / 2;
    struct motion from_zero = course_from(0, 0, samples, points).at[centre];
    wide first = epoch.velocity - from_zero.velocity;
    wide second = epoch.position - from_zero.position + (wide)(centre + 1) * first;
    return course_from(first, second, samples, points);
}

/* Works out the courses of a starting record; whether all their points are in range. */
static bool work_out(const struct record *r, struct course courses[AXES])
{
    for (int i = 0; i < AXES; i++) {
        const struct axis *a = &r->axes[i];
        courses[i] = course_through(estimate(a), a->samples, r->points);
        for (uint64_t j = 0; j < r->points; j++)
            if (!in_range(courses[i].at[j]))
                return false;
    }
    return true;
}

/* The largest changes at any point from one round to another. */
static struct motion largest_moves(const struct course before[AXES],
                                   const struct course after[AXES], uint64_t points)
{
    struct motion largest = {0, 0};
    for (int i = 0; i < AXES; i++)
        for (uint64_t j = 0; j < points; j++)
            take_changes(&largest, before[i].at[j], after[i].at[j]);
    return largest;
}

/* Records */

static bool has_centre(uint64_t points)
{
    return points % 2 == 1 && points != 1;
}

static bool zero(struct exact value)
{
    return value.whole == 0 && value.part == 0;
}

static bool axis_stands(const struct axis *a, uint64_t points)
{
    return zero(a->first_sum) && zero(a->second_sum) && zero(a->held_position) &&
           zero(a->held_velocity) && samples_stand(a, points) && a->position.part == 0 &&
           a->velocity.part == 0 && in_range(estimate(a));
}

/* Whether the starting record does not count as closed; if so courses takes its last round. */
static bool stands(const struct record *r, struct course courses[AXES])
{
    if (!points_in_range(r->points) || !has_centre(r->points) ||
        !settings_in_range(r->tolerances, r->limit) || r->accepted != 0 ||
        r->corrections >= r->limit)
        return false;
    for (int i = 0; i < AXES; i++)
        if (!axis_stands(&r->axes[i], r->points))
            return false;
    return work_out(r, courses);
}

/* Settled at the newest point. */
static void open_at(struct record *r, const struct course courses[AXES])
{
    for (int i = 0; i < AXES; i++) {
        r->axes[i].first_sum = split(courses[i].first_sum);
        r->axes[i].second_sum = split(courses[i].second_sum);
        hold_older(&r->axes[i], r->points);
    }
    settle(r);
}

/* Calls */

static struct round_answer refused(int number)
{
    return (struct round_answer){.number = number};
}

static struct round_answer closed(struct record *r, int number)
{
    *r = (struct record){.state = CLOSED};
    return refused(number);
}

static struct round_answer answered(enum kind kind, struct motion change,
                                    const struct course courses[AXES], uint64_t points)
{
    struct round_answer result = {.kind = kind, .change = change};
    for (uint64_t k = 0; k < points; k++)
        for (int i = 0; i < AXES; i++)
            result.points[k][i] = courses[i].at[points - 1 - k];
    return result;
}

struct round_answer first_round(struct record *r, const struct opening *given)
{
    int64_t ticks[PLACES * AXES];
    struct course courses[AXES];
    if (!points_in_range(given->points))
        return closed(r, 1);
    if (!has_centre(given->points))
        return closed(r, 10);
    int number = refusal_of(given, ticks);
    if (number != 0)
        return closed(r, number);
    *r = (struct record){.state = STARTING, .points = given->points,
                         .tolerances = given->tolerances, .limit = given->limit};
    hold_samples(r, ticks);
    for (int i = 0; i < AXES; i++)
        set_estimate(&r->axes[i], given_point(given, i));
    if (!work_out(r, courses))
        return closed(r, 6);
    return answered(AGAIN, (struct motion){0, 0}, courses, r->points);
}

struct round_answer later_round(struct record *r, const double *samples, size_t length)
{
    int64_t ticks[PLACES * AXES];
    struct course before[AXES], after[AXES];
    if (r->state != STARTING || !stands(r, before))
        return refused(7);
    if (length != AXES * r->points)
        return refused(2);
    int number = round_all(samples, length, ticks);
    if (number != 0)
        return refused(number);
    struct record next = *r;
    hold_samples(&next, ticks);
    if (!work_out(&next, after))
        return refused(6);
    struct motion change = largest_moves(before, after, r->points);
    if (agrees(change, r->tolerances)) {
        open_at(&next, after);
        *r = next;
        return answered(OPENED, (struct motion){0, 0}, after, r->points);
    }
    if (r->corrections + 1 >= r->limit)
        return closed(r, 8);
    next.corrections += 1;
    *r = next;
    return answered(AGAIN, change, after, r->points);
}
