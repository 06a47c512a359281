/* The rules of the paper: coefficients, rounding, stepping formulas, calls. */
#include "shared.h"

#include <math.h>
#include <stdlib.h>
#include <string.h>

#define TOLERANCE_MOST 1048576
#define LIMIT_MOST 8
#define SAMPLE_MOST 268435456
#define ACCEPTED_MOST 1000000
#define POSITION_BOUND ((int64_t)1 << 52)
#define VELOCITY_BOUND ((int64_t)1 << 40)

/* Coefficients */

struct fraction {
    wide top, bottom;
};

int64_t adams_corrector[PLACES + 1], cowell_corrector[PLACES + 2];
/* g(i) and s(i) times D, at their index. */
static int64_t adams_predictor[PLACES + 1], stormer_predictor[PLACES + 2];
/* By points, the weights of the correctors' samples, newest first. */
static int64_t position_weights[PLACES + 1][PLACES], velocity_weights[PLACES + 1][PLACES];

static struct fraction reduced(wide top, wide bottom)
{
    wide a = top < 0 ? -top : top, b = bottom;
    while (b != 0) {
        wide rest = a % b;
        a = b;
        b = rest;
    }
    return (struct fraction){top / a, bottom / a};
}

static struct fraction sum(struct fraction a, struct fraction b)
{
    return reduced(a.top * b.bottom + b.top * a.bottom, a.bottom * b.bottom);
}

static struct fraction product(struct fraction a, struct fraction b)
{
    return reduced(a.top * b.top, a.bottom * b.bottom);
}

/* The fraction times D, which has to be whole. */
static int64_t scaled(struct fraction f)
{
    wide top = f.top * PARTS;
    if (top % f.bottom != 0)
        abort();
    return (int64_t)(top / f.bottom);
}

/* What a series of differences gives to each of its samples: (1 - x)^order has the binomials. */
static void weigh(const int64_t *coefficients, uint64_t points, int64_t *weights)
{
    for (uint64_t back = 0; back < points; back++) {
        int64_t binomial = back % 2 == 0 ? 1 : -1;
        for (uint64_t order = back; order < points; order++) {
            weights[back] += binomial * coefficients[order];
            binomial = binomial * (int64_t)(order + 1) / (int64_t)(order + 1 - back);
        }
    }
}

void prepare(void)
{
    const struct fraction zero = {0, 1};
    struct fraction c[PLACES + 2], g = zero, s = zero;
    c[0] = (struct fraction){1, 1};
    for (int i = 1; i < PLACES + 2; i++) {
        c[i] = zero;
        for (int j = 1; j <= i; j++)
            c[i] = sum(c[i], product(c[i - j], (struct fraction){-1, j + 1}));
    }
    for (int i = 0; i < PLACES + 2; i++) {
        struct fraction l = zero;
        for (int k = 0; k <= i; k++)
            l = sum(l, product(c[k], c[i - k]));
        s = sum(s, l);
        cowell_corrector[i] = scaled(l);
        stormer_predictor[i] = scaled(s);
    }
    for (int i = 0; i < PLACES + 1; i++) {
        g = sum(g, c[i]);
        adams_corrector[i] = scaled(c[i]);
        adams_predictor[i] = scaled(g);
    }
    for (uint64_t points = 1; points <= PLACES; points++) {
        weigh(cowell_corrector + 2, points, position_weights[points]);
        weigh(adams_corrector + 1, points, velocity_weights[points]);
    }
}

/* Numbers */

wide parts(struct exact value)
{
    return (wide)value.whole * PARTS + value.part;
}

struct exact split(wide number)
{
    wide whole = number / PARTS, part = number % PARTS;
    if (part < 0) {
        whole -= 1;
        part += PARTS;
    }
    return (struct exact){(int64_t)whole, (uint32_t)part};
}

double report(struct exact value)
{
    double fraction = (double)value.part / (double)PARTS;
    return fraction + (double)value.whole;
}

/* The nearest whole number of ticks, a tie to the even one; false where it is too large. */
static bool rounded(double given, int64_t *ticks)
{
    double size = fabs(given);
    if (size > 2.0 * SAMPLE_MOST)
        return false;
    int64_t below = (int64_t)size;
    double rest = size - (double)below;
    if (rest > 0.5 || (rest == 0.5 && below % 2 == 1))
        below += 1;
    *ticks = given < 0 ? -below : below;
    return below <= SAMPLE_MOST;
}

int round_all(const double *given, size_t length, int64_t *ticks)
{
    for (size_t i = 0; i < length; i++)
        if (isnan(given[i]))
            return 4;
    for (size_t i = 0; i < length; i++)
        if (isinf(given[i]))
            return 13;
    for (size_t i = 0; i < length; i++)
        if (!rounded(given[i], &ticks[i]))
            return 5;
    return 0;
}

static bool position_in_range(wide position)
{
    const wide bound = (wide)POSITION_BOUND * PARTS;
    return -bound <= position && position < bound;
}

static bool velocity_in_range(wide velocity)
{
    const wide bound = (wide)VELOCITY_BOUND * PARTS;
    return -bound <= velocity && velocity < bound;
}

bool in_range(struct motion m)
{
    return position_in_range(m.position) && velocity_in_range(m.velocity);
}

/* Stepping formulas */

void differences(const int64_t *samples, uint64_t points, int64_t *result)
{
    memcpy(result, samples, points * sizeof *result);
    for (uint64_t order = 1; order < points; order++)
        for (uint64_t i = points - 1; i >= order; i--)
            result[i] = result[i - 1] - result[i];
}

wide series(const int64_t *coefficients, const int64_t *differences, uint64_t points)
{
    wide result = 0;
    for (uint64_t order = 0; order < points; order++)
        result += (wide)coefficients[order] * differences[order];
    return result;
}

/* The predicted point after the sums' point. */
static struct motion predicted(const struct axis *a, uint64_t points)
{
    int64_t b[PLACES];
    differences(a->samples, points, b);
    return (struct motion){
        parts(a->second_sum) + series(stormer_predictor + 2, b, points),
        parts(a->first_sum) + series(adams_predictor + 1, b, points)};
}

/* The corrected point at n: second sum at n-1, first sum at n, samples up to n. */
static struct motion corrected(wide second, wide first, const int64_t *samples, uint64_t points)
{
    int64_t b[PLACES];
    differences(samples, points, b);
    return (struct motion){
        second + series(cowell_corrector + 2, b, points),
        first + series(adams_corrector + 1, b, points)};
}

/* The point at which the sums stand. */
static struct motion present(const struct axis *a, uint64_t points)
{
    wide first = parts(a->first_sum);
    return corrected(parts(a->second_sum) - first, first, a->samples, points);
}

/* What the samples but the oldest give to the next corrected point, where each is one place older. */
static struct motion older_part(const struct axis *a, uint64_t points)
{
    wide position = 0, velocity = 0;
    for (uint64_t back = 1; back < points; back++) {
        position += (wide)position_weights[points][back] * a->samples[back - 1];
        velocity += (wide)velocity_weights[points][back] * a->samples[back - 1];
    }
    return (struct motion){position, velocity};
}

/* Moves the samples one place on and puts the newest first; the oldest is lost. */
static void push(int64_t *samples, uint64_t points, int64_t newest)
{
    memmove(samples + 1, samples, (points - 1) * sizeof *samples);
    samples[0] = newest;
}

/* Agreement */

static wide larger(wide largest, wide change)
{
    wide size = change < 0 ? -change : change;
    return size > largest ? size : largest;
}

void take_changes(struct motion *largest, struct motion before, struct motion after)
{
    largest->position = larger(largest->position, after.position - before.position);
    largest->velocity = larger(largest->velocity, after.velocity - before.velocity);
}

bool agrees(struct motion largest, struct tolerances tolerances)
{
    return largest.position <= (wide)tolerances.position * PARTS &&
           largest.velocity <= (wide)tolerances.velocity * PARTS;
}

/* Records */

bool points_in_range(uint64_t points)
{
    return points >= 1 && points <= PLACES;
}

bool settings_in_range(struct tolerances tolerances, uint64_t limit)
{
    return tolerances.position <= TOLERANCE_MOST && tolerances.velocity <= TOLERANCE_MOST &&
           limit >= 1 && limit <= LIMIT_MOST;
}

bool samples_stand(const struct axis *a, uint64_t points)
{
    for (uint64_t i = 0; i < PLACES; i++) {
        int64_t most = i < points ? SAMPLE_MOST : 0;
        if (a->samples[i] < -most || a->samples[i] > most)
            return false;
    }
    return true;
}

void hold_samples(struct record *r, const int64_t *ticks)
{
    for (int i = 0; i < AXES; i++)
        for (uint64_t k = 0; k < r->points; k++)
            push(r->axes[i].samples, r->points, ticks[AXES * k + i]);
}

struct motion estimate(const struct axis *a)
{
    return (struct motion){parts(a->position), parts(a->velocity)};
}

void set_estimate(struct axis *a, struct motion m)
{
    a->position = split(m.position);
    a->velocity = split(m.velocity);
}

void hold_older(struct axis *a, uint64_t points)
{
    struct motion older = older_part(a, points);
    a->held_position = split(older.position);
    a->held_velocity = split(older.velocity);
}

static bool same(struct exact a, struct exact b)
{
    return a.whole == b.whole && a.part == b.part;
}

/* Whether the held sums are those of the samples, in the one form of each. */
static bool held_stands(const struct axis *a, uint64_t points)
{
    struct motion older = older_part(a, points);
    return same(a->held_position, split(older.position)) &&
           same(a->held_velocity, split(older.velocity));
}

static bool axis_stands(const struct record *r, const struct axis *a)
{
    const struct exact values[] = {a->first_sum, a->second_sum, a->position, a->velocity};
    for (int i = 0; i < 4; i++)
        if (values[i].part >= PARTS)
            return false;
    if (!samples_stand(a, r->points) || !held_stands(a, r->points))
        return false;
    struct motion held = estimate(a);
    if (!in_range(present(a, r->points)) || !in_range(held))
        return false;
    if (r->state == SETTLED)
        return held.position == 0 && held.velocity == 0;
    struct motion next = predicted(a, r->points);
    return r->corrections > 0 ||
           (held.position == next.position && held.velocity == next.velocity);
}

/* Whether the settled or awaiting record does not count as closed. */
static bool stands(const struct record *r)
{
    if (!points_in_range(r->points) || !settings_in_range(r->tolerances, r->limit) ||
        r->accepted > ACCEPTED_MOST)
        return false;
    if (r->state == SETTLED && r->corrections != 0)
        return false;
    if (r->state == AWAITING && (r->corrections >= r->limit || r->accepted == ACCEPTED_MOST))
        return false;
    for (int i = 0; i < AXES; i++)
        if (!axis_stands(r, &r->axes[i]))
            return false;
    return true;
}

bool is_settled(const struct record *r)
{
    return r->state == SETTLED && stands(r);
}

void settle(struct record *r)
{
    r->state = SETTLED;
    r->corrections = 0;
    for (int i = 0; i < AXES; i++)
        set_estimate(&r->axes[i], (struct motion){0, 0});
}

/* Calls */

/* An answer with nothing but its number. */
static struct answer bare(int number)
{
    return (struct answer){.number = number};
}

static struct answer close_session(struct record *r, int number)
{
    *r = (struct record){.state = CLOSED};
    return bare(number);
}

struct motion given_point(const struct opening *given, int axis)
{
    return (struct motion){(wide)given->position[axis] * PARTS,
                           (wide)given->velocity[axis] * PARTS};
}

/* The sums for which the corrected point is the given one, and those held of the samples. */
static void open_axis(struct axis *a, uint64_t points, struct motion point)
{
    struct motion from_zero = corrected(0, 0, a->samples, points);
    wide first = point.velocity - from_zero.velocity;
    wide before = point.position - from_zero.position;
    a->first_sum = split(first);
    a->second_sum = split(before + first);
    hold_older(a, points);
}

int refusal_of(const struct opening *given, int64_t *ticks)
{
    if (given->length != AXES * given->points)
        return 2;
    if (!settings_in_range(given->tolerances, given->limit))
        return 3;
    for (int i = 0; i < AXES; i++)
        if (!in_range(given_point(given, i)))
            return 6;
    return round_all(given->samples, given->length, ticks);
}

struct answer open_session(struct record *r, const struct opening *given)
{
    int64_t ticks[PLACES * AXES];
    if (!points_in_range(given->points))
        return close_session(r, 1);
    int number = refusal_of(given, ticks);
    if (number != 0)
        return close_session(r, number);
    *r = (struct record){.state = SETTLED, .points = given->points,
                         .tolerances = given->tolerances, .limit = given->limit};
    hold_samples(r, ticks);
    for (int i = 0; i < AXES; i++)
        open_axis(&r->axes[i], given->points, given_point(given, i));
    return bare(0);
}

struct answer predict(struct record *r)
{
    struct answer result = {.kind = NONE};
    if (!is_settled(r))
        return bare(7);
    if (r->accepted == ACCEPTED_MOST)
        return bare(9);
    for (int i = 0; i < AXES; i++) {
        result.point[i] = predicted(&r->axes[i], r->points);
        if (!in_range(result.point[i]))
            return bare(6);
    }
    r->state = AWAITING;
    for (int i = 0; i < AXES; i++)
        set_estimate(&r->axes[i], result.point[i]);
    return result;
}

/* Takes the samples into the sums and settles at their point. */
static void accept(struct record *r, const int64_t ticks[AXES])
{
    for (int i = 0; i < AXES; i++) {
        struct axis *a = &r->axes[i];
        wide first = parts(a->first_sum) + (wide)ticks[i] * PARTS;
        a->first_sum = split(first);
        a->second_sum = split(parts(a->second_sum) + first);
        push(a->samples, r->points, ticks[i]);
        hold_older(a, r->points);
    }
    r->accepted += 1;
    settle(r);
}

struct motion corrected_with(struct axis a, uint64_t points, int64_t tick)
{
    push(a.samples, points, tick);
    return corrected(parts(a.second_sum), parts(a.first_sum) + (wide)tick * PARTS,
                     a.samples, points);
}

/* The largest changes from the estimate held. */
static struct motion largest_changes(const struct record *r, const struct motion point[AXES])
{
    struct motion largest = {0, 0};
    for (int i = 0; i < AXES; i++)
        take_changes(&largest, estimate(&r->axes[i]), point[i]);
    return largest;
}

struct answer correct(struct record *r, const double sample[AXES])
{
    struct answer result = {.kind = ACCEPTED};
    int64_t ticks[AXES];
    if (r->state != AWAITING || !stands(r))
        return bare(7);
    int number = round_all(sample, AXES, ticks);
    if (number != 0)
        return bare(number);
    for (int i = 0; i < AXES; i++) {
        result.point[i] = corrected_with(r->axes[i], r->points, ticks[i]);
        if (!in_range(result.point[i]))
            return bare(6);
    }
    struct motion change = largest_changes(r, result.point);
    if (agrees(change, r->tolerances)) {
        accept(r, ticks);
        return result;
    }
    if (r->corrections + 1 >= r->limit) {
        settle(r);
        return bare(8);
    }
    r->corrections += 1;
    for (int i = 0; i < AXES; i++)
        set_estimate(&r->axes[i], result.point[i]);
    result.kind = AGAIN;
    result.change = change;
    return result;
}

struct answer withdraw(struct record *r)
{
    if (r->state != AWAITING || !stands(r))
        return bare(7);
    settle(r);
    return bare(0);
}
