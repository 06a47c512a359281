/* Sessions are made by the peer's rules, so that both sides are handed the same ones. */
#include "sessions.h"

#include "../../peer/shared.h"
#include "draw.h"

#include <math.h>

/* Floats */

static double of_bits(uint64_t bits)
{
    double value;
    memcpy(&value, &bits, sizeof value);
    return value;
}

static uint64_t bits_of(double value)
{
    uint64_t bits;
    memcpy(&bits, &value, sizeof bits);
    return bits;
}

/* The float or one beside it. */
static double near(double value)
{
    return of_bits(bits_of(value) + ONE_OF(uint64_t, 0, 0, 1, (uint64_t)-1));
}

static uint64_t any_sign(void)
{
    return once_in(2) ? (uint64_t)1 << 63 : 0;
}

double any_float(void)
{
    const uint64_t infinity = (uint64_t)0x7ff << 52, fraction = ((uint64_t)1 << 52) - 1;
    switch (below(8)) {
    case 0:
        return of_bits(draw_word());
    case 1: /* no number, with any payload */
        return of_bits(any_sign() | infinity |
                       ONE_OF(uint64_t, 1, fraction, (fraction + 1) / 2, 1 + below(fraction)));
    case 2:
        return of_bits(any_sign() | infinity);
    case 3: /* zero, the least and the largest finite ones */
        return of_bits(any_sign() | ONE_OF(uint64_t, 0, 1, fraction, fraction + 1, infinity - 1));
    case 4: /* a power of two */
        return near(of_bits(any_sign() | (1 + below(0x7fe)) << 52));
    case 5: /* the largest sample */
        return near(copysign(SAMPLE_MOST + ONE_OF(double, -1, -0.5, 0, 0.5, 0.75, 1, 1.5),
                             once_in(2) ? 1 : -1));
    case 6: /* a tie */
        return near((double)draw_signed(2 * SAMPLE_MOST) + 0.5);
    default:
        return (double)draw_signed((int64_t)1 << 40);
    }
}

/* A float that rounds to a sample of at most that size. */
static double usable_float(int64_t scale)
{
    double ticks = (double)between(-scale, scale);
    if (once_in(2))
        return ticks;
    return once_in(3) ? near(ticks / 2) : ticks * (1 - ldexp((double)below(1024), -20));
}

/* Openings */

static uint64_t drawn_tolerance(void)
{
    return ONE_OF(uint64_t, 0, draw_size(TOLERANCE_MOST), TOLERANCE_MOST, TOLERANCE_MOST);
}

static void set_samples(struct call *c, uint64_t floats, int64_t scale)
{
    c->samples.length = 8 * floats;
    for (uint64_t i = 0; i < floats; i++) {
        double value = usable_float(scale);
        memcpy(c->samples.bytes + 8 * i, &value, sizeof value);
    }
}

static struct call opening_of(uint64_t points)
{
    struct call c = {.kind = OPEN, .points = points, .limit = 1 + below(LIMIT_MOST)};
    c.tolerances[0] = drawn_tolerance();
    c.tolerances[1] = drawn_tolerance();
    for (int i = 0; i < AXES; i++) {
        c.position[i] = draw_signed(POSITION_BOUND / 2);
        c.velocity[i] = draw_signed(VELOCITY_BOUND / 4);
    }
    set_samples(&c, AXES * points, 1 + (int64_t)draw_size(SAMPLE_MOST - 2));
    return c;
}

struct call drawn_opening(void)
{
    return opening_of(1 + below(PLACES));
}

/* A number at a bound or beside it, or any at all. */
static int64_t at_bound(int64_t bound)
{
    return ONE_OF(int64_t, -bound - 1, -bound, -bound + 1, bound - 1, bound, bound + 1,
                  (int64_t)draw_word());
}

/* A number whose low bits are those of the given one. */
static uint64_t wider(uint64_t number)
{
    return number + ((uint64_t)1 << ONE_OF(int, 8, 16, 32, 63));
}

static void add_fault(struct call *c)
{
    double value = any_float();
    switch (below(8)) {
    case 0:
        c->points = ONE_OF(uint64_t, 0, 10, 11, 1 + below(9), wider(c->points), draw_word());
        break;
    case 1:
        c->samples.length = ONE_OF(size_t, 0, 8, (c->samples.length + 299) % 300,
                                   (c->samples.length + 1) % 300, 24 * below(12), below(300));
        break;
    case 2:
        c->tolerances[below(2)] = ONE_OF(uint64_t, TOLERANCE_MOST, TOLERANCE_MOST + 1, draw_word(),
                                         wider(c->tolerances[0]));
        break;
    case 3:
        c->limit = ONE_OF(uint64_t, 0, 1, LIMIT_MOST, LIMIT_MOST + 1, wider(c->limit), draw_word());
        break;
    case 4:
        c->position[below(AXES)] = at_bound(POSITION_BOUND);
        break;
    case 5:
        c->velocity[below(AXES)] = at_bound(VELOCITY_BOUND);
        break;
    default:
        if (c->samples.length >= 8)
            memcpy(c->samples.bytes + 8 * below(c->samples.length / 8), &value, sizeof value);
    }
}

struct call faulty_opening(void)
{
    struct call c = drawn_opening();
    uint64_t faults = ONE_OF(uint64_t, 1, 1, 1, 2, 3);
    for (uint64_t i = 0; i < faults; i++)
        add_fault(&c);
    return c;
}

/* Corrections */

struct call plain_call(enum call_kind kind)
{
    return (struct call){.kind = kind};
}

/* The newest samples of the record, moved by at most so many ticks. */
static void near_held(const struct record *r, int64_t by, double sample[AXES])
{
    for (int i = 0; i < AXES; i++) {
        int64_t moved = r->axes[i].samples[0] + between(-by, by);
        sample[i] = (double)(moved > SAMPLE_MOST    ? SAMPLE_MOST
                             : moved < -SAMPLE_MOST ? -SAMPLE_MOST
                                                    : moved);
    }
}

/* The newest samples of the record, but for the largest one on an axis. */
static void far_from_held(const struct record *r, int axis, double sample[AXES])
{
    near_held(r, 0, sample);
    sample[axis] = once_in(2) ? SAMPLE_MOST : -SAMPLE_MOST;
}

struct call drawn_correction(const struct record *r)
{
    struct call c = plain_call(CORRECT);
    int64_t scale = 1 + (int64_t)draw_size(SAMPLE_MOST - 2);
    if (once_in(2)) {
        near_held(r, (int64_t)draw_size(4096), c.sample);
    } else if (once_in(3)) {
        far_from_held(r, (int)below(AXES), c.sample);
    } else {
        for (int i = 0; i < AXES; i++)
            c.sample[i] = usable_float(scale);
    }
    return c;
}

struct call faulty_correction(const struct record *r)
{
    struct call c = drawn_correction(r);
    uint64_t faults = 1 + below(AXES);
    for (uint64_t i = 0; i < faults; i++)
        c.sample[below(AXES)] = any_float();
    return c;
}

struct call any_call(const struct record *r)
{
    switch (below(4)) {
    case 0:
        return plain_call(PREDICT);
    case 1:
        return plain_call(WITHDRAW);
    case 2:
        return faulty_correction(r);
    default:
        return drawn_correction(r);
    }
}

/* Records */

/* Opens or begins to start, by the peer's rules. */
static void begin(struct record *r, bool starting)
{
    struct call c = opening_of(starting ? 3 + 2 * below(4) : 1 + below(PLACES));
    double floats[AXES * PLACES];
    memcpy(floats, c.samples.bytes, c.samples.length);
    struct opening given = {.points = c.points,
                            .tolerances = {c.tolerances[0], c.tolerances[1]},
                            .limit = c.limit,
                            .samples = floats,
                            .length = c.samples.length / 8};
    memcpy(given.position, c.position, sizeof given.position);
    memcpy(given.velocity, c.velocity, sizeof given.velocity);
    if (!starting) {
        open_session(r, &given);
        return;
    }
    first_round(r, &given);
    /* Another round by the same samples, each moved a little: it may open the session. */
    if (once_in(2)) {
        for (size_t i = 0; i < given.length; i++)
            floats[i] *= 0.75;
        later_round(r, floats, given.length);
    }
}

/* Steps an opened session some points on. */
static void step_on(struct record *r)
{
    for (uint64_t steps = below(4); steps > 0; steps--) {
        predict(r);
        correct(r, drawn_correction(r).sample);
        withdraw(r);
    }
}

struct record drawn_session(enum state state)
{
    struct record r = {.state = CLOSED};
    if (state == CLOSED)
        return r;
    do {
        begin(&r, state == STARTING);
        if (r.state == SETTLED)
            step_on(&r);
        if (state == AWAITING)
            predict(&r);
        if (state == AWAITING && once_in(2))
            correct(&r, drawn_correction(&r).sample);
    } while (r.state != state);
    return r;
}

void hold_again(struct record *r)
{
    bool holds = r->points >= 1 && r->points <= PLACES;
    for (int i = 0; holds && i < AXES; i++) {
        if (samples_stand(&r->axes[i], r->points))
            hold_older(&r->axes[i], r->points);
    }
}

void add_parts(struct exact *value, wide number)
{
    wide sum = parts(*value) + number, most = (wide)INT64_MAX * PARTS;
    if (sum >= -most && sum <= most)
        *value = split(sum);
}

/* The point at which the sums of an axis stand. */
static struct motion present(struct axis a, uint64_t points)
{
    int64_t newest = a.samples[0];
    memmove(a.samples, a.samples + 1, (PLACES - 1) * sizeof *a.samples);
    add_parts(&a.second_sum, -parts(a.first_sum));
    add_parts(&a.first_sum, -(wide)newest * PARTS);
    return corrected_with(a, points, newest);
}

/* Moves an axis so that a position or a velocity that was found lies at a bound or a part beside
 * it. */
static void move_to_bound(struct record *r, struct axis *a, struct motion found)
{
    bool position = once_in(2);
    wide bound = (wide)(position ? POSITION_BOUND : VELOCITY_BOUND) * PARTS;
    wide wanted = ONE_OF(wide, -bound - 1, -bound, -bound, bound - 1, bound - 1, bound);
    wide by = wanted - (position ? found.position : found.velocity);
    add_parts(&a->second_sum, by);
    if (!position)
        add_parts(&a->first_sum, by);
    if (r->state == AWAITING) {
        add_parts(&a->position, by);
        if (!position)
            add_parts(&a->velocity, by);
    }
}

/* The point of an axis that the next call works out, or the one where the session stands. */
static struct motion some_point(const struct record *r, int axis)
{
    struct record tried = *r;
    if (once_in(3))
        return present(r->axes[axis], r->points);
    if (r->state == SETTLED)
        return predict(&tried).point[axis];
    double sample[AXES];
    far_from_held(r, axis, sample);
    tried.limit = LIMIT_MOST;
    return correct(&tried, sample).point[axis];
}

void bring_to_limit(struct record *r)
{
    int axis = (int)below(AXES);
    switch (below(4)) {
    case 0:
        r->accepted = ACCEPTED_MOST - below(3);
        break;
    case 1:
        r->limit = r->corrections + 1;
        r->tolerances = (struct tolerances){drawn_tolerance(), drawn_tolerance()};
        break;
    default:
        move_to_bound(r, &r->axes[axis], some_point(r, axis));
    }
}
