/* A low orbit, inclined: Kepler's equation, and the classical Runge-Kutta method in small steps. */
#include "truth.h"

#include <math.h>

#define SEMI_AXIS 6878137.0L /* m */
#define ECCENTRICITY 0.01L
#define INCLINATION 0.9L /* radians */
#define SMALL_STEP 0.25L /* seconds, with an error of less than 0.0001 mm in a day */

static struct state kepler(long double seconds)
{
    const long double e = ECCENTRICITY, shorter = SEMI_AXIS * sqrtl(1 - e * e);
    const long double motion = sqrtl(EARTH / SEMI_AXIS) / SEMI_AXIS, mean = motion * seconds;
    long double anomaly = mean; /* eccentric, by Newton's method */
    for (int i = 0; i < 20; i++)
        anomaly -= (anomaly - e * sinl(anomaly) - mean) / (1 - e * cosl(anomaly));
    long double rate = motion / (1 - e * cosl(anomaly));
    long double along = SEMI_AXIS * (cosl(anomaly) - e), across = shorter * sinl(anomaly);
    long double along_rate = -SEMI_AXIS * sinl(anomaly) * rate;
    long double across_rate = shorter * cosl(anomaly) * rate;
    return (struct state){
        {along, across * cosl(INCLINATION), across * sinl(INCLINATION)},
        {along_rate, across_rate * cosl(INCLINATION), across_rate * sinl(INCLINATION)}};
}

/* How fast a state changes about the flattened Earth, whose potential is
 * (attraction / r) (1 - J2 (radius / r)^2 (3 (z / r)^2 - 1) / 2). */
static struct state rate_of(const struct state *s)
{
    const long double *p = s->position, square = p[0] * p[0] + p[1] * p[1] + p[2] * p[2];
    long double pull = -EARTH / (square * sqrtl(square)), height = p[2] * p[2] / square;
    long double flat = 1.5L * EARTH_J2 * EARTH_RADIUS * EARTH_RADIUS / square;
    struct state rate;
    for (int i = 0; i < AXES; i++) {
        rate.position[i] = s->velocity[i];
        rate.velocity[i] = pull * p[i] * (1 + flat * ((i == 2 ? 3 : 1) - 5 * height));
    }
    return rate;
}

static struct state plus(const struct state *s, const struct state *rate, long double seconds)
{
    struct state sum;
    for (int i = 0; i < AXES; i++) {
        sum.position[i] = s->position[i] + seconds * rate->position[i];
        sum.velocity[i] = s->velocity[i] + seconds * rate->velocity[i];
    }
    return sum;
}

static void small_step(struct state *s)
{
    const long double h = SMALL_STEP;
    struct state first = rate_of(s), there = plus(s, &first, h / 2);
    struct state second = rate_of(&there);
    there = plus(s, &second, h / 2);
    struct state third = rate_of(&there);
    there = plus(s, &third, h);
    struct state fourth = rate_of(&there);
    *s = plus(s, &first, h / 6);
    *s = plus(s, &second, h / 3);
    *s = plus(s, &third, h / 3);
    *s = plus(s, &fourth, h / 6);
}

struct state truth_at(bool flattened, long double seconds)
{
    static struct state now;
    static long taken; /* small steps */
    if (!flattened)
        return kepler(seconds);
    if (taken == 0)
        now = kepler(0);
    for (; (long double)taken * SMALL_STEP < seconds; taken++)
        small_step(&now);
    return now;
}
