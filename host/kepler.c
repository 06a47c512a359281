/* Kepler's equation, and the attraction of a point. */
#include "kepler.h"

#include <math.h>

#define EARTH 3.986004418e14L   /* m^3/s^2 */
#define EARTH_RADIUS 6378137.0L /* m */
#define HALF_TURN acosl(-1.0L)

struct orbit orbit_of(double perigee_height, double eccentricity, double inclination)
{
    long double perigee = EARTH_RADIUS + 1000.0L * perigee_height;
    return (struct orbit){perigee / (1 - (long double)eccentricity), eccentricity,
                          inclination * HALF_TURN / 180};
}

/* The mean motion, radians a second. */
static long double mean_motion(const struct orbit *o)
{
    return sqrtl(EARTH / o->semi_axis) / o->semi_axis;
}

long double period(const struct orbit *o)
{
    return 2 * HALF_TURN / mean_motion(o);
}

/* The E with E - e sin E equal to the mean anomaly, by Newton's method. */
static long double eccentric_anomaly(long double mean, long double e)
{
    long double result = mean + e * sinl(mean);
    for (int i = 0; i < 20; i++)
        result -= (result - e * sinl(result) - mean) / (1 - e * cosl(result));
    return result;
}

struct state state_at(const struct orbit *o, long double seconds)
{
    long double e = o->eccentricity, longer = o->semi_axis, shorter = longer * sqrtl(1 - e * e);
    long double mean = remainderl(mean_motion(o) * seconds, 2 * HALF_TURN);
    long double anomaly = eccentric_anomaly(mean, e);
    long double rate = mean_motion(o) / (1 - e * cosl(anomaly));
    long double along = longer * (cosl(anomaly) - e), across = shorter * sinl(anomaly);
    long double along_rate = -longer * sinl(anomaly) * rate;
    long double across_rate = shorter * cosl(anomaly) * rate;
    long double level = cosl(o->inclination), rise = sinl(o->inclination);
    return (struct state){{along, across * level, across * rise},
                          {along_rate, across_rate * level, across_rate * rise}};
}

void attraction(const double position[AXES], double acceleration[AXES])
{
    double square = 0;
    for (int i = 0; i < AXES; i++)
        square += position[i] * position[i];
    for (int i = 0; i < AXES; i++)
        acceleration[i] = -(double)EARTH * position[i] / (square * sqrt(square));
}
