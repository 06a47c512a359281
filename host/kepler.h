/* The motion of a body about the Earth alone: exact but for the last bits of a long double. */
#ifndef KEPLER_H
#define KEPLER_H

#define AXES 3

/* An orbit with its perigee on the x axis at time 0; metres, radians. */
struct orbit {
    long double semi_axis, eccentricity, inclination;
};

struct state {
    long double position[AXES], velocity[AXES]; /* m, m/s */
};

/* Height of perigee in kilometres, inclination in degrees. */
struct orbit orbit_of(double perigee_height, double eccentricity, double inclination);

/* The time of one revolution in seconds. */
long double period(const struct orbit *o);

struct state state_at(const struct orbit *o, long double seconds);

/* The acceleration at a position, as a force model in doubles gives it. */
void attraction(const double position[AXES], double acceleration[AXES]);

#endif
