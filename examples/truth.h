/* Where the body of the example is, worked out without the library. */
#ifndef TRUTH_H
#define TRUTH_H

#include <stdbool.h>

#define AXES 3

#define EARTH 3.986004418e14L /* attraction, m^3/s^2 */
#define EARTH_RADIUS 6378137.0L /* m */
#define EARTH_J2 1.08262668e-3L /* flattening */

struct state {
    long double position[AXES], velocity[AXES]; /* m, m/s */
};

/* The state at a time, in seconds after perigee: about a round Earth by Kepler's equation, about a
 * flattened one by many small steps from the last time asked for, so that times have to rise. */
struct state truth_at(bool flattened, long double seconds);

#endif
