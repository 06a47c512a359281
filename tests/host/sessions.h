/* Sessions, calls and floats, drawn. */
#ifndef SESSIONS_H
#define SESSIONS_H

#include "both.h"

#define TOLERANCE_MOST 1048576
#define LIMIT_MOST 8
#define SAMPLE_MOST 268435456
#define ACCEPTED_MOST 1000000
#define POSITION_BOUND ((int64_t)1 << 52)
#define VELOCITY_BOUND ((int64_t)1 << 40)

/* A double of any kind: no number, infinite, too large, a tie, tiny, or of any bits. */
double any_float(void);

/* An opening that is not refused, and one with a fault or some. */
struct call drawn_opening(void);
struct call faulty_opening(void);

/* A correction by a sample that suits the record or not, and one with a float or some of any kind.
 */
struct call drawn_correction(const struct record *r);
struct call faulty_correction(const struct record *r);

/* A call with nothing given. */
struct call plain_call(enum call_kind kind);

/* Predict, correct or withdraw. */
struct call any_call(const struct record *r);

/* A record that some calls have left in that state. */
struct record drawn_session(enum state state);

/* Changes a settled or awaiting record so that its next call is near a limit of the rules: the last
 * points, the last correction, a bound of a position or velocity. It may count as closed then. */
void bring_to_limit(struct record *r);

/* Works out the held sums anew, as the samples have them. */
void hold_again(struct record *r);

/* Adds parts to an exact value, unless its whole would have no room. */
void add_parts(struct exact *value, wide parts);

#endif
