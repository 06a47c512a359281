/* What the rounds, the reasons and the runs use of the rules. */
#ifndef SHARED_H
#define SHARED_H

#include "rules.h"

/* c(i) and l(i) times D, at their index. */
extern int64_t adams_corrector[PLACES + 1], cowell_corrector[PLACES + 2];

wide parts(struct exact value);
bool in_range(struct motion m);
bool points_in_range(uint64_t points);
bool settings_in_range(struct tolerances tolerances, uint64_t limit);

/* The first of 4, 13 and 5 that one of the floats calls for, else 0; ticks takes the rounded ones. */
int round_all(const double *given, size_t length, int64_t *ticks);

/* The number 2, 3, 6, 4, 13 or 5 that an opening calls for, else 0; ticks takes the rounded samples. */
int refusal_of(const struct opening *given, int64_t *ticks);
struct motion given_point(const struct opening *given, int axis);

/* The backward differences of order 0 to points - 1 at the newest sample. */
void differences(const int64_t *samples, uint64_t points, int64_t *result);

/* The sum of coefficient times difference, from the given coefficient on and from order 0 on. */
wide series(const int64_t *coefficients, const int64_t *differences, uint64_t points);

/* The corrected point of an axis for the sample after the sums' point. */
struct motion corrected_with(struct axis a, uint64_t points, int64_t tick);

struct motion estimate(const struct axis *a);
void set_estimate(struct axis *a, struct motion m);

/* Whether each sample is in range and each empty place zero. */
bool samples_stand(const struct axis *a, uint64_t points);

/* Puts rounded samples, oldest point first, in place of those of the record. */
void hold_samples(struct record *r, const int64_t *ticks);

/* Works out the held sums from the samples. */
void hold_older(struct axis *a, uint64_t points);

/* Takes the sizes of an axis's changes from one estimate to another into the largest so far. */
void take_changes(struct motion *largest, struct motion before, struct motion after);

/* Whether the largest changes of each kind are within their tolerances. */
bool agrees(struct motion largest, struct tolerances tolerances);

/* Whether the record is settled and does not count as closed. */
bool is_settled(const struct record *r);

/* Settled at the point of the sums. */
void settle(struct record *r);

#endif
