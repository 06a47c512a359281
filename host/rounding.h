/* What rounding to whole ticks took from a session: the value wanted less the value held. */
#ifndef ROUNDING_H
#define ROUNDING_H

#define PLACES 9

/* On one axis, in ticks; the sums at the last accepted point. */
struct lost {
    double samples[PLACES]; /* newest first */
    double first, second;   /* S1, S2 */
};

/* Works out the coefficients; to be called once, before the others. */
void prepare_coefficients(void);

/* Sets the sums, from what the opening position, velocity and samples lost. */
void lost_by_opening(struct lost *l, int points, double position, double velocity);

/* The same for a start from an epoch at the centre of the points, from what its position and
 * velocity and the samples lost. What the position of each point lost goes to places, the newest
 * first. */
void lost_by_start(struct lost *l, int points, double position, double velocity,
                   double places[PLACES]);

/* Of the predicted position, and of the one corrected with a sample that lost so much. */
double lost_of_prediction(const struct lost *l, int points);
double lost_of_correction(const struct lost *l, int points, double sample);

/* Takes in the sample of an accepted point. */
void lost_by_sample(struct lost *l, double sample);

#endif
