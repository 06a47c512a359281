/* The formulas of the paper, applied to what rounding took. */
#include "rounding.h"

#include <string.h>

/* c(i), l(i) and s(i) at their index. */
static double adams[PLACES + 2], cowell[PLACES + 2], stormer[PLACES + 2];

void prepare_coefficients(void)
{
    adams[0] = 1;
    for (int i = 1; i < PLACES + 2; i++)
        for (int j = 1; j <= i; j++)
            adams[i] -= adams[i - j] / (j + 1);
    for (int i = 0; i < PLACES + 2; i++) {
        for (int k = 0; k <= i; k++)
            cowell[i] += adams[k] * adams[i - k];
        stormer[i] = cowell[i] + (i > 0 ? stormer[i - 1] : 0);
    }
}

/* The sum of coefficient times backward difference, from order 0 on. */
static double series(const double *coefficients, const double *samples, int points)
{
    double difference[PLACES], sum = 0;
    memcpy(difference, samples, (size_t)points * sizeof *difference);
    for (int order = 0; order < points; order++) {
        sum += coefficients[order] * difference[0];
        for (int i = 0; i + 1 < points - order; i++)
            difference[i] -= difference[i + 1];
    }
    return sum;
}

/* Puts a sample before the others. */
static void push(double *samples, double newest)
{
    memmove(samples + 1, samples, (PLACES - 1) * sizeof *samples);
    samples[0] = newest;
}

void lost_by_opening(struct lost *l, int points, double position, double velocity)
{
    l->first = velocity - series(adams + 1, l->samples, points);
    l->second = position - series(cowell + 2, l->samples, points) + l->first;
}

/* Turns a series into its product with 1 - x, as far as it is kept. */
static void step_back(double *coefficients, int points)
{
    for (int i = points - 1; i > 0; i--)
        coefficients[i] -= coefficients[i - 1];
}

void lost_by_start(struct lost *l, int points, double position, double velocity,
                   double places[PLACES])
{
    double c[PLACES], k[PLACES], of_position[PLACES] = {0}, of_velocity[PLACES] = {0};
    int centre = (points - 1) / 2;
    memcpy(c, adams + 1, sizeof c);
    memcpy(k, cowell + 2, sizeof k);
    for (int j = 0; j < points; j++) {
        of_position[j] = series(k, l->samples, points);
        of_velocity[j] = series(c, l->samples, points);
        step_back(k, points);
        step_back(c, points);
    }
    /* S1 and S2 at the epoch, then on to the newest point, then back over all points. */
    double first = velocity - of_velocity[centre];
    double second = position - of_position[centre] + first;
    for (int j = centre - 1; j >= 0; j--) {
        first += l->samples[j];
        second += first;
    }
    l->first = first;
    l->second = second;
    for (int j = 0; j < points; j++) {
        second -= first;
        places[j] = second + of_position[j];
        first -= l->samples[j];
    }
}

double lost_of_prediction(const struct lost *l, int points)
{
    return l->second + series(stormer + 2, l->samples, points);
}

double lost_of_correction(const struct lost *l, int points, double sample)
{
    struct lost next = *l;
    push(next.samples, sample);
    return l->second + series(cowell + 2, next.samples, points);
}

void lost_by_sample(struct lost *l, double sample)
{
    push(l->samples, sample);
    l->first += sample;
    l->second += l->first;
}
