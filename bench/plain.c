/* A plain step in doubles, with no checks: Gauss-Jackson position, summed Adams velocity. */
#include "samples.h"

#define PLACES 9
#define AXES 3

/* The weights of the four sums for the chosen number of points, newest point first. */
static double position_predictor[PLACES], position_corrector[PLACES];
static double velocity_predictor[PLACES], velocity_corrector[PLACES];

struct axis {
    double first_sum, second_sum, samples[PLACES]; /* newest first */
};

/* The weights that make the sum of coefficient times backward difference. */
static void set_weights(double *weights, const double *coefficients, int points)
{
    double difference[PLACES] = {1}; /* of the order at hand, as weights */
    for (int order = 0; order < points; order++) {
        for (int i = 0; i <= order; i++)
            weights[i] += coefficients[order] * difference[i];
        for (int i = PLACES - 1; i > 0; i--)
            difference[i] -= difference[i - 1];
    }
}

static void prepare(int points)
{
    double c[PLACES + 2] = {1}, g[PLACES + 2], l[PLACES + 2] = {0}, s[PLACES + 2];
    for (int i = 1; i < PLACES + 2; i++)
        for (int j = 1; j <= i; j++)
            c[i] -= c[i - j] / (j + 1);
    for (int i = 0; i < PLACES + 2; i++) {
        for (int k = 0; k <= i; k++)
            l[i] += c[k] * c[i - k];
        g[i] = c[i] + (i > 0 ? g[i - 1] : 0);
        s[i] = l[i] + (i > 0 ? s[i - 1] : 0);
    }
    set_weights(position_predictor, s + 2, points);
    set_weights(position_corrector, l + 2, points);
    set_weights(velocity_predictor, g + 1, points);
    set_weights(velocity_corrector, c + 1, points);
}

static double weighted(const double *weights, const double *samples, int points)
{
    double sum = 0;
    for (int i = 0; i < points; i++)
        sum += weights[i] * samples[i];
    return sum;
}

static void predict(const struct axis *a, int points, double *position, double *velocity)
{
    *position = a->second_sum + weighted(position_predictor, a->samples, points);
    *velocity = a->first_sum + weighted(velocity_predictor, a->samples, points);
}

static void correct(struct axis *a, int points, double sample, double *position, double *velocity)
{
    for (int i = points - 1; i > 0; i--)
        a->samples[i] = a->samples[i - 1];
    a->samples[0] = sample;
    a->first_sum += sample;
    *position = a->second_sum + weighted(position_corrector, a->samples, points);
    *velocity = a->first_sum + weighted(velocity_corrector, a->samples, points);
    a->second_sum += a->first_sum;
}

int main(int count, char **arguments)
{
    int points, steps;
    read_pace("plain", count, arguments, &points, &steps);
    prepare(points);
    struct axis axes[AXES] = {0};
    struct draws draws = {1};
    uint64_t checksum = 0;
    double position, velocity;
    for (int n = 0; n < steps; n++) {
        for (int i = 0; i < AXES; i++) {
            predict(&axes[i], points, &position, &velocity);
            take(&checksum, position), take(&checksum, velocity);
        }
        for (int i = 0; i < AXES; i++) {
            correct(&axes[i], points, draw(&draws), &position, &velocity);
            take(&checksum, position), take(&checksum, velocity);
        }
    }
    printf("%016" PRIx64 "\n", checksum);
    return 0;
}
