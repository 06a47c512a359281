/* A host: steps a body about the Earth in a session of another program, and prints how far it
 * ends up from the exact orbit. Arguments are pairs of a name below and its value; `program` is
 * the path of the program, `from` is `points` where the session is opened with known back points
 * or `epoch` where it is started from one point at their centre, `answers` is a file that takes
 * what the program writes, and `rounding` says what the host does about rounding to whole ticks:
 *   plain      nothing
 *   carried    what the samples lost goes into the next sample
 *   opening    as carried, and what the opening lost as well
 *   recovered  as opening, and forces and positions are taken with what rounding took given back */
#define _POSIX_C_SOURCE 200809L
#include "calls.h"
#include "kepler.h"
#include "rounding.h"

#include <math.h>
#include <stdbool.h>
#include <stdio.h>
#include <stdlib.h>
#include <string.h>

enum rounding { PLAIN, CARRIED, OPENING, RECOVERED };
static const char *const roundings[] = {"plain", "carried", "opening", "recovered"};

static const char *program = "programs/replay";
static enum rounding rounding = PLAIN;
static bool from_epoch = false;
static double perigee = 300, eccentricity = 0, inclination = 40, start = 0, days = 3;
static double points = 9, step = 30, bits = 15, limit = 8;
static double tolerance = 1048576, velocity_tolerance = 1048576;

static const struct setting {
    const char *name;
    double *value, least, most;
    bool whole;
} settings[] = {
    {"perigee", &perigee, 0, 1e6, false},           /* height, km */
    {"eccentricity", &eccentricity, 0, 0.9, false},
    {"inclination", &inclination, 0, 180, false},   /* degrees */
    {"start", &start, 0, 1, false},                 /* part of a revolution after perigee */
    {"days", &days, 0.001, 1000, false},
    {"points", &points, 1, 9, true},                /* back points */
    {"step", &step, 0.001, 86400, false},           /* seconds */
    {"bits", &bits, 0, 40, true},                   /* a tick is 2^-bits metre */
    {"tolerance", &tolerance, 0, 1048576, true},    /* of position, ticks */
    {"velocity_tolerance", &velocity_tolerance, 0, 1048576, true}, /* ticks per step */
    {"limit", &limit, 1, 8, true},
};

static struct orbit orbit;
static double tick; /* m */
static struct lost lost[AXES];
static double largest_sample, largest_position; /* ticks */
static long evaluations;

/* Arguments */

static void set_number(const char *name, const char *text)
{
    for (size_t i = 0; i < sizeof settings / sizeof *settings; i++) {
        const struct setting *s = &settings[i];
        if (strcmp(s->name, name) != 0)
            continue;
        char *end;
        double value = strtod(text, &end);
        if (end == text || *end != 0 || !(value >= s->least && value <= s->most) ||
            (s->whole && value != floor(value)))
            fail(2, "no good value for ", name);
        *s->value = value;
        return;
    }
    fail(2, "nothing is called ", name);
}

static void set_rounding(const char *text)
{
    for (int i = PLAIN; i <= RECOVERED; i++)
        if (strcmp(roundings[i], text) == 0) {
            rounding = (enum rounding)i;
            return;
        }
    fail(2, "rounding is plain, carried, opening or recovered, not ", text);
}

static void set_from(const char *text)
{
    from_epoch = strcmp(text, "epoch") == 0;
    if (!from_epoch && strcmp(text, "points") != 0)
        fail(2, "from is points or epoch, not ", text);
}

static void read_arguments(int count, char **arguments)
{
    for (int i = 1; i < count; i += 2) {
        if (i + 1 == count)
            fail(2, "no value for ", arguments[i]);
        if (strcmp(arguments[i], "program") == 0)
            program = arguments[i + 1];
        else if (strcmp(arguments[i], "rounding") == 0)
            set_rounding(arguments[i + 1]);
        else if (strcmp(arguments[i], "from") == 0)
            set_from(arguments[i + 1]);
        else if (strcmp(arguments[i], "answers") == 0)
            keep_answers(arguments[i + 1]);
        else
            set_number(arguments[i], arguments[i + 1]);
    }
    if (days * 86400 / step > 1000000)
        fail(2, "more than 1,000,000 points", "");
}

/* Calls */

/* The answer, unless it is a refusal. */
static struct answer answered(struct answer a, long point)
{
    char text[64];
    sprintf(text, "%d at point %ld", a.number, point);
    if (a.number != 0)
        fail(1, "refused ", text);
    return a;
}

/* Adds a value to a line as a whole number; what is lost. */
static double add_whole(char *line, long double value)
{
    long long whole = llrintl(value);
    sprintf(line + strlen(line), " %lld", whole);
    return (double)(value - whole);
}

/* Adds a sample to a line; the whole ticks that the session makes of it. */
static double add_sample(char *line, double sample)
{
    add_float(line, sample);
    largest_sample = fmax(largest_sample, fabs(sample));
    return rint(sample);
}

/* The sample at a place, in ticks. */
static void sample_at(const double place[AXES], double sample[AXES])
{
    double position[AXES];
    for (int i = 0; i < AXES; i++)
        position[i] = place[i] * tick;
    attraction(position, sample);
    for (int i = 0; i < AXES; i++)
        sample[i] = sample[i] * step * step / tick;
    evaluations++;
}

/* Position and velocity of a point as words of a line, and what each lost. */
struct given {
    double position[AXES], velocity[AXES];
};

/* Begins the line of an opening or a first round with its settings and the exact point at a time. */
static struct given add_point(char *line, const char *name, long double time)
{
    struct given lost_here;
    struct state now = state_at(&orbit, time);
    sprintf(line, "%s %.0f %.0f %.0f %.0f", name, points, tolerance, velocity_tolerance, limit);
    for (int i = 0; i < AXES; i++)
        lost_here.position[i] = add_whole(line, now.position[i] / tick);
    for (int i = 0; i < AXES; i++)
        lost_here.velocity[i] = add_whole(line, now.velocity[i] * step / tick);
    return lost_here;
}

/* Adds the sample at a place, so many points before the newest. */
static void add_back_sample(char *line, const double place[AXES], int back)
{
    double wanted[AXES];
    sample_at(place, wanted);
    for (int i = 0; i < AXES; i++)
        lost[i].samples[back] = wanted[i] - add_sample(line, wanted[i]);
}

/* Adds the samples of all points as the exact orbit has them, the oldest first. */
static void add_exact_samples(char *line, long double newest)
{
    double place[AXES];
    for (int back = (int)points - 1; back >= 0; back--) {
        struct state then = state_at(&orbit, newest - back * (long double)step);
        for (int i = 0; i < AXES; i++)
            place[i] = (double)(then.position[i] / tick);
        add_back_sample(line, place, back);
    }
}

static void open_session(long double begin)
{
    char line[LINE_MOST];
    struct given given = add_point(line, "open", begin);
    add_exact_samples(line, begin);
    answered(call(line), 0);
    if (rounding >= OPENING)
        for (int i = 0; i < AXES; i++)
            lost_by_opening(&lost[i], (int)points, given.position[i], given.velocity[i]);
}

/* Makes a round; its number and kind are looked at as those of a call. */
static struct round round_of(const char *line)
{
    struct round r = call_round(line);
    answered((struct answer){.number = r.number}, 0);
    return r;
}

/* Starts at an epoch, with the samples of two-body motion as a first guess, and refines until the
 * session opens; the time of its newest point. */
static long double start_session(long double epoch)
{
    char line[LINE_MOST];
    double missing[AXES][PLACES] = {{0}}, place[AXES];
    int last = (int)points - 1;
    long double newest = epoch + last / 2 * (long double)step;
    struct given given = add_point(line, "start", epoch);
    add_exact_samples(line, newest);
    struct round r = round_of(line);
    for (;;) {
        if (rounding >= OPENING)
            for (int i = 0; i < AXES; i++)
                lost_by_start(&lost[i], (int)points, given.position[i], given.velocity[i],
                              missing[i]);
        if (r.kind == OPENED)
            return newest;
        strcpy(line, "refine");
        for (int back = last; back >= 0; back--) {
            for (int i = 0; i < AXES; i++)
                place[i] = r.position[last - back][i] +
                           (rounding == RECOVERED ? missing[i][back] : 0);
            add_back_sample(line, place, back);
        }
        r = round_of(line);
    }
}

/* Steps to the next point: predict, then correct until it is accepted. */
static void step_on(long point, double place[AXES])
{
    bool carry = rounding >= CARRIED, recover = rounding == RECOVERED;
    double wanted[AXES], missing[AXES];
    struct answer a = answered(call("predict"), point);
    for (int i = 0; i < AXES; i++)
        place[i] = a.position[i] + (recover ? lost_of_prediction(&lost[i], (int)points) : 0);
    while (a.kind != ACCEPTED) {
        char line[LINE_MOST] = "correct";
        sample_at(place, wanted);
        for (int i = 0; i < AXES; i++) {
            double carried = carry ? lost[i].first + lost[i].second : 0;
            missing[i] = wanted[i] - add_sample(line, wanted[i] + carried);
        }
        a = answered(call(line), point);
        for (int i = 0; i < AXES; i++)
            place[i] = a.position[i] +
                       (recover ? lost_of_correction(&lost[i], (int)points, missing[i]) : 0);
    }
    for (int i = 0; i < AXES; i++)
        lost_by_sample(&lost[i], missing[i]);
}

/* The distance of a place from the exact one, in metres. */
static double distance(const double place[AXES], const struct state *exact)
{
    long double square = 0;
    for (int i = 0; i < AXES; i++) {
        long double apart = (long double)place[i] * tick - exact->position[i];
        square += apart * apart;
        largest_position = fmax(largest_position, fabs(place[i]));
    }
    return (double)sqrtl(square);
}

int main(int count, char **arguments)
{
    read_arguments(count, arguments);
    prepare_coefficients();
    start_program(program);
    tick = ldexp(1, -(int)bits);
    orbit = orbit_of(perigee, eccentricity, inclination);
    long double begin = start * period(&orbit);
    long last = lround(days * 86400 / step);
    double worst = 0, squares = 0, place[AXES];
    if (from_epoch)
        begin = start_session(begin);
    else
        open_session(begin);
    evaluations = 0;
    for (long point = 1; point <= last; point++) {
        step_on(point, place);
        struct state exact = state_at(&orbit, begin + point * (long double)step);
        double error = distance(place, &exact);
        worst = fmax(worst, error);
        squares += error * error;
    }
    double mean = sqrt(squares / (double)last);
    double ratio = mean / (double)(orbit.semi_axis * (1 + orbit.eccentricity)) /
                   (double)(days * 86400 / period(&orbit));
    printf("worst %.4g m, root mean square %.4g m, ratio %.3g, %ld evaluations, "
           "samples to 2^%.2f, positions to 2^%.2f ticks\n", worst, mean, ratio,
           evaluations, log2(largest_sample), log2(largest_position));
    return 0;
}
