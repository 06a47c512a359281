/* A host in C: steps a low orbit about the Earth by the library, saves the session to a file half
 * the way, reads it back and steps on, and holds the last points against the truth. At the top:
 *
 *   gcc -O2 -std=c99 -Iinclude -o target/orbit examples/orbit.c examples/truth.c host/rounding.c target/lib/libdurungkilat.a -lm
 *   target/orbit j2 24 target/orbit.session
 *
 * The words are FORCE, which is two-body with a round Earth or j2 with a flattened one, HOURS, from
 * 1 to 72, and FILE, where the session is saved. What a host does with the library is all here; the
 * truth is in truth.c, and the arithmetic of what rounding takes in host/rounding.c. */
#include "durungkilat.h"

#include "../host/rounding.h"
#include "truth.h"

#include <math.h>
#include <stdio.h>
#include <stdlib.h>

#define POINTS 9 /* back points */
#define STEP 30.0 /* seconds */
#define TICK (1.0 / 32768.0) /* metres: the largest sample is then just below 2^28 ticks */
#define SHOWN 5 /* points at the end */

static bool flattened;
static uint8_t image[DURUNGKILAT_IMAGE_LENGTH], answer[DURUNGKILAT_ANSWER_LENGTH];
/* What rounding to whole ticks took from the session, on each axis; the host carries it. */
static struct lost lost[AXES];

static void stop(int status, const char *what, const char *more)
{
    fprintf(stderr, "orbit: %s%s\n", what, more);
    exit(status);
}

/* Ends the program where a call was refused. */
static void done(const char *call, uint32_t number)
{
    if (number != DURUNGKILAT_DONE) {
        fprintf(stderr, "orbit: %s is refused %lu\n", call, (unsigned long)number);
        exit(1);
    }
}

/* The force model: the acceleration at a position, in metres and seconds. */
static void acceleration_at(const double p[AXES], double acceleration[AXES])
{
    double square = p[0] * p[0] + p[1] * p[1] + p[2] * p[2], radius = (double)EARTH_RADIUS;
    double pull = -(double)EARTH / (square * sqrt(square)), height = p[2] * p[2] / square;
    double flat = flattened ? 1.5 * (double)EARTH_J2 * radius * radius / square : 0;
    acceleration[0] = pull * p[0] * (1 + flat * (1 - 5 * height));
    acceleration[1] = pull * p[1] * (1 + flat * (1 - 5 * height));
    acceleration[2] = pull * p[2] * (1 + flat * (3 - 5 * height));
}

/* The sample at a place in ticks: acceleration times step squared, in ticks. */
static void sample_at(const double place[AXES], double sample[AXES])
{
    double position[AXES];
    for (int i = 0; i < AXES; i++)
        position[i] = place[i] * TICK;
    acceleration_at(position, sample);
    for (int i = 0; i < AXES; i++)
        sample[i] *= STEP * STEP / TICK;
}

/* Opens the session at the last of the back points, which are taken from the truth. */
static void open_session(void)
{
    double samples[POINTS][AXES], place[AXES]; /* the oldest point first */
    int64_t position[AXES], velocity[AXES];
    struct state now;
    for (int point = 0; point < POINTS; point++) {
        now = truth_at(flattened, point * STEP);
        for (int i = 0; i < AXES; i++)
            place[i] = (double)(now.position[i] / TICK);
        sample_at(place, samples[point]);
        for (int i = 0; i < AXES; i++)
            lost[i].samples[POINTS - 1 - point] = samples[point][i] - rint(samples[point][i]);
    }
    for (int i = 0; i < AXES; i++) {
        long double ticks = now.position[i] / TICK, per_step = now.velocity[i] * STEP / TICK;
        position[i] = llrintl(ticks);
        velocity[i] = llrintl(per_step);
        lost_by_opening(&lost[i], POINTS, (double)(ticks - position[i]),
                        (double)(per_step - velocity[i]));
    }
    /* Tolerances of 1024 ticks and 4096 ticks per step, and at most 4 corrections of a point. */
    done("open", durungkilat_open(image, sizeof image, answer, sizeof answer, POINTS, 1024, 4096, 4,
                                  position[0], position[1], position[2], velocity[0], velocity[1],
                                  velocity[2], (const uint8_t *)samples, sizeof samples));
}

/* The position of the answer in ticks, with what rounding took from it given back. */
static void place_of_answer(const double missing[AXES], double place[AXES])
{
    place[0] = durungkilat_report(answer, DURUNGKILAT_X) + missing[0];
    place[1] = durungkilat_report(answer, DURUNGKILAT_Y) + missing[1];
    place[2] = durungkilat_report(answer, DURUNGKILAT_Z) + missing[2];
}

/* One step: predict, then evaluate and correct until the point is accepted. */
static void step_on(double place[AXES])
{
    double wanted[AXES], handed[AXES], missing[AXES];
    done("predict", durungkilat_predict(image, sizeof image, answer, sizeof answer));
    for (int i = 0; i < AXES; i++)
        missing[i] = lost_of_prediction(&lost[i], POINTS);
    place_of_answer(missing, place);
    do {
        sample_at(place, wanted);
        /* What both sums lack goes into the sample that is handed in. */
        for (int i = 0; i < AXES; i++)
            handed[i] = wanted[i] + lost[i].first + lost[i].second;
        done("correct", durungkilat_correct(image, sizeof image, answer, sizeof answer, handed[0],
                                            handed[1], handed[2]));
        for (int i = 0; i < AXES; i++)
            missing[i] = lost_of_correction(&lost[i], POINTS, wanted[i] - rint(handed[i]));
        place_of_answer(missing, place);
    } while (durungkilat_word(answer, DURUNGKILAT_KIND) == DURUNGKILAT_AGAIN);
    for (int i = 0; i < AXES; i++)
        lost_by_sample(&lost[i], wanted[i] - rint(handed[i]));
}

/* The image is the whole session; a host that carries residues keeps them beside it. */
static void save(const char *path)
{
    FILE *file = fopen(path, "wb");
    if (file == NULL)
        stop(2, "cannot write ", path);
    size_t written = fwrite(image, sizeof image, 1, file) + fwrite(lost, sizeof lost, 1, file);
    if (fclose(file) != 0 || written != 2)
        stop(1, "cannot write all of ", path);
}

static void read_back(const char *path)
{
    FILE *file = fopen(path, "rb");
    if (file == NULL ||
        fread(image, sizeof image, 1, file) + fread(lost, sizeof lost, 1, file) != 2)
        stop(1, "cannot read all of ", path);
    fclose(file);
}

/* How far a place is from the true one, in millimetres. */
static double error_of(const double place[AXES], long point)
{
    struct state exact = truth_at(flattened, (long double)(POINTS - 1 + point) * STEP);
    long double square = 0;
    for (int i = 0; i < AXES; i++) {
        long double apart = (long double)place[i] * TICK - exact.position[i];
        square += apart * apart;
    }
    return 1000 * (double)sqrtl(square);
}

int main(int count, char **words)
{
    if (count != 4 || (strcmp(words[1], "two-body") != 0 && strcmp(words[1], "j2") != 0))
        stop(2, "give FORCE, which is two-body or j2, HOURS and FILE", "");
    char *end;
    long hours = strtol(words[2], &end, 10);
    if (*words[2] < '0' || *words[2] > '9' || *end != 0 || hours < 1 || hours > 72)
        stop(2, "HOURS is from 1 to 72, not ", words[2]);
    flattened = strcmp(words[1], "j2") == 0;
    long last = hours * 3600 / (long)STEP;
    double place[AXES], worst = 0;
    prepare_coefficients();
    open_session();
    printf("opened with %d back points; %ld steps of %.0f s are to be made, force %s\n", POINTS,
           last, STEP, words[1]);
    for (long point = 1; point <= last; point++) {
        step_on(place);
        if (point == last / 2) {
            save(words[3]);
            memset(image, 0, sizeof image), memset(lost, 0, sizeof lost);
            read_back(words[3]);
            printf("point %ld: session and residues saved, forgotten and read back\n", point);
        }
        if (point > last - SHOWN) {
            double error = error_of(place, point);
            worst = fmax(worst, error);
            printf("point %ld: %.6f %.6f %.6f m, %.5f mm from the truth\n", point, place[0] * TICK,
                   place[1] * TICK, place[2] * TICK, error);
        }
    }
    printf("worst of the last %d points: %.5f mm\n", SHOWN, worst);
    return 0;
}
