/* The header's names, held against the record that an image was saved from and against the answer.
 */
#include "runs.h"
#include "sessions.h"

#include <stdio.h>

#define SESSIONS 200

static bool good = true;

static void hold(const char *name, bool right)
{
    if (!right)
        printf("the header has %s at another place\n", name);
    good &= right;
}

static bool exact_at(const uint8_t *slice, size_t offset, struct exact value)
{
    return durungkilat_signed(slice, offset + DURUNGKILAT_WHOLE) == value.whole &&
           durungkilat_word(slice, offset + DURUNGKILAT_REMAINDER) == value.part;
}

static void hold_image(const struct record *r, const uint8_t *image)
{
    static const uint64_t bodies[] = {DURUNGKILAT_SETTINGS, DURUNGKILAT_SUMS, DURUNGKILAT_SAMPLES,
                                      DURUNGKILAT_ESTIMATE, DURUNGKILAT_IMAGE_LENGTH};
    for (uint64_t i = 0; i < 4; i++) {
        size_t at = DURUNGKILAT_TABLE + DURUNGKILAT_ENTRY_LENGTH * i;
        hold("the table", durungkilat_word(image, at + DURUNGKILAT_ENTRY_KIND) == i + 1 &&
                              durungkilat_word(image, at + DURUNGKILAT_ENTRY_OFFSET) == bodies[i] &&
                              durungkilat_word(image, at + DURUNGKILAT_ENTRY_BODY_LENGTH) ==
                                  bodies[i + 1] - bodies[i]);
    }
    hold("the state", durungkilat_word(image, DURUNGKILAT_STATE) == r->state);
    hold("the points", durungkilat_word(image, DURUNGKILAT_POINTS) == r->points);
    hold("the position tolerance",
         durungkilat_word(image, DURUNGKILAT_POSITION_TOLERANCE) == r->tolerances.position);
    hold("the velocity tolerance",
         durungkilat_word(image, DURUNGKILAT_VELOCITY_TOLERANCE) == r->tolerances.velocity);
    hold("the limit", durungkilat_word(image, DURUNGKILAT_LIMIT) == r->limit);
    hold("the points accepted",
         durungkilat_word(image, DURUNGKILAT_ACCEPTED_POINTS) == r->accepted);
    hold("the corrections", durungkilat_word(image, DURUNGKILAT_CORRECTIONS) == r->corrections);
    for (size_t i = 0; i < AXES; i++) {
        const struct axis *a = &r->axes[i];
        size_t sums = DURUNGKILAT_SUMS + DURUNGKILAT_SUMS_LENGTH * i;
        size_t estimate = DURUNGKILAT_ESTIMATE + DURUNGKILAT_ESTIMATE_LENGTH * i;
        hold("the first sum", exact_at(image, sums + DURUNGKILAT_FIRST_SUM, a->first_sum));
        hold("the second sum", exact_at(image, sums + DURUNGKILAT_SECOND_SUM, a->second_sum));
        hold("the held position",
             exact_at(image, sums + DURUNGKILAT_HELD_POSITION, a->held_position));
        hold("the held velocity",
             exact_at(image, sums + DURUNGKILAT_HELD_VELOCITY, a->held_velocity));
        for (size_t k = 0; k < PLACES; k++)
            hold("the samples",
                 durungkilat_signed(image, DURUNGKILAT_SAMPLES + DURUNGKILAT_SAMPLE_LENGTH * k +
                                               8 * i) == a->samples[k]);
        hold("the position",
             exact_at(image, estimate + DURUNGKILAT_ESTIMATE_POSITION, a->position));
        hold("the velocity",
             exact_at(image, estimate + DURUNGKILAT_ESTIMATE_VELOCITY, a->velocity));
    }
}

static bool value_at(const uint8_t *answer, size_t offset, wide number)
{
    struct exact value = split(number);
    return exact_at(answer, offset, value) && durungkilat_report(answer, offset) == report(value);
}

static void hold_answer(struct answer a, const uint8_t *answer)
{
    static const size_t positions[] = {DURUNGKILAT_X, DURUNGKILAT_Y, DURUNGKILAT_Z};
    static const size_t velocities[] = {DURUNGKILAT_VX, DURUNGKILAT_VY, DURUNGKILAT_VZ};
    hold("the kind", durungkilat_word(answer, DURUNGKILAT_KIND) == a.kind);
    for (int i = 0; i < AXES; i++) {
        hold("an answered position", value_at(answer, positions[i], a.point[i].position));
        hold("an answered velocity", value_at(answer, velocities[i], a.point[i].velocity));
    }
    hold("the change of position",
         value_at(answer, DURUNGKILAT_POSITION_CHANGE, a.change.position));
    hold("the change of velocity",
         value_at(answer, DURUNGKILAT_VELOCITY_CHANGE, a.change.velocity));
}

bool run_fields(void)
{
    for (int n = 0; n < SESSIONS; n++) {
        uint8_t image[IMAGE_LENGTH];
        struct record r = drawn_session((enum state)(n % 4));
        struct call c = r.state == AWAITING ? drawn_correction(&r) : plain_call(PREDICT);
        save_image(&r, image);
        hold_image(&r, image);
        struct slice lent = slice_of(image), answer = answer_slice(ANSWER_LENGTH);
        make(&c, &lent, &answer);
        hold_answer(c.kind == CORRECT ? correct(&r, c.sample) : predict(&r), answer.bytes);
        hold_image(&r, lent.bytes);
    }
    printf("offsets of the header on %d sessions\n", SESSIONS);
    return good;
}
