/* The image of a session: a table of contents, then settings, sums, samples and estimate, in words
 * of eight bytes, the lowest byte first. */
#include "host.h"

#include <string.h>

#define NO_IMAGE 14
#define WORD_LENGTH 8
#define FLOAT_LENGTH 8
#define TABLE_LENGTH 96
#define BODIES 4

/* In bytes, in the order of the bodies. */
static const uint64_t body_lengths[BODIES] = {56, 192, 216, 96};

/* Words: each is put or taken at a place that moves on. */

static void put(uint8_t **at, uint64_t word)
{
    uint8_t *to = *at;
    for (int i = 0; i < WORD_LENGTH; i++)
        to[i] = (uint8_t)(word >> 8 * i);
    *at += WORD_LENGTH;
}

static uint64_t take(const uint8_t **at)
{
    const uint8_t *from = *at;
    uint64_t word = 0;
    for (int i = 0; i < WORD_LENGTH; i++)
        word |= (uint64_t)from[i] << 8 * i;
    *at += WORD_LENGTH;
    return word;
}

static void put_exact(uint8_t **at, struct exact value)
{
    put(at, (uint64_t)value.whole);
    put(at, value.part);
}

/* A remainder that has no room in a record is cut, and so is another word when it is put again. */
static struct exact take_exact(const uint8_t **at)
{
    int64_t whole = (int64_t)take(at);
    return (struct exact){whole, (uint32_t)take(at)};
}

/* Images */

static void put_table(uint8_t **at)
{
    uint64_t offset = TABLE_LENGTH;
    for (uint64_t kind = 1; kind <= BODIES; kind++) {
        put(at, kind);
        put(at, offset);
        put(at, body_lengths[kind - 1]);
        offset += body_lengths[kind - 1];
    }
}

void write_image(const struct record *r, uint8_t image[IMAGE_LENGTH])
{
    const uint64_t settings[] = {r->state, r->points, r->tolerances.position,
                                 r->tolerances.velocity, r->limit, r->accepted, r->corrections};
    uint8_t *at = image;
    put_table(&at);
    for (size_t i = 0; i < sizeof settings / sizeof *settings; i++)
        put(&at, settings[i]);
    for (int i = 0; i < AXES; i++) {
        put_exact(&at, r->axes[i].first_sum);
        put_exact(&at, r->axes[i].second_sum);
        put_exact(&at, r->axes[i].held_position);
        put_exact(&at, r->axes[i].held_velocity);
    }
    for (int k = 0; k < PLACES; k++)
        for (int i = 0; i < AXES; i++)
            put(&at, (uint64_t)r->axes[i].samples[k]);
    for (int i = 0; i < AXES; i++) {
        put_exact(&at, r->axes[i].position);
        put_exact(&at, r->axes[i].velocity);
    }
}

/* The record that the words behind the table make. */
static struct record record_of(const uint8_t image[IMAGE_LENGTH])
{
    struct record r;
    const uint8_t *at = image + TABLE_LENGTH;
    r.state = take(&at);
    r.points = take(&at);
    r.tolerances.position = take(&at);
    r.tolerances.velocity = take(&at);
    r.limit = take(&at);
    r.accepted = take(&at);
    r.corrections = take(&at);
    for (int i = 0; i < AXES; i++) {
        r.axes[i].first_sum = take_exact(&at);
        r.axes[i].second_sum = take_exact(&at);
        r.axes[i].held_position = take_exact(&at);
        r.axes[i].held_velocity = take_exact(&at);
    }
    for (int k = 0; k < PLACES; k++)
        for (int i = 0; i < AXES; i++)
            r.axes[i].samples[k] = (int64_t)take(&at);
    for (int i = 0; i < AXES; i++) {
        r.axes[i].position = take_exact(&at);
        r.axes[i].velocity = take_exact(&at);
    }
    return r;
}

/* By a call that fits the state, made on a copy: it answers 7 where the record counts as closed. */
static bool counts_as_closed(struct record r)
{
    switch (r.state) {
    case SETTLED:
        return predict(&r).number == 7;
    case AWAITING:
        return withdraw(&r).number == 7;
    case STARTING:
        return later_round(&r, NULL, 0).number == 7;
    default:
        return true;
    }
}

void save_image(const struct record *r, uint8_t image[IMAGE_LENGTH])
{
    static const struct record closed = {.state = CLOSED};
    write_image(counts_as_closed(*r) ? &closed : r, image);
}

/* An image is what saving the record that it makes gives again. */
bool read_image(const uint8_t *image, size_t length, struct record *r)
{
    uint8_t again[IMAGE_LENGTH];
    if (length != IMAGE_LENGTH)
        return false;
    *r = record_of(image);
    save_image(r, again);
    return memcmp(image, again, IMAGE_LENGTH) == 0;
}

/* Answers */

static void put_value(uint8_t **at, wide number)
{
    struct exact value = split(number);
    double reported = report(value);
    uint64_t bits;
    memcpy(&bits, &reported, sizeof bits);
    put_exact(at, value);
    put(at, bits);
}

static void put_motion(uint8_t **at, struct motion m)
{
    put_value(at, m.position);
    put_value(at, m.velocity);
}

/* Leaves the image of the record and the fields of the answer; its number. */
static uint32_t leave(const struct record *r, struct answer a, uint8_t *image, uint8_t *answer)
{
    uint8_t *at = answer;
    save_image(r, image);
    put(&at, a.kind);
    for (int i = 0; i < AXES; i++)
        put_motion(&at, a.point[i]);
    put_motion(&at, a.change);
    return (uint32_t)a.number;
}

/* Calls */

/* The floats of an opening's sample bytes; how many, 0 where that is not three for each point. */
static size_t floats_of(const uint8_t *samples, size_t length, uint64_t points,
                        double floats[AXES * PLACES])
{
    if (points < 1 || points > PLACES || length != FLOAT_LENGTH * AXES * points)
        return 0;
    for (uint64_t i = 0; i < AXES * points; i++) {
        uint64_t bits = take(&samples);
        memcpy(&floats[i], &bits, sizeof bits);
    }
    return AXES * points;
}

uint32_t peer_host_open(uint8_t *image, size_t image_length, uint8_t *answer, size_t answer_length,
                        uint64_t points, uint64_t position_tolerance, uint64_t velocity_tolerance,
                        uint64_t limit, int64_t x, int64_t y, int64_t z, int64_t vx, int64_t vy,
                        int64_t vz, const uint8_t *samples, size_t samples_length)
{
    struct record r = {.state = CLOSED};
    double floats[AXES * PLACES];
    if (image_length != IMAGE_LENGTH || answer_length != ANSWER_LENGTH)
        return NO_IMAGE;
    struct opening given = {.points = points,
                            .tolerances = {position_tolerance, velocity_tolerance},
                            .limit = limit,
                            .position = {x, y, z},
                            .velocity = {vx, vy, vz},
                            .samples = floats,
                            .length = floats_of(samples, samples_length, points, floats)};
    struct answer a = open_session(&r, &given);
    return leave(&r, a, image, answer);
}

uint32_t peer_host_predict(uint8_t *image, size_t image_length, uint8_t *answer,
                           size_t answer_length)
{
    struct record r;
    if (!read_image(image, image_length, &r) || answer_length != ANSWER_LENGTH)
        return NO_IMAGE;
    struct answer a = predict(&r);
    return leave(&r, a, image, answer);
}

uint32_t peer_host_correct(uint8_t *image, size_t image_length, uint8_t *answer,
                           size_t answer_length, double x, double y, double z)
{
    struct record r;
    if (!read_image(image, image_length, &r) || answer_length != ANSWER_LENGTH)
        return NO_IMAGE;
    struct answer a = correct(&r, (const double[AXES]){x, y, z});
    return leave(&r, a, image, answer);
}

uint32_t peer_host_withdraw(uint8_t *image, size_t image_length, uint8_t *answer,
                            size_t answer_length)
{
    struct record r;
    if (!read_image(image, image_length, &r) || answer_length != ANSWER_LENGTH)
        return NO_IMAGE;
    struct answer a = withdraw(&r);
    return leave(&r, a, image, answer);
}
