/* Images with each kind of damage. */
#include "draw.h"
#include "runs.h"
#include "sessions.h"

#include "../../peer/shared.h"

#include <inttypes.h>
#include <stdio.h>

#define WORDS (IMAGE_LENGTH / 8)
#define TABLE_WORDS 12
#define SETTINGS 12 /* the words of the bodies begin so far on */
#define SUMS 19
#define SAMPLES 43
#define ESTIMATE 70
#define SESSIONS 64 /* drawn anew now and then */
#define SESSIONS_LAST 2048
#define LONG_RUN                                                                                   \
    100000 /* images; a run as long takes every byte in turn, and meets every outcome */

static struct record sessions[SESSIONS];

static uint64_t word_at(const uint8_t *image, size_t word)
{
    return durungkilat_word(image, 8 * word);
}

static void set_word(uint8_t *image, size_t word, uint64_t value)
{
    for (int i = 0; i < 8; i++)
        image[8 * word + (size_t)i] = (uint8_t)(value >> 8 * i);
}

static bool is_remainder(size_t word)
{
    return (word >= SUMS && word < SAMPLES && (word - SUMS) % 2 == 1) ||
           (word >= ESTIMATE && (word - ESTIMATE) % 2 == 1);
}

/* Damage: each takes a record, and the image as it stands, and changes the image. */

static void none(const struct record *r, uint8_t *image)
{
    (void)r, (void)image;
}

static void byte(const struct record *r, uint8_t *image)
{
    (void)r;
    image[below(IMAGE_LENGTH)] = (uint8_t)draw_word();
}

static void bit(const struct record *r, uint8_t *image)
{
    (void)r;
    image[below(IMAGE_LENGTH)] ^= (uint8_t)(1 << below(8));
}

static void word(const struct record *r, uint8_t *image)
{
    (void)r;
    size_t at = below(WORDS);
    uint64_t old = word_at(image, at);
    set_word(image, at,
             ONE_OF(uint64_t, 0, 1, old + 1, old - 1, -old, ~old, old << 8, old >> 8,
                    (uint64_t)1 << 63, UINT64_MAX, INT64_MAX, draw_word()));
}

static void table(const struct record *r, uint8_t *image)
{
    (void)r;
    size_t at = below(TABLE_WORDS);
    uint64_t old = word_at(image, at);
    set_word(image, at,
             old + ONE_OF(uint64_t, 1, (uint64_t)-1, 8, (uint64_t)-8, 256, (uint64_t)1 << 32,
                          (uint64_t)1 << 63));
}

static void state_code(const struct record *r, uint8_t *image)
{
    set_word(image, SETTINGS,
             ONE_OF(uint64_t, below(4), 4, 5, 255, 256 + r->state, UINT64_MAX,
                    ((uint64_t)1 << 32) + r->state, ((uint64_t)1 << 63) + r->state));
}

static void remainder_word(const struct record *r, uint8_t *image)
{
    (void)r;
    size_t at;
    do {
        at = SUMS + below(WORDS - SUMS);
    } while (!is_remainder(at));
    uint64_t old = word_at(image, at), wide_bit = (uint64_t)1 << 32;
    set_word(image, at,
             ONE_OF(uint64_t, PARTS - 1, PARTS, PARTS + 1, old + PARTS, old - 1, old + 1,
                    wide_bit - 1, wide_bit, wide_bit + old, (wide_bit << 31) + old, UINT64_MAX,
                    (uint64_t)-PARTS + old));
}

/* A whole moved on by a remainder that is too large by as much: the same value in another form. */
static void other_form(const struct record *r, uint8_t *image)
{
    (void)r;
    size_t at;
    do {
        at = SUMS + below(WORDS - SUMS);
    } while (!is_remainder(at));
    set_word(image, at, word_at(image, at) + PARTS);
    set_word(image, at - 1, word_at(image, at - 1) - 1);
}

static void random_bytes(const struct record *r, uint8_t *image)
{
    (void)r;
    size_t from = ONE_OF(size_t, 0, 8 * SETTINGS, below(IMAGE_LENGTH));
    for (size_t i = from; i < IMAGE_LENGTH; i++)
        image[i] = (uint8_t)draw_word();
}

static void two_words(const struct record *r, uint8_t *image)
{
    (void)r;
    size_t one = below(WORDS), other = below(WORDS);
    uint64_t kept = word_at(image, one);
    set_word(image, one, word_at(image, other));
    set_word(image, other, kept);
}

/* The words from one place on one place later. */
static void moved_on(const struct record *r, uint8_t *image)
{
    (void)r;
    size_t from = 8 * below(WORDS), by = ONE_OF(size_t, 1, 8);
    memmove(image + from + by, image + from, IMAGE_LENGTH - from - by);
}

static void spliced(const struct record *r, uint8_t *image)
{
    (void)r;
    uint8_t other[IMAGE_LENGTH];
    size_t from = ONE_OF(size_t, 8 * SUMS, 8 * SAMPLES, 8 * ESTIMATE, below(IMAGE_LENGTH));
    write_image(&sessions[below(SESSIONS)], other);
    memcpy(image + from, other + from, IMAGE_LENGTH - from);
}

static void bytes_turned(const struct record *r, uint8_t *image)
{
    (void)r;
    for (size_t i = 8 * SETTINGS; i < IMAGE_LENGTH; i += 8)
        for (size_t k = 0; k < 4; k++) {
            uint8_t kept = image[i + k];
            image[i + k] = image[i + 7 - k];
            image[i + 7 - k] = kept;
        }
}

static void closed_and_a_byte(const struct record *r, uint8_t *image)
{
    (void)r;
    save_image(&(struct record){.state = CLOSED}, image);
    image[below(IMAGE_LENGTH)] = (uint8_t)draw_word();
}

/* A setting at its limit or past it, or one of another session. */
static void setting(const struct record *r, uint8_t *image)
{
    struct record changed = *r;
    switch (below(7)) {
    case 0:
        changed.points =
            ONE_OF(uint64_t, 0, 1, 9, 10, r->points - 1, r->points + 1, r->points + 256);
        break;
    case 1:
        changed.tolerances.position =
            ONE_OF(uint64_t, 0, TOLERANCE_MOST, TOLERANCE_MOST + 1, draw_word());
        break;
    case 2:
        changed.tolerances.velocity =
            ONE_OF(uint64_t, 0, TOLERANCE_MOST, TOLERANCE_MOST + 1, draw_word());
        break;
    case 3:
        changed.limit =
            ONE_OF(uint64_t, 0, 1, 8, 9, r->corrections, r->corrections + 1, draw_word());
        break;
    case 4:
        changed.accepted = ONE_OF(uint64_t, 0, 1, ACCEPTED_MOST - 1, ACCEPTED_MOST,
                                  ACCEPTED_MOST + 1, draw_word());
        break;
    case 5:
        changed.corrections = ONE_OF(uint64_t, 0, 1, r->limit - 1, r->limit, draw_word());
        break;
    default:
        changed.state = below(4);
    }
    if (once_in(2))
        hold_again(&changed);
    write_image(&changed, image);
}

/* A sample at its limit or past it, or in an empty place; mostly with the held sums that go with
 * it. */
static void sample(const struct record *r, uint8_t *image)
{
    struct record changed = *r;
    int64_t *place = &changed.axes[below(AXES)].samples[below(PLACES)];
    *place = ONE_OF(int64_t, SAMPLE_MOST, SAMPLE_MOST + 1, -SAMPLE_MOST, -SAMPLE_MOST - 1,
                    *place + 1, *place - 1, 0, (int64_t)draw_word());
    if (!once_in(4))
        hold_again(&changed);
    write_image(&changed, image);
}

/* An exact value a little off, or at a bound. */
static void exact_value(const struct record *r, uint8_t *image)
{
    struct record changed = *r;
    struct axis *a = &changed.axes[below(AXES)];
    struct exact *values[] = {&a->first_sum,     &a->second_sum, &a->held_position,
                              &a->held_velocity, &a->position,   &a->velocity};
    struct exact *value = values[below(6)];
    if (once_in(2))
        add_parts(value, ONE_OF(wide, 1, -1, PARTS, -PARTS, (wide)draw_word()));
    else
        *value = split((wide)ONE_OF(int64_t, POSITION_BOUND, -POSITION_BOUND, VELOCITY_BOUND,
                                    -VELOCITY_BOUND) *
                           PARTS -
                       (wide)below(2));
    write_image(&changed, image);
}

static void limit(const struct record *r, uint8_t *image)
{
    struct record changed = *r;
    if (r->state == SETTLED || r->state == AWAITING)
        bring_to_limit(&changed);
    write_image(&changed, image);
}

/* An epoch or a sum of a starting record that its points are near a bound with. */
static void epoch(const struct record *r, uint8_t *image)
{
    struct record changed = *r;
    struct axis *a = &changed.axes[below(AXES)];
    if (once_in(2))
        a->position.whole = ONE_OF(int64_t, POSITION_BOUND - 1, POSITION_BOUND, -POSITION_BOUND,
                                   POSITION_BOUND - 1 - 5 * a->velocity.whole);
    else
        a->velocity.whole = ONE_OF(int64_t, VELOCITY_BOUND - 1, VELOCITY_BOUND, -VELOCITY_BOUND);
    if (once_in(4))
        a->velocity.part = 1;
    write_image(&changed, image);
}

/* Every field within its range, whether or not they fit together. */
static void any_fields(const struct record *r, uint8_t *image)
{
    struct record changed = *r;
    changed.state = 1 + below(3);
    changed.points = 1 + below(PLACES);
    for (int i = 0; i < AXES; i++) {
        struct axis *a = &changed.axes[i];
        a->first_sum = (struct exact){draw_signed(VELOCITY_BOUND), (uint32_t)below(PARTS)};
        a->second_sum = (struct exact){draw_signed(POSITION_BOUND), (uint32_t)below(PARTS)};
        for (uint64_t k = 0; k < PLACES; k++)
            a->samples[k] = k < changed.points ? draw_signed(SAMPLE_MOST) : 0;
        if (changed.state != AWAITING)
            a->position = a->velocity = (struct exact){0, 0};
    }
    changed.corrections = changed.state == SETTLED ? 0 : 1 + below(2);
    hold_again(&changed);
    write_image(&changed, image);
}

/* How many of the images so damaged are still of a session. */
enum outcome { SOME, ALL, NEVER, HARDLY_ANY };

static const struct damage {
    const char *name;
    void (*make)(const struct record *r, uint8_t *image);
    enum outcome taken;
} damages[] = {
    {"none", none, ALL},
    {"a byte", byte, SOME},
    {"a bit", bit, SOME},
    {"a word", word, SOME},
    {"the table", table, NEVER},
    {"the state", state_code, SOME},
    {"a remainder", remainder_word, SOME},
    {"another form", other_form, NEVER},
    {"random bytes", random_bytes, HARDLY_ANY},
    {"two words", two_words, SOME},
    {"moved on", moved_on, SOME},
    {"spliced", spliced, SOME},
    {"bytes turned", bytes_turned, SOME},
    {"closed and a byte", closed_and_a_byte, SOME},
    {"a setting", setting, SOME},
    {"a sample", sample, SOME},
    {"an exact value", exact_value, SOME},
    {"a limit", limit, SOME},
    {"an epoch", epoch, SOME},
    {"any fields", any_fields, SOME},
};
#define DAMAGES (sizeof damages / sizeof *damages)

static uint64_t taken[DAMAGES], refused[DAMAGES];

/* Hands an image to the call that is drawn; whether it was taken for a session's. */
static bool hand_in(const struct record *r, uint8_t image[IMAGE_LENGTH])
{
    struct call c = any_call(r);
    return make_on(&c, image) != DURUNGKILAT_NO_IMAGE;
}

/* Every byte of an image of each state, with values beside its own and others. */
static void every_byte(void)
{
    for (int state = CLOSED; state <= STARTING; state++) {
        struct record r = drawn_session((enum state)state);
        uint8_t whole[IMAGE_LENGTH], image[IMAGE_LENGTH];
        write_image(&r, whole);
        for (size_t at = 0; at < IMAGE_LENGTH; at++) {
            uint8_t old = whole[at];
            const uint8_t values[] = {
                old ^ 1, old ^ 0x80, (uint8_t)(old + 1),  (uint8_t)(old - 1), (uint8_t)~old,
                0,       0xff,       (uint8_t)draw_word()};
            for (size_t i = 0; i < sizeof values; i++)
                for (int kind = PREDICT; kind < CALLS; kind++) {
                    struct call c =
                        kind == CORRECT ? drawn_correction(&r) : plain_call((enum call_kind)kind);
                    memcpy(image, whole, IMAGE_LENGTH);
                    image[at] = values[i];
                    make_on(&c, image);
                }
        }
    }
    printf("every byte of an image of each state: %" PRIu64 " images\n", calls_made());
}

static bool print_damages(bool all_met)
{
    bool good = true;
    for (size_t i = 0; i < DAMAGES; i++) {
        enum outcome o = damages[i].taken;
        bool met = (o == NEVER ? taken[i] == 0 : o == HARDLY_ANY || taken[i] > 0) &&
                   (o == ALL ? refused[i] == 0 : refused[i] > 0);
        printf("%-18s taken %8" PRIu64 ", refused %8" PRIu64 "%s\n", damages[i].name, taken[i],
               refused[i], met || !all_met ? "" : " NOT AS IT HAS TO BE");
        good &= met || !all_met;
    }
    return good;
}

bool run_images(uint64_t count)
{
    if (count >= LONG_RUN)
        every_byte();
    for (uint64_t n = 0; n < count; n++) {
        if (n % SESSIONS_LAST == 0)
            for (int i = 0; i < SESSIONS; i++)
                sessions[i] = drawn_session((enum state)(i % 8 == 0 ? CLOSED : 1 + i % 3));
        const struct record *r = &sessions[below(SESSIONS)];
        uint8_t image[IMAGE_LENGTH];
        size_t which = below(DAMAGES);
        write_image(r, image);
        damages[which].make(r, image);
        if (hand_in(r, image))
            taken[which]++;
        else
            refused[which]++;
    }
    return print_damages(count >= LONG_RUN);
}
