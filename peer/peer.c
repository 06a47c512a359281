/* Reads a script of calls from standard input and writes each answer and the record after it. */
/* The lines of a script:
 *   open POINTS TOLERANCES LIMIT X Y Z VX VY VZ F F ..    0 to 64 floats
 *   predict
 *   correct F F F
 *   withdraw
 *   why F F F
 *   start POINTS TOLERANCES LIMIT X Y Z VX VY VZ F F ..   as open
 *   refine F F ..                                         0 to 64 floats
 *   run WANTED F F ..                                     0 to 192 floats
 *   fill STATE POINTS TOLERANCES LIMIT ACCEPTED CORRECTIONS, then for each axis
 *        S1 whole, S1 part, S2 whole, S2 part,
 *        held sum of positions whole, part, that of velocities whole, part,
 *        nine samples newest first, estimate position whole, part, velocity whole, part
 *   save
 *   load BYTES                                            1 to 2045, two digits each
 * TOLERANCES are two words, for position and for velocity.
 * Words stand apart by exactly one space, none before the first or after the last. A line ends
 * with a newline and has at most 4,096 bytes before it; what follows the last newline is no call.
 * WANTED POINTS TOLERANCES LIMIT ACCEPTED CORRECTIONS are unsigned of 64 bits, parts unsigned of 32 bits,
 * wholes, samples, X Y Z VX VY VZ signed of 64 bits, STATE is 0, 1, 2 or 3. A number is 0, or a
 * digit from 1 to 9 and then digits, a signed one also with - before it (but not -0). A float is the
 * 16 digits of its bits, 0 to 9 and a to f. At the first other line `line N: not a call` is written,
 * lines counted from 1, and nothing more is read.
 * A value is written as whole, part and the bits of its report. An answer is the name of its call,
 * NUMBER and KIND, then
 *   of a round: the changes, then nine points, oldest first, each x, vx, y, vy, z, vz
 *   of another call: the point x, vx, y, vy, z, vz, then the changes
 * where the changes are two values, the largest of position and the largest of velocity, and
 *   of why: VALUE, its change, its TOLERANCE, GIVEN and a difference for each axis
 * That of a run is its name, NUMBER, the points settled and the samples used.
 * Behind each answer but those of why and of save the record is written. The answer of save is its
 * name, 0 and the 656 bytes of the record's image; that of load is its name and 0 or, for bytes that
 * are no image, 14, and the record is then as it was. */
#include "host.h"

#include <inttypes.h>
#include <stdio.h>
#include <string.h>
#include <unistd.h>

#define LINE_MOST 4096
#define FLOATS_MOST 64
#define RUN_FLOATS_MOST 192
#define BYTES_MOST (LINE_MOST / 2)

/* Reading words */

/* What is left of a line, and whether all so far was as it has to be. */
struct text {
    const char *at, *end;
    bool good;
};

static bool next_is(struct text *t, const char *expected)
{
    size_t length = strlen(expected);
    if ((size_t)(t->end - t->at) < length || memcmp(t->at, expected, length) != 0)
        return false;
    t->at += length;
    return true;
}

static bool digit_follows(const struct text *t)
{
    return t->at < t->end && *t->at >= '0' && *t->at <= '9';
}

/* Digits without a spare zero that make at most the number given. */
static uint64_t digits(struct text *t, uint64_t most)
{
    if (!digit_follows(t))
        t->good = false;
    if (next_is(t, "0"))
        return 0;
    unsigned __int128 value = 0;
    while (t->good && digit_follows(t)) {
        value = 10 * value + (unsigned)(*t->at++ - '0');
        t->good = value <= most;
    }
    return (uint64_t)value;
}

static uint64_t unsigned_word(struct text *t, uint64_t most)
{
    t->good = t->good && next_is(t, " ");
    return digits(t, most);
}

static int64_t signed_word(struct text *t)
{
    t->good = t->good && next_is(t, " ");
    if (!next_is(t, "-"))
        return (int64_t)digits(t, INT64_MAX);
    uint64_t size = digits(t, (uint64_t)INT64_MAX + 1);
    if (size == 0)
        t->good = false;
    return (int64_t)-size;
}

/* So many digits 0 to 9 and a to f, the highest first. */
static uint64_t hex_digits(struct text *t, int count)
{
    static const char hex[] = "0123456789abcdef";
    uint64_t bits = 0;
    t->good = t->good && t->end - t->at >= count;
    for (int i = 0; t->good && i < count; i++) {
        const char *digit = memchr(hex, *t->at++, 16);
        t->good = digit != NULL;
        if (t->good)
            bits = bits << 4 | (uint64_t)(digit - hex);
    }
    return bits;
}

static double float_word(struct text *t)
{
    double value;
    t->good = t->good && next_is(t, " ");
    uint64_t bits = hex_digits(t, 16);
    memcpy(&value, &bits, sizeof value);
    return value;
}

/* The bytes up to the end of the line, at least one; how many. */
static size_t byte_word(struct text *t, uint8_t bytes[BYTES_MOST])
{
    size_t length = 0;
    t->good = t->good && next_is(t, " ") && t->at < t->end;
    while (t->good && t->at < t->end)
        bytes[length++] = (uint8_t)hex_digits(t, 2);
    return length;
}

/* The floats up to the end of the line, at most so many; how many. */
static size_t float_words(struct text *t, double *floats, size_t most)
{
    size_t length = 0;
    while (t->good && t->at < t->end && length < most)
        floats[length++] = float_word(t);
    return length;
}

static void sample_words(struct text *t, double sample[AXES])
{
    for (int i = 0; i < AXES; i++)
        sample[i] = float_word(t);
}

static struct tolerances tolerance_words(struct text *t)
{
    uint64_t position = unsigned_word(t, UINT64_MAX);
    return (struct tolerances){position, unsigned_word(t, UINT64_MAX)};
}

/* The words of an opening, whose floats go where it keeps them. */
static struct opening opening_words(struct text *t, double floats[FLOATS_MOST])
{
    struct opening given = {.samples = floats};
    given.points = unsigned_word(t, UINT64_MAX);
    given.tolerances = tolerance_words(t);
    given.limit = unsigned_word(t, UINT64_MAX);
    for (int i = 0; i < AXES; i++)
        given.position[i] = signed_word(t);
    for (int i = 0; i < AXES; i++)
        given.velocity[i] = signed_word(t);
    given.length = float_words(t, floats, FLOATS_MOST);
    return given;
}

static struct exact exact_words(struct text *t)
{
    int64_t whole = signed_word(t);
    return (struct exact){whole, (uint32_t)unsigned_word(t, UINT32_MAX)};
}

/* Whether the line was read to its end and all of it was as it has to be. */
static bool read_whole(const struct text *t)
{
    return t->good && t->at == t->end;
}

/* Writing */

static void write_value(wide number)
{
    struct exact value = split(number);
    double reported = report(value);
    uint64_t bits;
    memcpy(&bits, &reported, sizeof bits);
    printf(" %" PRId64 " %" PRIu32 " %016" PRIx64, value.whole, value.part, bits);
}

static void write_exact(struct exact value)
{
    printf(" %" PRId64 " %" PRIu32, value.whole, value.part);
}

static void write_motion(struct motion m)
{
    write_value(m.position);
    write_value(m.velocity);
}

static void write_point(const struct motion point[AXES])
{
    for (int i = 0; i < AXES; i++)
        write_motion(point[i]);
}

static void write_answer(const char *call, struct answer a)
{
    printf("%s %d %d", call, a.number, (int)a.kind);
    write_point(a.point);
    write_motion(a.change);
    putchar('\n');
}

static void write_round(const char *call, struct round_answer a)
{
    printf("%s %d %d", call, a.number, (int)a.kind);
    write_motion(a.change);
    for (int k = 0; k < PLACES; k++)
        write_point(a.points[k]);
    putchar('\n');
}

static void write_reason(struct reason a)
{
    printf("why %d %d %d", a.number, (int)a.kind, a.value);
    write_value(a.change);
    printf(" %" PRIu64 " %d", a.tolerance, a.given);
    for (int i = 0; i < AXES; i++)
        printf(" %" PRId64, a.differences[i]);
    putchar('\n');
}

static void write_record(const struct record *r)
{
    const uint64_t numbers[] = {r->state, r->points, r->tolerances.position, r->tolerances.velocity,
                                r->limit, r->accepted, r->corrections};
    printf("record");
    for (size_t i = 0; i < sizeof numbers / sizeof *numbers; i++)
        printf(" %" PRIu64, numbers[i]);
    for (int i = 0; i < AXES; i++) {
        const struct axis *a = &r->axes[i];
        write_exact(a->first_sum);
        write_exact(a->second_sum);
        write_exact(a->held_position);
        write_exact(a->held_velocity);
        for (int k = 0; k < PLACES; k++)
            printf(" %" PRId64, a->samples[k]);
        write_exact(a->position);
        write_exact(a->velocity);
    }
    putchar('\n');
}

/* Calls: each reads the rest of its line and, if it is a call, makes it and writes the answer. */

static bool do_open(struct record *r, struct text *t)
{
    double floats[FLOATS_MOST];
    struct opening given = opening_words(t, floats);
    if (!read_whole(t))
        return false;
    write_answer("open", open_session(r, &given));
    return true;
}

static bool do_predict(struct record *r, struct text *t)
{
    if (!read_whole(t))
        return false;
    write_answer("predict", predict(r));
    return true;
}

static bool do_correct(struct record *r, struct text *t)
{
    double sample[AXES];
    sample_words(t, sample);
    if (!read_whole(t))
        return false;
    write_answer("correct", correct(r, sample));
    return true;
}

static bool do_withdraw(struct record *r, struct text *t)
{
    if (!read_whole(t))
        return false;
    write_answer("withdraw", withdraw(r));
    return true;
}

static bool do_why(const struct record *r, struct text *t)
{
    double sample[AXES];
    sample_words(t, sample);
    if (!read_whole(t))
        return false;
    write_reason(why(r, sample));
    return true;
}

static bool do_start(struct record *r, struct text *t)
{
    double floats[FLOATS_MOST];
    struct opening given = opening_words(t, floats);
    if (!read_whole(t))
        return false;
    write_round("start", first_round(r, &given));
    return true;
}

static bool do_refine(struct record *r, struct text *t)
{
    double floats[FLOATS_MOST];
    size_t length = float_words(t, floats, FLOATS_MOST);
    if (!read_whole(t))
        return false;
    write_round("refine", later_round(r, floats, length));
    return true;
}

static bool do_run(struct record *r, struct text *t)
{
    double floats[RUN_FLOATS_MOST];
    uint64_t wanted = unsigned_word(t, UINT64_MAX);
    size_t length = float_words(t, floats, RUN_FLOATS_MOST);
    if (!read_whole(t))
        return false;
    struct run_answer a = run_session(r, wanted, floats, length);
    printf("run %d %" PRIu64 " %" PRIu64 "\n", a.number, a.points, a.used);
    return true;
}

static bool do_fill(struct record *r, struct text *t)
{
    struct record filled;
    filled.state = unsigned_word(t, STARTING);
    filled.points = unsigned_word(t, UINT64_MAX);
    filled.tolerances = tolerance_words(t);
    filled.limit = unsigned_word(t, UINT64_MAX);
    filled.accepted = unsigned_word(t, UINT64_MAX);
    filled.corrections = unsigned_word(t, UINT64_MAX);
    for (int i = 0; i < AXES; i++) {
        struct axis *a = &filled.axes[i];
        a->first_sum = exact_words(t);
        a->second_sum = exact_words(t);
        a->held_position = exact_words(t);
        a->held_velocity = exact_words(t);
        for (int k = 0; k < PLACES; k++)
            a->samples[k] = signed_word(t);
        a->position = exact_words(t);
        a->velocity = exact_words(t);
    }
    if (!read_whole(t))
        return false;
    *r = filled;
    return true;
}

static bool do_save(const struct record *r, struct text *t)
{
    uint8_t image[IMAGE_LENGTH];
    if (!read_whole(t))
        return false;
    save_image(r, image);
    printf("save 0 ");
    for (int i = 0; i < IMAGE_LENGTH; i++)
        printf("%02x", image[i]);
    putchar('\n');
    return true;
}

static bool do_load(struct record *r, struct text *t)
{
    uint8_t bytes[BYTES_MOST];
    struct record loaded;
    size_t length = byte_word(t, bytes);
    if (!read_whole(t))
        return false;
    bool good = read_image(bytes, length, &loaded);
    if (good)
        *r = loaded;
    printf("load %d\n", good ? 0 : 14);
    return true;
}

static bool do_line(struct record *r, struct text t)
{
    bool done = false;
    if (next_is(&t, "why"))
        return do_why(r, &t);
    if (next_is(&t, "save"))
        return do_save(r, &t);
    if (next_is(&t, "open"))
        done = do_open(r, &t);
    else if (next_is(&t, "predict"))
        done = do_predict(r, &t);
    else if (next_is(&t, "correct"))
        done = do_correct(r, &t);
    else if (next_is(&t, "withdraw"))
        done = do_withdraw(r, &t);
    else if (next_is(&t, "start"))
        done = do_start(r, &t);
    else if (next_is(&t, "refine"))
        done = do_refine(r, &t);
    else if (next_is(&t, "run"))
        done = do_run(r, &t);
    else if (next_is(&t, "fill"))
        done = do_fill(r, &t);
    else if (next_is(&t, "load"))
        done = do_load(r, &t);
    if (done)
        write_record(r);
    return done;
}

/* Lines */

/* The next byte of the input, or -1 at its end; what was written goes out before any wait. */
static int next_byte(void)
{
    static unsigned char held[65536];
    static size_t at, length;
    if (at == length) {
        fflush(stdout);
        ssize_t got = read(STDIN_FILENO, held, sizeof held);
        if (got <= 0)
            return -1;
        at = 0;
        length = (size_t)got;
    }
    return held[at++];
}

int main(void)
{
    static char line[LINE_MOST], out[65536];
    struct record r = {.state = CLOSED};
    prepare();
    setvbuf(stdout, out, _IOFBF, sizeof out);
    for (uint64_t number = 1;; number++) {
        size_t length = 0;
        int byte = next_byte();
        if (byte < 0)
            return 0;
        while (byte >= 0 && byte != '\n' && length < LINE_MOST) {
            line[length++] = (char)byte;
            byte = next_byte();
        }
        struct text text = {line, line + length, byte == '\n'};
        if (!text.good || !do_line(&r, text)) {
            printf("line %" PRIu64 ": not a call\n", number);
            return 0;
        }
    }
}
