/* A script as peer/check draws it, read from standard input: open, predict, correct and withdraw
 * are made as host calls; fill, start, refine and run change the record, whose image goes to the next
 * host call. */
#include "draw.h"
#include "runs.h"
#include "sessions.h"

#include <inttypes.h>
#include <stdio.h>
#include <stdlib.h>

#define LINE_MOST 4097
#define FLOATS_MOST 64
#define RUN_FLOATS_MOST 192

static uint8_t image[IMAGE_LENGTH];
static struct record held;

/* Words: the next of the line, as a number; 0 where there is none. */

static const char *next_word(void)
{
    const char *word = strtok(NULL, " \n");
    return word != NULL ? word : "0";
}

static uint64_t natural(void)
{
    return strtoull(next_word(), NULL, 10);
}

static int64_t whole(void)
{
    return strtoll(next_word(), NULL, 10);
}

static struct exact exact_words(void)
{
    int64_t ticks = whole();
    return (struct exact){ticks, (uint32_t)natural()};
}

/* The floats that are left, at most so many; how many. */
static size_t float_words(double *floats, size_t most)
{
    size_t count = 0;
    for (const char *word; count < most && (word = strtok(NULL, " \n")) != NULL; count++) {
        uint64_t bits = strtoull(word, NULL, 16);
        memcpy(&floats[count], &bits, sizeof bits);
    }
    return count;
}

/* Calls */

static void save_held(void)
{
    save_image(&held, image);
    read_image(image, IMAGE_LENGTH, &held);
}

static void host_call(const struct call *c)
{
    make_on(c, image);
    read_image(image, IMAGE_LENGTH, &held);
}

static struct call opening_words(double floats[FLOATS_MOST])
{
    struct call c = {.kind = OPEN};
    c.points = natural();
    c.tolerances[0] = natural();
    c.tolerances[1] = natural();
    c.limit = natural();
    for (int i = 0; i < AXES; i++)
        c.position[i] = whole();
    for (int i = 0; i < AXES; i++)
        c.velocity[i] = whole();
    c.samples.length = 8 * float_words(floats, FLOATS_MOST);
    memcpy(c.samples.bytes, floats, c.samples.length);
    return c;
}

static void do_start(void)
{
    double floats[FLOATS_MOST];
    struct call c = opening_words(floats);
    struct opening given = {.points = c.points,
                            .tolerances = {c.tolerances[0], c.tolerances[1]},
                            .limit = c.limit,
                            .samples = floats,
                            .length = c.samples.length / 8};
    memcpy(given.position, c.position, sizeof given.position);
    memcpy(given.velocity, c.velocity, sizeof given.velocity);
    first_round(&held, &given);
    save_held();
}

static void do_run(void)
{
    double floats[RUN_FLOATS_MOST];
    uint64_t wanted = natural();
    size_t count = float_words(floats, RUN_FLOATS_MOST);
    run_session(&held, wanted, floats, count);
    save_held();
}

/* The record as it is filled is also handed in as it stands, to each call that reads an image. */
static void do_fill(void)
{
    held.state = natural();
    held.points = natural();
    held.tolerances.position = natural();
    held.tolerances.velocity = natural();
    held.limit = natural();
    held.accepted = natural();
    held.corrections = natural();
    for (int i = 0; i < AXES; i++) {
        struct axis *a = &held.axes[i];
        a->first_sum = exact_words();
        a->second_sum = exact_words();
        a->held_position = exact_words();
        a->held_velocity = exact_words();
        for (int k = 0; k < PLACES; k++)
            a->samples[k] = whole();
        a->position = exact_words();
        a->velocity = exact_words();
    }
    for (int kind = PREDICT; kind < CALLS; kind++) {
        struct call c = plain_call((enum call_kind)kind);
        write_image(&held, image);
        make_on(&c, image);
    }
    save_held();
}

static void do_line(const char *name)
{
    double floats[FLOATS_MOST] = {0};
    if (strcmp(name, "open") == 0) {
        struct call c = opening_words(floats);
        host_call(&c);
    } else if (strcmp(name, "correct") == 0) {
        struct call c = plain_call(CORRECT);
        float_words(floats, FLOATS_MOST);
        memcpy(c.sample, floats, sizeof c.sample);
        host_call(&c);
    } else if (strcmp(name, "predict") == 0) {
        struct call c = plain_call(PREDICT);
        host_call(&c);
    } else if (strcmp(name, "withdraw") == 0) {
        struct call c = plain_call(WITHDRAW);
        host_call(&c);
    } else if (strcmp(name, "refine") == 0) {
        size_t count = float_words(floats, FLOATS_MOST);
        later_round(&held, floats, count);
        save_held();
    } else if (strcmp(name, "start") == 0) {
        do_start();
    } else if (strcmp(name, "run") == 0) {
        do_run();
    } else if (strcmp(name, "fill") == 0) {
        do_fill();
    }
}

bool run_script(void)
{
    char line[LINE_MOST];
    save_held();
    while (fgets(line, sizeof line, stdin) != NULL) {
        const char *name = strtok(line, " \n");
        if (name != NULL)
            do_line(name);
    }
    return true;
}
