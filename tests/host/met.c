/* What has to be met: every number of every call, every state that a call refuses and that an
 * opening replaces, every number of points, both kinds of a correction, and every cause of 14. */
#include "met.h"

#include <inttypes.h>
#include <stdio.h>

#define NUMBERS 15
#define STATES 4
#define NO_SESSION STATES

/* The causes of 14. */
enum { IMAGE_LENGTH_OFF, ANSWER_LENGTH_OFF, NO_SUCH_IMAGE, CAUSES };

static const char *const call_names[] = {"open", "predict", "correct", "withdraw"};
static const char *const state_names[] = {"closed", "settled", "awaiting", "starting", "none"};
static const char *const cause_names[] = {"image length", "answer length", "no image"};

/* The numbers that a call can return, as bits; and the state that it fits, as one. */
static const unsigned numbers_of[] = {
    1u << 0 | 1u << 1 | 1u << 2 | 1u << 3 | 1u << 4 | 1u << 5 | 1u << 6 | 1u << 13 | 1u << 14,
    1u << 0 | 1u << 6 | 1u << 7 | 1u << 9 | 1u << 14,
    1u << 0 | 1u << 4 | 1u << 5 | 1u << 6 | 1u << 7 | 1u << 8 | 1u << 13 | 1u << 14,
    1u << 0 | 1u << 7 | 1u << 14};
static const int fitting[] = {-1, SETTLED, AWAITING, AWAITING};

static uint64_t by_number[CALLS][NUMBERS], by_points[CALLS][PLACES + 1], by_cause[CALLS][CAUSES];
static uint64_t refused_on[CALLS][STATES], opened_over[STATES + 1], accepted, again;

static int state_of(const struct slice *image)
{
    struct record r;
    return read_image(image->bytes, image->length, &r) ? (int)r.state : NO_SESSION;
}

static void meet_fourteen(enum call_kind kind, const struct slice *image,
                          const struct slice *answer)
{
    if (image->length != IMAGE_LENGTH)
        by_cause[kind][IMAGE_LENGTH_OFF]++;
    else if (answer->length != ANSWER_LENGTH)
        by_cause[kind][ANSWER_LENGTH_OFF]++;
    else
        by_cause[kind][NO_SUCH_IMAGE]++;
}

void meet(const struct call *c, const struct slice *image, const struct slice *answer,
          uint32_t number, const uint8_t *left)
{
    by_number[c->kind][number]++;
    if (number == 14)
        meet_fourteen(c->kind, image, answer);
    else if (c->kind == OPEN)
        opened_over[state_of(image)]++;
    else if (number == 7)
        refused_on[c->kind][durungkilat_word(image->bytes, DURUNGKILAT_STATE)]++;
    if (number == 0)
        by_points[c->kind][c->kind == OPEN ? c->points
                                           : durungkilat_word(image->bytes, DURUNGKILAT_POINTS)]++;
    if (number == 0 && c->kind == CORRECT) {
        accepted += durungkilat_word(left, DURUNGKILAT_KIND) == DURUNGKILAT_ACCEPTED;
        again += durungkilat_word(left, DURUNGKILAT_KIND) == DURUNGKILAT_AGAIN;
    }
}

/* Prints a count under its name; whether it is enough. */
static bool enough(const char *name, uint64_t count, uint64_t least)
{
    printf("  %s %" PRIu64 "%s", name, count, count < least ? " TOO FEW" : "");
    return count >= least;
}

static bool enough_numbered(uint64_t name, uint64_t count, uint64_t least)
{
    char text[24];
    snprintf(text, sizeof text, "%" PRIu64 ":", name);
    return enough(text, count, least);
}

static bool print_call(enum call_kind kind, uint64_t least)
{
    bool good = true;
    printf("%s:", call_names[kind]);
    for (unsigned n = 0; n < NUMBERS; n++)
        if (numbers_of[kind] >> n & 1)
            good &= enough_numbered(n, by_number[kind][n], least);
    printf("\n  with points:");
    for (unsigned p = 1; p <= PLACES; p++)
        good &= enough_numbered(p, by_points[kind][p], least);
    printf("\n  14 for:");
    for (int i = 0; i < CAUSES; i++)
        if (kind != OPEN || i != NO_SUCH_IMAGE)
            good &= enough(cause_names[i], by_cause[kind][i], least);
    printf(kind == OPEN ? "\n  made over:" : "\n  7 on:");
    for (int i = 0; i < (kind == OPEN ? STATES + 1 : STATES); i++)
        if (i != fitting[kind])
            good &=
                enough(state_names[i], kind == OPEN ? opened_over[i] : refused_on[kind][i], least);
    putchar('\n');
    return good;
}

bool print_met(uint64_t least)
{
    bool good = true;
    for (int kind = OPEN; kind < CALLS; kind++)
        good &= print_call((enum call_kind)kind, least);
    printf("corrections:");
    good &= enough("accepted", accepted, least);
    good &= enough("again", again, least);
    putchar('\n');
    return good;
}
