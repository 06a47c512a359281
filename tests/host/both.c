/* Each side has rooms of its own, one for each slice. A room is a page between two that cannot be
 * read, or a block of just the slice's length. */
#define _DEFAULT_SOURCE
#include "both.h"

#include "draw.h"
#include "met.h"

#include <inttypes.h>
#include <signal.h>
#include <stdio.h>
#include <stdlib.h>
#include <sys/mman.h>
#include <unistd.h>

#define PAGE 4096

struct side {
    const char *name;
    uint32_t (*open)(uint8_t *, size_t, uint8_t *, size_t, uint64_t, uint64_t, uint64_t, uint64_t,
                     int64_t, int64_t, int64_t, int64_t, int64_t, int64_t, const uint8_t *, size_t);
    uint32_t (*predict)(uint8_t *, size_t, uint8_t *, size_t);
    uint32_t (*correct)(uint8_t *, size_t, uint8_t *, size_t, double, double, double);
    uint32_t (*withdraw)(uint8_t *, size_t, uint8_t *, size_t);
};

static const struct side sides[] = {
    {"library", durungkilat_open, durungkilat_predict, durungkilat_correct, durungkilat_withdraw},
    {"peer", peer_host_open, peer_host_predict, peer_host_correct, peer_host_withdraw}};

/* The slices of a call on one side: image, answer, samples. */
enum { IMAGE, ANSWER, SAMPLES, SLICES };
static const char *const slice_names[] = {"image", "answer", "samples"};

static uint8_t *pages[2][SLICES];
static bool exact_blocks;
static const char *run_name;
static uint64_t made;

/* Rooms */

static uint8_t *guarded_page(void)
{
    uint8_t *at = mmap(NULL, 3 * PAGE, PROT_NONE, MAP_PRIVATE | MAP_ANONYMOUS, -1, 0);
    if (at == MAP_FAILED || mprotect(at + PAGE, PAGE, PROT_READ | PROT_WRITE) != 0) {
        fprintf(stderr, "compare: no memory\n");
        exit(2);
    }
    return at + PAGE;
}

/* Says where the program crashed; a call that leaves its slices does so. */
static void crashed(int number)
{
    char line[200];
    int length = snprintf(line, sizeof line, "crash by signal %d in call %" PRIu64 " of %s\n",
                          number, made + 1, run_name);
    _exit(write(STDOUT_FILENO, line, (size_t)length) > 0 ? 1 : 3);
}

void prepare_both(bool exact, const char *run)
{
    static const int crashes[] = {SIGSEGV, SIGBUS, SIGILL, SIGFPE, SIGABRT, SIGTRAP};
    exact_blocks = exact;
    run_name = run;
    for (int s = 0; s < 2; s++)
        for (int i = 0; i < SLICES; i++)
            pages[s][i] = guarded_page();
    for (size_t i = 0; i < sizeof crashes / sizeof *crashes; i++)
        signal(crashes[i], crashed);
}

/* A copy of the slice, at one end of its room or the other. */
static uint8_t *lend(uint8_t *page, const struct slice *s)
{
    bool first = made * 0x9e3779b97f4a7c15 >> 63 == 0;
    if (s->null)
        return NULL;
    uint8_t *at = exact_blocks ? malloc(s->length) : first ? page : page + PAGE - s->length;
    return s->length == 0 ? at : memcpy(at, s->bytes, s->length);
}

/* Comparing */

static const char *const call_names[] = {"open", "predict", "correct", "withdraw"};

static void print_slice(const char *name, const struct slice *s)
{
    printf("%s, %zu bytes%s: ", name, s->length, s->null ? ", null" : "");
    for (size_t i = 0; i < s->length; i++)
        printf("%02x", s->bytes[i]);
    putchar('\n');
}

/* Prints the call that the two sides differ in, and ends the program. */
static void differ(const struct call *c, const struct slice *image, const struct slice *answer)
{
    printf("in call %" PRIu64 " of %s: %s", made + 1, run_name, call_names[c->kind]);
    if (c->kind == OPEN) {
        printf(" %" PRIu64 " %" PRIu64 " %" PRIu64 " %" PRIu64, c->points, c->tolerances[0],
               c->tolerances[1], c->limit);
        for (int i = 0; i < AXES; i++)
            printf(" %" PRId64, c->position[i]);
        for (int i = 0; i < AXES; i++)
            printf(" %" PRId64, c->velocity[i]);
    }
    if (c->kind == CORRECT)
        printf(" %a %a %a", c->sample[0], c->sample[1], c->sample[2]);
    printf("\nslices before the call:\n");
    print_slice("image", image);
    print_slice("answer", answer);
    if (c->kind == OPEN)
        print_slice("samples", &c->samples);
    exit(1);
}

static uint32_t call_side(const struct side *s, const struct call *c, uint8_t *image, size_t length,
                          uint8_t *answer, size_t answer_length, const uint8_t *samples)
{
    switch (c->kind) {
    case OPEN:
        return s->open(image, length, answer, answer_length, c->points, c->tolerances[0],
                       c->tolerances[1], c->limit, c->position[0], c->position[1], c->position[2],
                       c->velocity[0], c->velocity[1], c->velocity[2], samples, c->samples.length);
    case PREDICT:
        return s->predict(image, length, answer, answer_length);
    case CORRECT:
        return s->correct(image, length, answer, answer_length, c->sample[0], c->sample[1],
                          c->sample[2]);
    default:
        return s->withdraw(image, length, answer, answer_length);
    }
}

/* Whether both sides left the same bytes; if not says at which the first difference is. */
static bool left_alike(int which, const uint8_t *ours, const uint8_t *theirs, size_t length)
{
    size_t at = 0;
    if (length == 0 || memcmp(ours, theirs, length) == 0)
        return true;
    while (ours[at] == theirs[at])
        at++;
    printf("difference: byte %zu of the %s is %d of the library and %d of the peer\n", at,
           slice_names[which], ours[at], theirs[at]);
    return false;
}

uint32_t make(const struct call *c, struct slice *image, struct slice *answer)
{
    static const struct slice nothing = {.null = true};
    const struct slice *lent[SLICES] = {image, answer, c->kind == OPEN ? &c->samples : &nothing};
    uint8_t *at[2][SLICES];
    uint32_t numbers[2];
    for (int s = 0; s < 2; s++) {
        for (int i = 0; i < SLICES; i++)
            at[s][i] = lend(pages[s][i], lent[i]);
        numbers[s] = call_side(&sides[s], c, at[s][IMAGE], image->length, at[s][ANSWER],
                               answer->length, at[s][SAMPLES]);
    }
    bool alike = numbers[0] == numbers[1];
    if (!alike)
        printf("difference: the library returns %" PRIu32 ", the peer %" PRIu32 "\n", numbers[0],
               numbers[1]);
    for (int i = 0; i < SLICES; i++)
        alike = left_alike(i, at[0][i], at[1][i], lent[i]->length) && alike;
    if (c->kind == OPEN)
        alike = left_alike(SAMPLES, at[0][SAMPLES], c->samples.bytes, c->samples.length) && alike;
    if (!alike)
        differ(c, image, answer);
    meet(c, image, answer, numbers[0], at[0][ANSWER]);
    made++;
    if (image->length > 0)
        memcpy(image->bytes, at[0][IMAGE], image->length);
    if (answer->length > 0)
        memcpy(answer->bytes, at[0][ANSWER], answer->length);
    for (int s = 0; exact_blocks && s < 2; s++)
        for (int i = 0; i < SLICES; i++)
            free(at[s][i]);
    return numbers[0];
}

struct slice slice_of(const uint8_t image[IMAGE_LENGTH])
{
    struct slice s = {.length = IMAGE_LENGTH};
    memcpy(s.bytes, image, IMAGE_LENGTH);
    return s;
}

struct slice answer_slice(size_t length)
{
    struct slice s = {.length = length};
    uint64_t word = draw_word();
    for (size_t i = 0; i < length; i++)
        s.bytes[i] = (uint8_t)(word >> 8 * (i % 8)) ^ (uint8_t)i;
    return s;
}

uint32_t make_on(const struct call *c, uint8_t image[IMAGE_LENGTH])
{
    struct slice lent = slice_of(image), answer = answer_slice(ANSWER_LENGTH);
    uint32_t number = make(c, &lent, &answer);
    memcpy(image, lent.bytes, IMAGE_LENGTH);
    return number;
}

uint64_t calls_made(void)
{
    return made;
}
