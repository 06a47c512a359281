/* A million points of nine back points by the peer's rules: the calls of the program marathon, and what it is to print. */
#include "rules.h"

#include <inttypes.h>
#include <stdio.h>

#define POINTS 1000000

static const int64_t start_position[AXES] = {4000000000000000, -3000000000000000, 12345};
static const int64_t start_velocity[AXES] = {-4000000000, 5000000000, -67};

static uint64_t drawn = 1;
static struct record record;
static uint64_t accepted, again, withdrawn, failed;

static uint64_t draw(void)
{
    drawn = (1103515245 * drawn + 12345) % 2147483648;
    return drawn / 32768;
}

static void draw_sample(double sample[AXES])
{
    for (int i = 0; i < AXES; i++)
        sample[i] = (double)(int64_t)draw() - 32768;
}

/* The samples of a second correction lie near those of the first. */
static void draw_near(double sample[AXES])
{
    for (int i = 0; i < AXES; i++)
        sample[i] += (double)(int64_t)(draw() % 16) - 8;
}

static void expect(int number)
{
    if (number != 0)
        failed++;
}

static void withdraw_and_predict(void)
{
    expect(withdraw(&record).number);
    withdrawn++;
    expect(predict(&record).number);
}

static struct answer corrected(const double sample[AXES])
{
    struct answer a = correct(&record, sample);
    expect(a.number);
    accepted += a.kind == ACCEPTED;
    again += a.kind == AGAIN;
    return a;
}

static struct answer step(uint64_t n)
{
    double sample[AXES];
    expect(predict(&record).number);
    if (n % 7 == 3)
        withdraw_and_predict();
    draw_sample(sample);
    struct answer a = corrected(sample);
    if (a.kind != AGAIN)
        return a;
    if (n % 5 == 2) {
        withdraw_and_predict();
        corrected(sample);
    }
    draw_near(sample);
    return corrected(sample);
}

int main(void)
{
    double samples[PLACES * AXES];
    struct opening given = {9, {320000, 1048576}, 2, {0}, {0}, samples, PLACES * AXES};
    struct answer last = {0};
    prepare();
    for (int i = 0; i < AXES; i++) {
        given.position[i] = start_position[i];
        given.velocity[i] = start_velocity[i];
    }
    for (int point = 0; point < PLACES; point++)
        draw_sample(samples + point * AXES);
    expect(open_session(&record, &given).number);
    for (uint64_t n = 1; n <= POINTS; n++)
        last = step(n);
    for (int i = 0; i < AXES; i++) {
        struct exact position = split(last.point[i].position), velocity = split(last.point[i].velocity);
        printf("%c %" PRId64 " %" PRIu32 " %" PRId64 " %" PRIu32 "\n", "xyz"[i], position.whole, position.part,
               velocity.whole, velocity.part);
    }
    printf("accepted %" PRIu64 "\nagain %" PRIu64 "\nwithdrawn %" PRIu64 "\nfailed %" PRIu64 "\n", accepted, again,
           withdrawn, failed);
    printf("one more is refused %d\n", predict(&record).number);
    return 0;
}
