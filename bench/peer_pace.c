/* The same steps by the peer, with all its checks. */
#include "../peer/rules.h"
#include "samples.h"

/* Takes the reports of a point, unless the answer is another than expected. */
static void take_point(uint64_t *checksum, const struct answer *a, enum kind expected)
{
    if (a->number != 0 || a->kind != expected) {
        fprintf(stderr, "peer_pace: refused %d\n", a->number);
        exit(1);
    }
    for (int i = 0; i < AXES; i++) {
        take(checksum, report(split(a->point[i].position)));
        take(checksum, report(split(a->point[i].velocity)));
    }
}

int main(int count, char **arguments)
{
    static const double zeros[AXES * PLACES];
    int points, steps;
    read_pace("peer_pace", count, arguments, &points, &steps);
    prepare();
    struct record session = {.state = CLOSED};
    struct opening opening = {.points = (uint64_t)points, .tolerances = {1048576, 1048576},
                              .limit = 1, .samples = zeros, .length = (size_t)(AXES * points)};
    struct draws draws = {1};
    uint64_t checksum = 0;
    open_session(&session, &opening);
    for (int n = 0; n < steps; n++) {
        struct answer predicted = predict(&session);
        take_point(&checksum, &predicted, NONE);
        double sample[AXES];
        for (int i = 0; i < AXES; i++)
            sample[i] = draw(&draws);
        struct answer corrected = correct(&session, sample);
        take_point(&checksum, &corrected, ACCEPTED);
    }
    printf("%016" PRIx64 "\n", checksum);
    return 0;
}
