/* The same steps through the library's host calls; with MORE each step predicts once more, on a copy
 * of the image. */
#include "../include/durungkilat.h"
#include "samples.h"

#define POINTS_MOST 9

static uint8_t image[DURUNGKILAT_IMAGE_LENGTH], answer[DURUNGKILAT_ANSWER_LENGTH];

/* Takes the reports of the answer's point, unless the answer is another than expected. */
static void take_answer(uint64_t *checksum, uint32_t number, uint64_t kind)
{
    static const size_t values[] = {DURUNGKILAT_X,  DURUNGKILAT_VX, DURUNGKILAT_Y,
                                    DURUNGKILAT_VY, DURUNGKILAT_Z,  DURUNGKILAT_VZ};
    if (number != 0 || answer[DURUNGKILAT_KIND] != kind) {
        fprintf(stderr, "host_pace: refused %" PRIu32 "\n", number);
        exit(1);
    }
    for (int i = 0; i < 6; i++) {
        double report;
        memcpy(&report, answer + values[i] + DURUNGKILAT_REPORT, sizeof report);
        take(checksum, report);
    }
}

static void predict_on(uint64_t *checksum, uint8_t *lent)
{
    uint32_t number = durungkilat_predict(lent, sizeof image, answer, sizeof answer);
    take_answer(checksum, number, 0);
}

static void correct_by(uint64_t *checksum, double x, double y, double z)
{
    uint32_t number = durungkilat_correct(image, sizeof image, answer, sizeof answer, x, y, z);
    take_answer(checksum, number, DURUNGKILAT_ACCEPTED);
}

int main(int count, char **arguments)
{
    static const uint8_t zeros[DURUNGKILAT_SAMPLE_LENGTH * POINTS_MOST];
    int points, steps;
    read_pace("host_pace", count, arguments, &points, &steps);
    struct draws draws = {1};
    uint64_t checksum = 0;
    durungkilat_open(image, sizeof image, answer, sizeof answer, (uint64_t)points, 1048576, 1048576, 1,
                     0, 0, 0, 0, 0, 0, zeros, DURUNGKILAT_SAMPLE_LENGTH * (size_t)points);
    for (int n = 0; n < steps; n++) {
        predict_on(&checksum, image);
        double x = draw(&draws), y = draw(&draws), z = draw(&draws);
        correct_by(&checksum, x, y, z);
#ifdef MORE
        uint8_t copy[sizeof image];
        memcpy(copy, image, sizeof image);
        predict_on(&checksum, copy);
#endif
    }
    printf("%016" PRIx64 "\n", checksum);
    return 0;
}
