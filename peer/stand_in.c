/* The peer's host calls under the names of the library, to try the comparison with. */
#include "../include/durungkilat.h"
#include "host.h"

__attribute__((constructor)) static void ready(void)
{
    prepare();
}

uint32_t durungkilat_open(uint8_t *image, size_t image_length, uint8_t *answer,
                          size_t answer_length, uint64_t points, uint64_t position_tolerance,
                          uint64_t velocity_tolerance, uint64_t limit, int64_t x, int64_t y,
                          int64_t z, int64_t vx, int64_t vy, int64_t vz, const uint8_t *samples,
                          size_t samples_length)
{
    return peer_host_open(image, image_length, answer, answer_length, points, position_tolerance,
                          velocity_tolerance, limit, x, y, z, vx, vy, vz, samples, samples_length);
}

uint32_t durungkilat_predict(uint8_t *image, size_t image_length, uint8_t *answer,
                             size_t answer_length)
{
    return peer_host_predict(image, image_length, answer, answer_length);
}

uint32_t durungkilat_correct(uint8_t *image, size_t image_length, uint8_t *answer,
                             size_t answer_length, double x, double y, double z)
{
    return peer_host_correct(image, image_length, answer, answer_length, x, y, z);
}

uint32_t durungkilat_withdraw(uint8_t *image, size_t image_length, uint8_t *answer,
                              size_t answer_length)
{
    return peer_host_withdraw(image, image_length, answer, answer_length);
}
