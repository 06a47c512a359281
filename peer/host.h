/* The image of a session as bytes, and the calls of a host on it, to compare the library with. */
#ifndef HOST_H
#define HOST_H

#include "rules.h"

#define IMAGE_LENGTH 656
#define ANSWER_LENGTH 200

/* The words of a record as they stand, whether it counts as closed or not. */
void write_image(const struct record *r, uint8_t image[IMAGE_LENGTH]);

/* The image of a record: one that counts as closed is saved as a closed one. */
void save_image(const struct record *r, uint8_t image[IMAGE_LENGTH]);

/* Whether the bytes are the image of a session; if so the record takes it. */
bool read_image(const uint8_t *image, size_t length, struct record *r);

uint32_t peer_host_open(uint8_t *image, size_t image_length, uint8_t *answer, size_t answer_length,
                        uint64_t points, uint64_t position_tolerance, uint64_t velocity_tolerance,
                        uint64_t limit, int64_t x, int64_t y, int64_t z, int64_t vx, int64_t vy,
                        int64_t vz, const uint8_t *samples, size_t samples_length);
uint32_t peer_host_predict(uint8_t *image, size_t image_length, uint8_t *answer,
                           size_t answer_length);
uint32_t peer_host_correct(uint8_t *image, size_t image_length, uint8_t *answer,
                           size_t answer_length, double x, double y, double z);
uint32_t peer_host_withdraw(uint8_t *image, size_t image_length, uint8_t *answer,
                            size_t answer_length);

#endif
