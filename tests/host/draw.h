/* Random numbers, the same ones for the same seed. */
#ifndef DRAW_H
#define DRAW_H

#include <stdbool.h>
#include <stdint.h>

void set_seed(uint64_t seed);

uint64_t draw_word(void);

/* A number below the bound, and one from the least to the most. */
uint64_t below(uint64_t bound);
int64_t between(int64_t least, int64_t most);

/* True once in so many times. */
bool once_in(uint64_t times);

/* A number from 0 to the most, small ones as likely as large ones; and the same with a sign. */
uint64_t draw_size(uint64_t most);
int64_t draw_signed(int64_t most);

/* One of the values listed. */
#define ONE_OF(type, ...)                                                                          \
    (((const type[]){__VA_ARGS__})[below(sizeof((const type[]){__VA_ARGS__}) / sizeof(type))])

#endif
