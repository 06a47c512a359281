/* The generator is splitmix64. */
#include "draw.h"

static uint64_t state;

void set_seed(uint64_t seed)
{
    state = seed;
}

uint64_t draw_word(void)
{
    uint64_t z = state += 0x9e3779b97f4a7c15;
    z = (z ^ z >> 30) * 0xbf58476d1ce4e5b9;
    z = (z ^ z >> 27) * 0x94d049bb133111eb;
    return z ^ z >> 31;
}

uint64_t below(uint64_t bound)
{
    return (uint64_t)((unsigned __int128)draw_word() * bound >> 64);
}

int64_t between(int64_t least, int64_t most)
{
    return least + (int64_t)below((uint64_t)(most - least) + 1);
}

bool once_in(uint64_t times)
{
    return below(times) == 0;
}

uint64_t draw_size(uint64_t most)
{
    uint64_t bits = 0;
    while (bits < 64 && most >> bits != 0)
        bits++;
    uint64_t kept = below(bits + 1);
    uint64_t size = kept == 0 ? 0 : draw_word() >> (64 - kept);
    return size < most ? size : most;
}

int64_t draw_signed(int64_t most)
{
    int64_t size = (int64_t)draw_size((uint64_t)most);
    return once_in(2) ? size : -size;
}
