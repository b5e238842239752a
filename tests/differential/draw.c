/* xorshift64*: the same numbers from the same seed, on every machine. */
#include "draw.h"

static uint64_t state;

uint64_t draw(void)
{
    state ^= state >> 12;
    state ^= state << 25;
    state ^= state >> 27;
    return state * UINT64_C(2685821657736338717);
}

void draw_from(uint64_t seed)
{
    state = seed * UINT64_C(0x9e3779b97f4a7c15) + 1;
    for (int i = 0; i < 20; i++)
        draw();
}

int below(int n)
{
    return (int)((draw() >> 33) % (uint64_t)n);
}

int from_to(int low, int high)
{
    return low + below(high - low + 1);
}

int one_in(int n)
{
    return below(n) == 0;
}
