/*
 * For bench/instructions: one sheet of 200 devices and 1,500 rules of width 3, always the same, searched under a budget of 600 nodes, which
 * it spends.
 */
#include "../include/leastplan.h"

#include <stdio.h>

enum { DEVICES = 200, RULES = 1500, WIDTH = 3, NODES = 600 };

static uint64_t state = UINT64_C(88172645463325252);

static uint32_t draw(void)
{
    state ^= state << 13;
    state ^= state >> 7;
    state ^= state << 17;
    return (uint32_t)(state >> 32);
}

int main(void)
{
    static int32_t words[1 + DEVICES + 1 + RULES * (1 + WIDTH)];
    uint8_t room[DEVICES];
    uint64_t numbers[4];
    size_t at = 0;
    words[at++] = DEVICES;
    for (int v = 0; v < DEVICES; v++)
        words[at++] = (int32_t)(1 + draw() % 100);
    words[at++] = RULES;
    for (int r = 0; r < RULES; r++) {
        words[at++] = WIDTH;
        for (int e = 0; e < WIDTH; e++) {
            int32_t v = (int32_t)(1 + draw() % DEVICES);
            words[at++] = draw() & 1 ? v : -v;
        }
    }
    leastplan_search(words, at, NODES, room, sizeof room, numbers);
    if (numbers[0] != 2 || numbers[1] != NODES) {
        printf("the search ended with %llu %llu\n", (unsigned long long)numbers[0], (unsigned long long)numbers[1]);
        return 1;
    }
    return 0;
}
