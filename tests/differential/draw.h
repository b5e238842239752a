/* Numbers from a seed. */
#ifndef DRAW_H
#define DRAW_H

#include <stdint.h>

void draw_from(uint64_t seed);
uint64_t draw(void);

int below(int n);                /* 0 to n - 1 */
int from_to(int low, int high);  /* low to high */
int one_in(int n);               /* whether 1 in n came up */

#endif
