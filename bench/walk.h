/* The walks in C, for comparison of speed. The sheet has to be a good one: nothing is checked. */
#ifndef WALK_H
#define WALK_H

#include <stddef.h>
#include <stdint.h>

void walk_search(const int32_t *words, size_t words_len, uint32_t budget, uint8_t *room, size_t room_len, uint64_t numbers[4]);

/* As it was before request 3 of document 02: a rule that names both positions of a device is tested and branched on like any other. */
void walk_search_before(const int32_t *words, size_t words_len, uint32_t budget, uint8_t *room, size_t room_len, uint64_t numbers[4]);

/* The same walk, which lists the ties: request 5. */
void walk_ties(const int32_t *words, size_t words_len, uint32_t budget, uint8_t *room, size_t room_len, uint64_t numbers[5]);

#endif
