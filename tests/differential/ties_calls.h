/* Calls of the library that list ties, each compared with the reference. */
#ifndef TIES_CALLS_H
#define TIES_CALLS_H

#include "calls.h"

enum { MOST_TIES = 256, LONGER_BY = 20000, LONGEST_TIES_ROOM = (MOST_TIES + 1) * 200 + LONGER_BY };

/*
 * The ties of a sheet under a budget, listed in a room of so many bytes, at most LONGEST_TIES_ROOM; what the reference comes to. What it
 * writes goes to the front of `expected` too, unless that is NULL.
 */
struct reference_ties compare_list(const struct sheet *s, uint32_t budget, size_t room, unsigned char *expected);

/*
 * A sheet under a budget, and where its walk comes to its end under those around the one needed: in a room that holds its ties exactly, in
 * one a byte shorter, in longer ones, shorter ones and none. It was made with so many ties, or with a number that is not known, -1. Returns
 * what the reference comes to in a room of fewer than 300 bytes.
 */
struct reference_ties compare_lists(const struct sheet *s, uint32_t most, int ties);

#endif
