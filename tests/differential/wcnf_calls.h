/* Calls of the library that write WCNF text, each compared with the reference. */
#ifndef WCNF_CALLS_H
#define WCNF_CALLS_H

#include "calls.h"

enum { LONGEST_TEXT = 98741, LONGEST_TEXT_ROOM = LONGEST_TEXT + 20000 };

/*
 * A sheet whose text is written in this edition into a room of so many bytes, at most LONGEST_TEXT_ROOM; what the reference comes to.
 * What it writes goes to the front of `expected` too, unless that is NULL.
 */
struct reference_wcnf compare_writing(const struct sheet *s, uint32_t edition, size_t room, unsigned char *expected);

/* A sheet in both editions: into a room that holds its text exactly, into one a byte shorter, longer ones, shorter ones and none. */
void compare_writings(const struct sheet *s);

#endif
