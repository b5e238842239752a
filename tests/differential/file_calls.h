/* Calls of the library on DIMACS CNF files, each compared with the reference. */
#ifndef FILE_CALLS_H
#define FILE_CALLS_H

#include "calls.h"

enum { LONGEST_ROOM = WORDS }; /* longer than a sheet may be */

/* A file that is read into a room of so many words, at most LONGEST_ROOM; what the reference comes to. */
struct reference_cnf compare_reading(const struct text *t, size_t room);

/* A file that is read into a room that holds its sheet, into one that holds it exactly, into shorter ones and into none. */
void compare_rooms(const struct text *t);

/* Whether the file is read back as the sheet that it was made of. */
void compare_with_sheet(const struct text *t, const struct sheet *s);

/*
 * What is printed for a file, and where its walk comes to its end the search of the sheet that is read from it, under the budget needed
 * and under one less; returns the reference's answer. Left out where a budget smaller than the program's is spent.
 */
struct reference_answer compare_file(const struct text *t, uint32_t most);

#endif
