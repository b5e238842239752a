/* DIMACS CNF files to compare on, good and damaged. */
#ifndef FILES_H
#define FILES_H

#include "texts.h"

/* Makes a sheet with all costs 1, and a file of its rules. Returns whether both are undamaged: then the file is the sheet's. */
int any_file(struct sheet *s, struct text *t);

void file_of(const struct sheet *s, struct text *t); /* a way to write the sheet's rules as a file */

#endif
