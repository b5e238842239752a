/* Sheets whose rules name both positions of a device: request 3 of document 02. */
#ifndef BOTH_H
#define BOTH_H

#include "sheets.h"

void both_sheet(struct sheet *s);      /* a few rules, of which some name both positions */
void full_both_sheet(struct sheet *s); /* as long as a sheet may be; nearly every rule does, or every other one */

/* Whether two entries of a rule, which begins with its width, are the same (by 1), or the two of one device (by -1). */
int has_two(const int32_t *rule, int by);

void without_both(const struct sheet *good, struct sheet *s); /* a good sheet without such rules */

#endif
