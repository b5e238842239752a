/* Sheets with ties: request 5 of document 02. */
#ifndef TIED_H
#define TIED_H

#include "sheets.h"

void tied_sheet(struct sheet *s); /* a few devices and rules, most costs equal */

/*
 * At least a number of some entries of different devices, all at one cost, so that each tie is opened by several routes: behind the costs the
 * rules of such a sheet, or the whole of one. Returns how many ties there are.
 */
int put_at_least(struct sheet *s, const int32_t *entry, int number, int of);
int at_least_sheet(struct sheet *s);

/* How many ties rules without a common device have: fewer than 256, 256, 257, more; or more at first, and then a few that cost less. */
enum product { FEWER_TIES, TIES_256, TIES_257, MORE_TIES, LOWERED_TIES, PRODUCTS };
int product_sheet(struct sheet *s, enum product kind); /* returns how many ties there are */

/* Rules of one width without a common device, all costs 1, entries rising: width to the power of the rules are the ties. */
void equal_rules_sheet(struct sheet *s, int rules, int width, int devices);

#endif
