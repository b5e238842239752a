/* How many of the accepted sheets have what sheets have to be compared on. */
#ifndef SEEN_H
#define SEEN_H

#include "sheets.h"

struct seen {
    unsigned long with_empty, with_repeat, with_both, with_zero_cost, with_200;
    /* those with a rule that names both positions of a device: in which of their rules, in what kind of rule, and beside what */
    unsigned long both_in_first, both_in_last, both_in_all, both_in_only, both_in_wide, both_with_repeat, both_with_held, both_with_empty;
};

extern struct seen seen;

void look_at(const struct sheet *s); /* an accepted sheet */

#endif
