/* Plans, as document 01 speaks of them, by which the reference searches and lists ties. */
#ifndef REFERENCE_PLAN_H
#define REFERENCE_PLAN_H

#include "reference_sheet.h"

/* The marks in the order of "better": free before held at 1, held at 1 before held at 0. */
enum { FREE = 0, HELD_AT_1 = 1, HELD_AT_0 = 2 };

struct plan {
    unsigned char mark[201]; /* mark[v] for device v */
};

int device_of(int32_t entry);
struct plan holding(const struct plan *p, int32_t entry); /* the same plan with that device held as the entry says */

const int32_t *first_rule_not_met(const struct hall *s, const struct plan *p); /* NULL where the plan meets every rule */

/* Summed anew at each call. */
uint64_t cost(const struct hall *s, const struct plan *p);
int held(const struct hall *s, const struct plan *p);

int first_difference(const struct hall *s, const struct plan *p, const struct plan *q); /* the lowest-numbered device where they differ, or 0 */
bool before_by_marks(const struct hall *s, const struct plan *p, const struct plan *q); /* p is better, where neither cost nor number decides */
bool better(const struct hall *s, const struct plan *p, const struct plan *q);

#endif
