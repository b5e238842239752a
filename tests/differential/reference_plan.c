/* A reference for the plans of document 01, with request 3 of document 02: which rules they meet, what they cost, which is better. */
#include "reference_plan.h"

int device_of(int32_t entry)
{
    return entry > 0 ? entry : -entry;
}

static unsigned char mark_of(int32_t entry)
{
    return entry > 0 ? HELD_AT_1 : HELD_AT_0;
}

struct plan holding(const struct plan *p, int32_t entry)
{
    struct plan q = *p;
    q.mark[device_of(entry)] = mark_of(entry);
    return q;
}

/* 01: "one of the rule's entries names a device held at that position" */
static bool holds_an_entry(const struct plan *p, const int32_t *rule)
{
    for (int e = 1; e <= rule[0]; e++)
        if (p->mark[device_of(rule[e])] == mark_of(rule[e]))
            return true;
    return false;
}

/* 02, request 3: "From now on every plan meets such a rule". */
static bool meets_rule(const struct hall *s, const struct plan *p, int i)
{
    return s->has_both[i] || holds_an_entry(p, s->rule[i]);
}

const int32_t *first_rule_not_met(const struct hall *s, const struct plan *p)
{
    for (int i = 0; i < s->rules; i++)
        if (!meets_rule(s, p, i))
            return s->rule[i];
    return NULL;
}

uint64_t cost(const struct hall *s, const struct plan *p)
{
    uint64_t sum = 0;
    for (int v = 1; v <= s->devices; v++)
        if (p->mark[v] != FREE)
            sum += (uint64_t)s->cost[v];
    return sum;
}

int held(const struct hall *s, const struct plan *p)
{
    int number = 0;
    for (int v = 1; v <= s->devices; v++)
        if (p->mark[v] != FREE)
            number++;
    return number;
}

int first_difference(const struct hall *s, const struct plan *p, const struct plan *q)
{
    for (int v = 1; v <= s->devices; v++)
        if (p->mark[v] != q->mark[v])
            return v;
    return 0;
}

bool before_by_marks(const struct hall *s, const struct plan *p, const struct plan *q)
{
    int v = first_difference(s, p, q);
    return v != 0 && p->mark[v] < q->mark[v];
}

bool better(const struct hall *s, const struct plan *p, const struct plan *q)
{
    if (cost(s, p) != cost(s, q))
        return cost(s, p) < cost(s, q);
    if (held(s, p) != held(s, q))
        return held(s, p) < held(s, q);
    return before_by_marks(s, p, q);
}
