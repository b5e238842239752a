/* What an accepted sheet has: empty rules, repeated entries, both positions of a device in a rule, zero costs, 200 devices. */
#include "seen.h"

#include "both.h"

struct seen seen;

/* What the rules of one sheet have. */
struct rules {
    int count, empty, repeat, both, first, last, wide, both_repeat, both_held;
    int32_t held; /* the entry of the last rule of width 1, or 0 */
};

/* Whether a rule has an entry of the device that is held, and not both. */
static int has_third(const int32_t *rule, int32_t held)
{
    int same = 0, other = 0;
    for (int j = 1; j <= rule[0]; j++) {
        same |= rule[j] == held;
        other |= rule[j] == -held;
    }
    return same != other;
}

static void look_at_rule(struct rules *r, const int32_t *rule)
{
    int both = has_two(rule, -1), repeat = has_two(rule, 1);
    r->empty |= rule[0] == 0;
    r->repeat |= repeat;
    r->both += both;
    r->first |= both && r->count == 0;
    r->last = both;
    r->wide |= both && rule[0] == 32;
    r->both_repeat |= both && repeat;
    r->both_held |= both && has_third(rule, r->held);
    if (rule[0] == 1)
        r->held = rule[1];
    r->count++;
}

static void count_both(const struct rules *r)
{
    seen.with_both++;
    seen.both_in_first += (unsigned)r->first;
    seen.both_in_last += (unsigned)r->last;
    seen.both_in_all += r->both == r->count;
    seen.both_in_only += r->count == 1;
    seen.both_in_wide += (unsigned)r->wide;
    seen.both_with_repeat += (unsigned)r->both_repeat;
    seen.both_with_held += (unsigned)r->both_held;
    seen.both_with_empty += (unsigned)r->empty;
}

void look_at(const struct sheet *s)
{
    struct rules r = {.count = 0};
    int zero = 0;
    for (size_t i = 0; i < s->words; i++)
        if (s->is[i] == 'c')
            zero |= s->word[i] == 0;
        else if (s->is[i] == 'w')
            look_at_rule(&r, s->word + i);
    seen.with_empty += (unsigned)r.empty;
    seen.with_repeat += (unsigned)r.repeat;
    seen.with_zero_cost += (unsigned)zero;
    seen.with_200 += s->devices == 200;
    if (r.both > 0)
        count_both(&r);
}
