/*
 * A reference for the search of document 01, with requests 1 and 3 of document 02, written to be held against the documents sentence
 * by sentence. Each node of the walk has a plan of its own; cost and held number are summed anew wherever they are asked for. Nothing
 * here is made for speed.
 */
#include "reference.h"
#include "reference_plan.h"

/* ---- the walk */

struct walk {
    const struct hall *sheet;
    uint32_t budget, opened;
    bool has_best;
    struct plan best;
    bool tied; /* another plan equals the best in cost and held number */
    uint64_t by_number, by_marks, ties_lowered;
};

/* How a plan that meets every rule is told apart from the best so far. */
static void count_difference(struct walk *w, const struct plan *p)
{
    const struct hall *s = w->sheet;
    bool same_cost = cost(s, p) == cost(s, &w->best), same_number = held(s, p) == held(s, &w->best);
    if (same_cost && !same_number)
        w->by_number++;
    if (same_cost && same_number && first_difference(s, p, &w->best) != 0) {
        w->by_marks++;
        w->tied = true;
    }
    if (!(same_cost && same_number) && better(s, p, &w->best)) {
        w->ties_lowered += w->tied;
        w->tied = false;
    }
}

/* Step 1, for a plan that meets every rule. */
static void offer(struct walk *w, const struct plan *p)
{
    if (w->has_best)
        count_difference(w, p);
    if (!w->has_best || better(w->sheet, p, &w->best)) {
        w->has_best = true;
        w->best = *p;
    }
}

/* Step 2: whether the node is closed. */
static bool is_closed(const struct walk *w, const struct plan *p)
{
    const struct hall *s = w->sheet;
    if (!w->has_best)
        return false;
    if (cost(s, p) > cost(s, &w->best))
        return true;
    return cost(s, p) == cost(s, &w->best) && held(s, p) + 1 > held(s, &w->best);
}

static bool open_node(struct walk *w, const struct plan *p);

/* Step 3: the entries of the rule as written; false when the walk is spent. */
static bool open_entries(struct walk *w, const struct plan *p, const int32_t *rule)
{
    for (int e = 1; e <= rule[0]; e++)
        if (p->mark[device_of(rule[e])] == FREE) {
            struct plan child = holding(p, rule[e]);
            if (!open_node(w, &child))
                return false;
        }
    return true;
}

/* Opens a node and walks it to its end; false when the walk is spent. */
static bool open_node(struct walk *w, const struct plan *p)
{
    if (w->opened == w->budget)
        return false;
    w->opened++;
    const int32_t *rule = first_rule_not_met(w->sheet, p);
    if (rule == NULL)
        offer(w, p);
    else if (!is_closed(w, p))
        return open_entries(w, p, rule);
    return true;
}

/* ---- the answer sheet of the search */

static struct reference_answer short_answer(int code, uint64_t number)
{
    return (struct reference_answer){.number = {(uint64_t)code, number}, .numbers = 2};
}

static struct reference_answer refused_answer(const struct reader *r)
{
    struct reference_answer a = {.numbers = 0};
    a.numbers = refusal_numbers(r, a.number);
    return a;
}

static struct reference_answer least_answer(const struct hall *s, const struct plan *best, uint32_t opened)
{
    struct reference_answer a = {.number = {0, cost(s, best), (uint64_t)held(s, best), opened}, .numbers = 4};
    a.devices = s->devices;
    for (int v = 1; v <= s->devices; v++)
        a.plan[v - 1] = best->mark[v];
    return a;
}

static struct reference_answer walked_answer(const struct hall *s, uint32_t budget)
{
    struct walk w = {.sheet = s, .budget = budget};
    struct plan first = {{FREE}};
    bool spent = !open_node(&w, &first);
    struct reference_answer a;
    if (spent)
        a = short_answer(2, w.opened);
    else if (!w.has_best)
        a = short_answer(1, w.opened);
    else
        a = least_answer(s, &w.best, w.opened);
    a.by_number = w.by_number;
    a.by_marks = w.by_marks;
    a.ties_lowered = w.ties_lowered;
    return a;
}

/* The order: the sheet; 16. */
struct reference_answer reference(const int32_t *word, size_t words, uint32_t budget, size_t room)
{
    struct reader r = {.word = word, .words = words};
    struct hall s = {.both_rules = 0};
    struct reference_answer a;
    if (!read_sheet(&r, &s))
        a = refused_answer(&r);
    else if (room < (size_t)s.devices)
        a = short_answer(16, (uint64_t)s.devices);
    else
        a = walked_answer(&s, budget);
    a.both_rules = s.both_rules;
    return a;
}
