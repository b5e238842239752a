/*
 * A reference for the list of ties, request 5 of document 02, written to be held against the request sentence by sentence. The search
 * tells the cost and the held number of the least plan; then the plans are gone through once more, from the one that holds nothing on,
 * and each that equals it is put in its place. For small sheets every plan there is can be tried instead.
 */
#include "reference.h"
#include "reference_plan.h"

#include <string.h>

enum { MOST_PLANS = 256 };

/* "all that equal the least one in cost and held number" */
static bool equals(const struct hall *s, const struct plan *p, uint64_t least_cost, int least_held)
{
    return cost(s, p) == least_cost && held(s, p) == least_held;
}

/* The marks of a plan, "each plan written into the part behind the last one". */
static void write_plan(const struct hall *s, const struct plan *p, unsigned char *room, int i)
{
    memcpy(room + (size_t)i * (size_t)s->devices, p->mark + 1, (size_t)s->devices);
}

/* ---- the list, by the rules */

struct list {
    const struct hall *sheet;
    uint64_t cost; /* of the least plan */
    int held;
    int plans; /* so many are in the list; no more are put into it where they are more than 256 */
    struct plan plan[MOST_PLANS + 1];
    int again, earlier;
};

/* "best first by 01's order, each once" */
static void put_in_place(struct list *l, const struct plan *p)
{
    int i = 0;
    while (i < l->plans && before_by_marks(l->sheet, &l->plan[i], p))
        i++;
    if (i < l->plans && first_difference(l->sheet, &l->plan[i], p) == 0) {
        l->again++;
        return;
    }
    if (i < l->plans)
        l->earlier++;
    for (int j = l->plans; j > i; j--)
        l->plan[j] = l->plan[j - 1];
    l->plan[i] = *p;
    l->plans++;
}

/*
 * "none left out": a plan that equals the least one holds an entry of every rule, so from a part of it that does not meet a rule an entry
 * of that rule leads on. A part costs no more than the whole, and holds fewer devices.
 */
static void list_from(struct list *l, const struct plan *p)
{
    const struct hall *s = l->sheet;
    const int32_t *rule = first_rule_not_met(s, p);
    if (l->plans > MOST_PLANS)
        return;
    if (rule == NULL) {
        if (equals(s, p, l->cost, l->held))
            put_in_place(l, p);
    } else if (cost(s, p) <= l->cost && held(s, p) < l->held)
        for (int e = 1; e <= rule[0]; e++)
            if (p->mark[device_of(rule[e])] == FREE) {
                struct plan child = holding(p, rule[e]);
                list_from(l, &child);
            }
}

/* The list of a sheet with a least plan, which the answer tells. */
static void list_ties(struct list *l, const struct hall *s, const struct reference_answer *a)
{
    struct plan first = {{FREE}};
    *l = (struct list){.sheet = s, .cost = a->number[1], .held = (int)a->number[2]};
    list_from(l, &first);
}

/* "the answer gives cost, held number, the number of plans and nodes opened"; "51 .. its place the room's length" */
static void tell_list(struct reference_ties *t, const struct list *l, unsigned char *room, size_t bytes)
{
    t->plans = l->plans;
    t->bytes = (size_t)l->plans * (size_t)l->sheet->devices;
    t->again = l->again;
    t->earlier = l->earlier;
    if (t->bytes > bytes || l->plans > MOST_PLANS) {
        t->numbers = 2;
        t->number[0] = 51;
        t->number[1] = bytes;
        return;
    }
    t->numbers = 5;
    t->number[0] = 0;
    t->number[1] = l->cost;
    t->number[2] = (uint64_t)l->held;
    t->number[3] = (uint64_t)l->plans;
    t->number[4] = t->opened;
    for (int i = 0; i < l->plans; i++)
        write_plan(l->sheet, &l->plan[i], room, i);
}

/* "after 16, which isn't given here": the search has a plan room for every sheet. "spent" comes before 51. */
struct reference_ties reference_ties_list(const int32_t *word, size_t words, uint32_t budget, unsigned char *room, size_t bytes)
{
    static struct list l;
    struct reference_answer a = reference(word, words, budget, 200);
    struct reference_ties t = {.numbers = a.numbers, .ties_lowered = a.ties_lowered, .both_rules = a.both_rules};
    memcpy(t.number, a.number, sizeof a.number);
    if (a.number[0] == 0) {
        struct reader r = {.word = word, .words = words};
        struct hall s = {.both_rules = 0};
        read_sheet(&r, &s);
        list_ties(&l, &s, &a);
        t.opened = (uint32_t)a.number[3];
        tell_list(&t, &l, room, bytes);
    }
    return t;
}

/* ---- the list, by trying every plan */

/* The next plan by the marks: so those of equal cost and held number come best first. False behind the last one. */
static bool next_plan(const struct hall *s, struct plan *p)
{
    for (int v = s->devices; v >= 1; v--) {
        if (p->mark[v] != HELD_AT_0) {
            p->mark[v]++;
            return true;
        }
        p->mark[v] = FREE;
    }
    return false;
}

/* "the best of all plans that meet the sheet" */
static struct plan best_of_all(const struct hall *s)
{
    struct plan p = {{FREE}}, best = p;
    bool found = false;
    do
        if (first_rule_not_met(s, &p) == NULL && (!found || better(s, &p, &best))) {
            found = true;
            best = p;
        }
    while (next_plan(s, &p));
    return best;
}

int reference_ties_tried(const int32_t *word, size_t words, unsigned char *room)
{
    struct reader r = {.word = word, .words = words};
    struct hall s = {.both_rules = 0};
    read_sheet(&r, &s);
    struct plan p = {{FREE}}, best = best_of_all(&s);
    int plans = 0;
    do
        if (first_rule_not_met(&s, &p) == NULL && equals(&s, &p, cost(&s, &best), held(&s, &best))) {
            if (plans < MOST_PLANS)
                write_plan(&s, &p, room, plans);
            plans++;
        }
    while (next_plan(&s, &p));
    return plans;
}
