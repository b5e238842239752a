/*
 * The same walk as the proved one, as one would write it in C for speed: all entries in one run of 16-bit codes (coded.h); a rule left at
 * its first held entry; devices held and released in place; a plan copied only where a better one is found. No index is checked. Costs
 * are summed in 64 bits.
 *
 * Rules that name both positions of a device are left out when the sheet is coded. The walk of before request 3 of document 02 is the same
 * code without that.
 */
#include "walk.h"
#include "coded.h"

static inline int is_better(const struct walk *w, uint64_t cost, uint32_t held)
{
    if (!w->found)
        return 1;
    if (cost != w->best_cost)
        return cost < w->best_cost;
    if (held != w->best_held)
        return held < w->best_held;
    return memcmp(w->plan, w->best, w->devices) < 0;
}

/* Whether the walk goes on: 0 where the budget is spent. */
static int walk_node(struct walk *w, uint64_t cost, uint32_t held)
{
    if (w->count == w->budget)
        return 0;
    w->count++;
    size_t r = first_unmet(w);
    if (r == w->rules) {
        if (is_better(w, cost, held)) {
            memcpy(w->best, w->plan, w->devices);
            w->found = 1;
            w->best_cost = cost;
            w->best_held = held;
        }
        return 1;
    }
    if (w->found && (cost > w->best_cost || (cost == w->best_cost && held + 1 > w->best_held)))
        return 1;
    for (size_t i = w->starts[r], end = w->starts[r + 1]; i < end; i++) {
        unsigned code = w->codes[i], v = code / 2;
        if (w->plan[v] != 0)
            continue;
        w->plan[v] = (uint8_t)(1 + code % 2);
        int on = walk_node(w, cost + w->costs[v], held + 1);
        w->plan[v] = 0;
        if (!on)
            return 0;
    }
    return 1;
}

/* Walks the coded sheet. */
static void walk_sheet(struct walk *w, uint32_t budget, uint8_t *room, uint64_t numbers[4])
{
    memset(w->plan, 0, sizeof w->plan);
    w->budget = budget;
    w->count = 0;
    w->found = 0;
    if (!walk_node(w, 0, 0)) {
        numbers[0] = 2;
        numbers[1] = w->count;
    } else if (!w->found) {
        numbers[0] = 1;
        numbers[1] = w->count;
    } else {
        memcpy(room, w->best, w->devices);
        numbers[0] = 0;
        numbers[1] = w->best_cost;
        numbers[2] = w->best_held;
        numbers[3] = w->count;
    }
}

void walk_search(const int32_t *words, size_t words_len, uint32_t budget, uint8_t *room, size_t room_len, uint64_t numbers[4])
{
    struct walk w;
    (void)words_len;
    (void)room_len;
    code_sheet(&w, words, 1);
    walk_sheet(&w, budget, room, numbers);
}

void walk_search_before(const int32_t *words, size_t words_len, uint32_t budget, uint8_t *room, size_t room_len, uint64_t numbers[4])
{
    struct walk w;
    (void)words_len;
    (void)room_len;
    code_sheet(&w, words, 0);
    walk_sheet(&w, budget, room, numbers);
}
