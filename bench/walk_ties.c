/*
 * The walk of walk.c that keeps the ties of the best plan so far (02, request 5), as one would write it in C for speed: a plan that equals
 * the best in cost and held number is compared with those kept, eight devices at once, and copied where it is new. Beyond 256 of them none
 * is compared or kept any more, until a lower plan begins anew. They are put in order once, at the end.
 */
#include "walk.h"
#include "coded.h"

#include <stdlib.h>

enum { MOST_TIES = 256 };

struct tie {
    uint64_t eights[25]; /* the marks of a plan; those behind its last device are 0 */
};

struct ties {
    struct walk walk;
    uint32_t kept; /* MOST_TIES + 1 where there are more */
    struct tie tie[MOST_TIES];
};

static inline int is_kept(const struct ties *t, const struct tie *plan)
{
    size_t eights = (t->walk.devices + 7) / 8;
    for (uint32_t i = 0; i < t->kept; i++) {
        size_t j = 0;
        while (j < eights && t->tie[i].eights[j] == plan->eights[j])
            j++;
        if (j == eights)
            return 1;
    }
    return 0;
}

/* A plan that meets every rule. */
static inline void keep(struct ties *t, uint64_t cost, uint32_t held)
{
    struct walk *w = &t->walk;
    struct tie plan;
    if (!w->found || cost < w->best_cost || (cost == w->best_cost && held < w->best_held)) {
        w->found = 1;
        w->best_cost = cost;
        w->best_held = held;
        t->kept = 0;
    } else if (cost != w->best_cost || held != w->best_held || t->kept > MOST_TIES)
        return;
    memcpy(&plan, w->plan, sizeof plan);
    if (is_kept(t, &plan))
        return;
    if (t->kept < MOST_TIES)
        t->tie[t->kept] = plan;
    t->kept++;
}

/* Whether the walk goes on: 0 where the budget is spent. */
static int walk_node(struct ties *t, uint64_t cost, uint32_t held)
{
    struct walk *w = &t->walk;
    if (w->count == w->budget)
        return 0;
    w->count++;
    size_t r = first_unmet(w);
    if (r == w->rules) {
        keep(t, cost, held);
        return 1;
    }
    if (w->found && (cost > w->best_cost || (cost == w->best_cost && held + 1 > w->best_held)))
        return 1;
    for (size_t i = w->starts[r], end = w->starts[r + 1]; i < end; i++) {
        unsigned code = w->codes[i], v = code / 2;
        if (w->plan[v] != 0)
            continue;
        w->plan[v] = (uint8_t)(1 + code % 2);
        int on = walk_node(t, cost + w->costs[v], held + 1);
        w->plan[v] = 0;
        if (!on)
            return 0;
    }
    return 1;
}

static int by_marks(const void *a, const void *b)
{
    return memcmp(*(const struct tie *const *)a, *(const struct tie *const *)b, sizeof(struct tie));
}

static void put_in_order(const struct ties *t, uint8_t *room)
{
    const struct tie *in_order[MOST_TIES];
    size_t n = t->walk.devices;
    for (uint32_t i = 0; i < t->kept; i++)
        in_order[i] = &t->tie[i];
    qsort(in_order, t->kept, sizeof in_order[0], by_marks);
    for (uint32_t i = 0; i < t->kept; i++)
        memcpy(room + i * n, in_order[i], n);
}

void walk_ties(const int32_t *words, size_t words_len, uint32_t budget, uint8_t *room, size_t room_len, uint64_t numbers[5])
{
    struct ties t;
    struct walk *w = &t.walk;
    (void)words_len;
    code_sheet(w, words, 1);
    memset(w->plan, 0, sizeof w->plan);
    w->budget = budget;
    w->count = 0;
    w->found = 0;
    t.kept = 0;
    if (!walk_node(&t, 0, 0)) {
        numbers[0] = 2;
        numbers[1] = w->count;
    } else if (!w->found) {
        numbers[0] = 1;
        numbers[1] = w->count;
    } else if (t.kept > MOST_TIES || t.kept * w->devices > room_len) {
        numbers[0] = 51;
        numbers[1] = room_len;
    } else {
        put_in_order(&t, room);
        numbers[0] = 0;
        numbers[1] = w->best_cost;
        numbers[2] = w->best_held;
        numbers[3] = t.kept;
        numbers[4] = w->count;
    }
}
