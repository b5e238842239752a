/*
 * Sheets with ties: 02, request 5. Small ones with equal and zero costs, shared devices, repeated entries and both positions; ones whose
 * ties are opened by several routes; and ones whose ties are counted by how they are made, about 256 of them.
 */
#include "tied.h"

#include "draw.h"

void tied_sheet(struct sheet *s)
{
    static const int costs[] = {0, 1, 1, 2, 3};
    int n = from_to(0, 7), m = from_to(0, 6), odd = one_in(2), empty = one_in(12), widest = from_to(1, 4);
    begin(s, n, costs[below(5)]);
    put(s, 'm', m);
    for (int i = 0; i < m; i++)
        put_rule(s, n, n == 0 || (empty && one_in(4)) ? 0 : from_to(1, widest), odd);
}

void equal_rules_sheet(struct sheet *s, int rules, int width, int devices)
{
    begin(s, devices, 1);
    put(s, 'm', rules);
    for (int i = 0; i < rules; i++) {
        put(s, 'w', width);
        for (int j = 1; j <= width; j++)
            put(s, 'e', i * width + j);
    }
}

/* ---- entries of different devices, by chance */

struct entries {
    int32_t entry[200];
    int next;
};

static void shuffle(struct entries *d, int devices)
{
    for (int v = 0; v < devices; v++) {
        int other = below(v + 1);
        d->entry[v] = d->entry[other];
        d->entry[other] = one_in(2) ? v + 1 : -(v + 1);
    }
    d->next = 0;
}

static int32_t take(struct entries *d)
{
    return d->entry[d->next++];
}

static void set_cost(struct sheet *s, int32_t entry, int32_t cost)
{
    s->word[entry > 0 ? entry : -entry] = cost;
}

static void begin_at_one_cost(struct sheet *s, int devices, int32_t cost)
{
    begin(s, devices, 1);
    for (int v = 1; v <= devices; v++)
        set_cost(s, v, cost);
}

/* ---- several routes */

static int ones_in(unsigned bits)
{
    return bits == 0 ? 0 : (int)(bits & 1) + ones_in(bits >> 1);
}

/* A rule for each choice of all but number - 1 of the entries: who holds `number` of them meets every rule, and nobody with fewer. */
int put_at_least(struct sheet *s, const int32_t *entry, int number, int of)
{
    int ties = 0, width = of - number + 1;
    size_t count = s->words;
    put(s, 'm', 0);
    for (unsigned chosen = 0; chosen < 1u << of; chosen++) {
        ties += ones_in(chosen) == number;
        if (ones_in(chosen) != width)
            continue;
        s->word[count]++;
        put(s, 'w', width);
        for (int i = 0; i < of; i++)
            if (chosen >> i & 1)
                put(s, 'e', entry[i]);
    }
    return ties;
}

int at_least_sheet(struct sheet *s)
{
    struct entries d;
    int of = from_to(2, 8), number = from_to(1, of < 4 ? of : 4);
    begin(s, of + below(4), one_in(4) ? 0 : 1);
    shuffle(&d, s->devices);
    return put_at_least(s, d.entry, number, of);
}

/* ---- products */

struct widths {
    int ties, rules, width[9];
};

/* Widths whose product is below 256, is 255, is 256, and is above. */
static const struct widths fewer[] = {{128, 7, {2, 2, 2, 2, 2, 2, 2}}, {250, 3, {5, 5, 10}}, {252, 2, {14, 18}}, {253, 2, {11, 23}}};
static const struct widths are_255[] = {{255, 2, {15, 17}}, {255, 2, {17, 15}}, {255, 3, {3, 5, 17}}, {255, 4, {5, 1, 3, 17}}};
static const struct widths are_256[] = {{256, 4, {4, 4, 4, 4}}, {256, 8, {2, 2, 2, 2, 2, 2, 2, 2}}, {256, 2, {16, 16}}, {256, 4, {8, 2, 8, 2}}};
static const struct widths more[] = {{260, 3, {4, 5, 13}}, {261, 2, {9, 29}}, {264, 3, {8, 3, 11}}, {512, 9, {2, 2, 2, 2, 2, 2, 2, 2, 2}}};

#define ANY_OF(table) (&table[below((int)(sizeof table / sizeof table[0]))])

static int sum_of(const struct widths *w)
{
    int sum = 0;
    for (int i = 0; i < w->rules; i++)
        sum += w->width[i];
    return sum;
}

/* So many devices, and often more, which stand in no rule. */
static int some_devices(int used)
{
    switch (below(6)) {
    case 0: return 200;
    case 1: return from_to(used, 200);
    default: return used + below(4);
    }
}

/* Rules without a common device: the ties hold one entry of each. In each rule stands a last entry too, unless it is 0. */
static void put_product(struct sheet *s, const struct widths *w, struct entries *d, int32_t last)
{
    for (int i = 0; i < w->rules; i++) {
        put(s, 'w', w->width[i] + (last != 0));
        for (int j = 0; j < w->width[i]; j++)
            put(s, 'e', take(d));
        if (last != 0)
            put(s, 'e', last);
    }
}

/* Each of these returns how many ties there are. */
static int plain_product(struct sheet *s, const struct widths *w)
{
    struct entries d;
    begin_at_one_cost(s, some_devices(sum_of(w)), one_in(4) ? 0 : from_to(1, 1000000000));
    shuffle(&d, s->devices);
    put(s, 'm', w->rules);
    put_product(s, w, &d, 0);
    return w->ties;
}

/*
 * One tie more, of at least two rules: an entry that stands in every rule and costs as much as an entry of each. Devices that cost nothing,
 * one for each rule but the first, have to be held with it: each stands in a rule of its own, with the entries of the first rule, so that the
 * other ties need none of them. So all hold as many devices as there are rules.
 */
static int product_and_one(struct sheet *s, const struct widths *w)
{
    struct entries d;
    int32_t cost = from_to(1, 1000000000 / w->rules);
    begin_at_one_cost(s, some_devices(sum_of(w) + w->rules), cost);
    shuffle(&d, s->devices);
    int32_t in_every_rule = take(&d);
    set_cost(s, in_every_rule, cost * w->rules);
    put(s, 'm', 2 * w->rules - 1);
    put_product(s, w, &d, in_every_rule);
    for (int i = 1; i < w->rules; i++) {
        int32_t free_of_cost = take(&d);
        set_cost(s, free_of_cost, 0);
        put(s, 'w', w->width[0] + 1);
        for (int j = 0; j < w->width[0]; j++)
            put(s, 'e', d.entry[1 + j]);
        put(s, 'e', free_of_cost);
    }
    return w->ties + 1;
}

/*
 * A first rule of an entry and of some others, and the opposite of the first as the last entry of every other rule: below the first entry
 * all ties of the others are opened; then, below the others, plans of fewer and fewer devices, and the least hold two.
 */
static int lowered_product(struct sheet *s, const struct widths *w)
{
    struct entries d;
    int ties = from_to(1, 4);
    begin_at_one_cost(s, some_devices(sum_of(w) + 1 + ties), from_to(1, 1000000000));
    shuffle(&d, s->devices);
    int32_t first = take(&d);
    put(s, 'm', w->rules + 1);
    put(s, 'w', 1 + ties);
    put(s, 'e', first);
    for (int i = 0; i < ties; i++)
        put(s, 'e', take(&d));
    put_product(s, w, &d, -first);
    return ties;
}

int product_sheet(struct sheet *s, enum product kind)
{
    switch (kind) {
    case FEWER_TIES: return plain_product(s, ANY_OF(fewer));
    case TIES_256: return one_in(2) ? plain_product(s, ANY_OF(are_256)) : product_and_one(s, ANY_OF(are_255));
    case TIES_257: return product_and_one(s, ANY_OF(are_256));
    case MORE_TIES: return plain_product(s, ANY_OF(more));
    default: return lowered_product(s, ANY_OF(more));
    }
}
