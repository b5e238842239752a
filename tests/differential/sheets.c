/*
 * Sheets made from a seed: small ones that are walked to their end, larger ones up to every limit of document 01, and damaged ones
 * for each of its refusals. Those whose rules name both positions of a device are in both.c, those with many ties in tied.c.
 */
#include "sheets.h"

#include "both.h"
#include "draw.h"

void put(struct sheet *s, char is, int32_t w)
{
    s->is[s->words] = is;
    s->word[s->words++] = w;
}

static int32_t some_cost(int kind)
{
    switch (kind) {
    case 0: return 0;
    case 1: return 1;
    case 2: return from_to(0, 3);
    case 3: return 1000000000;
    case 4: return one_in(2) ? 0 : from_to(1, 1000000000);
    default: return from_to(0, 1000000000);
    }
}

void put_rule(struct sheet *s, int n, int width, int odd)
{
    put(s, 'w', width);
    size_t first = s->words;
    for (int j = 0; j < width; j++) {
        int32_t e = from_to(1, n);
        if (one_in(2))
            e = -e;
        if (j > 0 && odd && one_in(5))
            e = s->word[first + (size_t)below(j)];
        else if (j > 0 && odd && one_in(5))
            e = -s->word[first + (size_t)below(j)];
        put(s, 'e', e);
    }
}

void begin(struct sheet *s, int n, int cost_kind)
{
    s->words = 0;
    s->devices = n;
    s->room = (size_t)n + (size_t)(one_in(4) ? 0 : below(21));
    put(s, 'n', n);
    for (int v = 0; v < n; v++)
        put(s, 'c', some_cost(cost_kind));
}

static void small_sheet(struct sheet *s)
{
    int n = from_to(0, 8), m = from_to(0, 8), odd = one_in(2), empty = one_in(10), widest = from_to(1, 4);
    begin(s, n, below(6));
    put(s, 'm', m);
    for (int i = 0; i < m; i++)
        put_rule(s, n, n == 0 || (empty && one_in(4)) ? 0 : from_to(1, widest), odd);
}

static void medium_sheet(struct sheet *s)
{
    int n = from_to(5, 40), m = from_to(3, 14), odd = one_in(3);
    begin(s, n, below(6));
    put(s, 'm', m);
    for (int i = 0; i < m; i++)
        put_rule(s, n, from_to(1, 3), odd);
}

/* Up to 200 devices. Most rules name one device each, so that many walks come to their end. */
static void large_sheet(struct sheet *s)
{
    int n = one_in(4) ? 200 : from_to(100, 200), narrow = from_to(0, n), wide = below(4);
    begin(s, n, below(6));
    put(s, 'm', narrow + wide);
    int v = from_to(1, n), by = one_in(2) ? 1 : -1;
    for (int i = 0; i < narrow; i++) {
        put(s, 'w', 1);
        put(s, 'e', by * v);
        v = v % n + 1;
    }
    for (int i = 0; i < wide; i++)
        put_rule(s, n, from_to(2, 32), one_in(2));
}

/* Exactly 16,384 words; or exactly 2,000 rules. */
static void full_sheet(struct sheet *s)
{
    begin(s, 200, below(6));
    if (one_in(2)) {
        put(s, 'm', 491);
        for (int i = 0; i < 490; i++)
            put_rule(s, 200, 32, one_in(2));
        put_rule(s, 200, 11, 1);
    } else {
        put(s, 'm', 2000);
        for (int i = 0; i < 2000; i++)
            put_rule(s, 200, from_to(1, 7), one_in(2));
    }
}

void any_sheet(struct sheet *s)
{
    int k = below(1000);
    if (k < 660)
        small_sheet(s);
    else if (k < 760)
        both_sheet(s);
    else if (k < 940)
        medium_sheet(s);
    else if (k < 993)
        large_sheet(s);
    else if (k < 996)
        full_both_sheet(s);
    else
        full_sheet(s);
}

void random_words(struct sheet *s)
{
    size_t words = (size_t)below(12);
    s->words = 0;
    s->devices = 0;
    s->room = (size_t)below(8);
    while (s->words < words)
        put(s, 'x', one_in(8) ? (int32_t)draw() : from_to(-2, 4));
}

static void put_two(struct sheet *s, int32_t one, int32_t other)
{
    put(s, 'w', 2);
    put(s, 'e', one);
    put(s, 'e', other);
}

/* Rules of width 2 without a common device, all costs 1: every plan of fewer holds than rules is branched on. */
void doubling_sheet(struct sheet *s, int rules, int both)
{
    begin(s, 2 * rules, 1);
    put(s, 'm', both ? 2 * rules : rules);
    for (int v = 1; v < 2 * rules; v += 2) {
        if (both)
            put_two(s, v, -v);
        put_two(s, v, -(v + 1));
    }
}

/* All rules but the last are of width 32. */
void crowded_sheet(struct sheet *s, size_t words)
{
    int n = from_to(1, 9), left = (int)words - n - 2, m = (left + 32) / 33;
    begin(s, n, 1);
    put(s, 'm', m);
    for (int i = 1; i < m; i++)
        put_rule(s, n, 32, 0);
    put_rule(s, n, left - 33 * (m - 1) - 1, 0);
}

size_t place_of(const struct sheet *s, char is)
{
    size_t k = s->words == 0 ? 0 : (size_t)below((int)s->words);
    for (size_t i = 0; i < s->words; i++)
        if (s->is[(k + i) % s->words] == is)
            return (k + i) % s->words;
    return s->words;
}

int32_t outside(int32_t high)
{
    switch (below(6)) {
    case 0: return INT32_MIN;
    case 1: return INT32_MAX;
    case 2: return -1;
    case 3: return from_to(-1000, -1);
    default: return high + from_to(1, 3);
    }
}

void damage_sheet(struct sheet *s)
{
    static const char counts[] = {'n', 'm', 'w'};
    int k = below(120);
    if (k < 20) {
        if (s->words > 0)
            s->words = (size_t)below((int)s->words);
    } else if (k < 40) {
        char is = counts[below(3)];
        size_t at = place_of(s, is);
        if (at < s->words)
            s->word[at] = outside(is == 'n' ? 200 : is == 'm' ? 2000 : 32);
    } else if (k < 60) {
        size_t at = place_of(s, 'c');
        if (at < s->words)
            s->word[at] = outside(1000000000);
    } else if (k < 80) {
        size_t at = place_of(s, 'e');
        int n = s->devices;
        if (at < s->words)
            switch (below(4)) {
            case 0: s->word[at] = 0; break;
            case 1: s->word[at] = n + from_to(1, 2); break;
            case 2: s->word[at] = -n - from_to(1, 2); break;
            default: s->word[at] = one_in(2) ? INT32_MIN : INT32_MAX; break;
            }
    } else if (k < 97) {
        for (int i = from_to(1, 3); i > 0 && s->words + 1 < WORDS; i--)
            put(s, 'x', from_to(-1, 2));
    } else if (k < 114) {
        if (s->devices > 0)
            s->room = (size_t)below(s->devices);
    } else {
        size_t words = (size_t)from_to(16385, 16400);
        while (s->words < words)
            put(s, 'x', 0);
    }
}
