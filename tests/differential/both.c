/*
 * Sheets whose rules name both positions of a device: 02, request 3. In such a rule both entries stand next to each other, at its two
 * ends or anywhere, with repeated entries and other devices; the rule is the first, the last or the only one, all are such rules or some,
 * of two entries to 32, among rules that a plan meets, empty ones and ones that clash.
 */
#include "both.h"

#include "draw.h"

#include <string.h>

/* ---- looking for them */

int has_two(const int32_t *rule, int by)
{
    for (int j = 1; j <= rule[0]; j++)
        for (int k = 1; k < j; k++)
            if (rule[j] == by * rule[k])
                return 1;
    return 0;
}

void without_both(const struct sheet *good, struct sheet *s)
{
    size_t count = (size_t)good->word[0] + 1, next;
    s->words = count + 1;
    s->devices = good->devices;
    s->room = good->room;
    memcpy(s->word, good->word, s->words * sizeof s->word[0]);
    for (size_t at = count + 1; at < good->words; at = next) {
        next = at + 1 + (size_t)good->word[at];
        if (has_two(good->word + at, -1))
            s->word[count]--;
        else
            while (at < next)
                s->word[s->words++] = good->word[at++];
    }
}

/* ---- making them */

/* Each device stands in the rule at one position only: at 1 up to device `last`, at 0 behind it. */
static void put_one_way(struct sheet *s, int n, int width, int last)
{
    put(s, 'w', width);
    for (int j = 0; j < width; j++) {
        int v = from_to(1, n);
        put(s, 'e', v <= last ? v : -v);
    }
}

/* The last rule put, of width entries: both entries of one device stand next to each other, at its two ends, or anywhere. */
static void name_both(struct sheet *s, int width)
{
    int32_t *entry = s->word + s->words - (size_t)width;
    int one = 0, other = width - 1;
    switch (below(3)) {
    case 0: one = below(width - 1), other = one + 1; break;
    case 1: one = below(width), other = (one + from_to(1, width - 1)) % width; break;
    default: break;
    }
    entry[other] = -entry[one];
}

/* A rule that names both positions of a device. A third entry of it may be one that another rule holds, or its other position. */
static void put_both(struct sheet *s, int n, int width, int32_t held)
{
    put_one_way(s, n, width, below(n + 1));
    if (one_in(2))
        s->word[s->words - 1 - (size_t)below(width)] = one_in(2) ? held : -held;
    name_both(s, width);
}

/* Whether rule i of m names both positions: the first, the last, all, every other one or some of them do. */
static int in_shape(int shape, int i, int m)
{
    switch (shape) {
    case 0: return i == 0;
    case 1: return i == m - 1;
    case 2: return 1;
    case 3: return i % 2 == 1;
    default: return one_in(3);
    }
}

/* Such rules among others: narrow ones of a few devices, or rules of width 32. One device is held by rules of one entry. */
void both_sheet(struct sheet *s)
{
    int wide = one_in(4), n = wide ? from_to(20, 200) : from_to(1, 8), m = one_in(6) ? 1 : from_to(2, 8), shape = below(5), empty = one_in(8);
    int32_t held = one_in(2) ? from_to(1, n) : -from_to(1, n);
    begin(s, n, below(6));
    put(s, 'm', m);
    for (int i = 0; i < m; i++)
        if (empty && one_in(3))
            put(s, 'w', 0);
        else if (in_shape(shape, i, m))
            put_both(s, n, wide ? 32 : from_to(2, 5), held);
        else if (one_in(3)) {
            put(s, 'w', 1);
            put(s, 'e', one_in(4) ? -held : held);
        } else
            put_one_way(s, n, from_to(1, 3), below(n + 1));
}

/*
 * Exactly 16,384 words; or exactly 2,000 rules, of which some have one entry. The first rule has one entry too. It stands in all others but
 * those that name both positions of a device, so that the walk does not branch.
 */
void full_both_sheet(struct sheet *s)
{
    int last = below(201), v = from_to(1, 200), many = one_in(2), m = many ? 2000 : 492, often = one_in(2) ? 2 : 20;
    int32_t held = v <= last ? v : -v;
    begin(s, 200, below(6));
    put(s, 'm', m);
    put(s, 'w', 1);
    put(s, 'e', held);
    for (int i = 1; i < m; i++) {
        int width = many ? from_to(2, 7) : i < m - 1 ? 32 : 9;
        if (many && one_in(100))
            put_one_way(s, 200, 1, last);
        else {
            put_one_way(s, 200, width, last);
            if (one_in(often))
                s->word[s->words - 1 - (size_t)below(width)] = held;
            else
                name_both(s, width);
        }
    }
}
