/*
 * The sheet as the walks in C have it, in walk.c and walk_ties.c: all entries in one run of 16-bit codes, twice the device (from 0) and one
 * more for position 0; where each rule starts; and the test which rule is the first that is not met.
 *
 * Rules that name both positions of a device are met by every plan (02, request 3): they are left out when the sheet is coded.
 */
#ifndef CODED_H
#define CODED_H

#include <stddef.h>
#include <stdint.h>
#include <string.h>

struct walk {
    size_t devices, rules;
    uint32_t budget, count;
    int found;
    uint64_t best_cost;
    uint32_t best_held;
    uint8_t plan[200], best[200];
    uint32_t costs[200];
    uint16_t starts[2001];
    uint16_t codes[16384];
};

/* Each code has a stamp, the number from 1 of the last rule in which it stood; the two codes of a device differ in their last bit. */
static inline void code_sheet(struct walk *w, const int32_t *words, int leaves_out)
{
    size_t n = (size_t)words[0], m = (size_t)words[n + 1], at = n + 2, next = 0, rules = 0;
    uint16_t stamps[400];
    w->devices = n;
    for (size_t v = 0; v < n; v++)
        w->costs[v] = (uint32_t)words[1 + v];
    if (leaves_out)
        memset(stamps, 0, 2 * n * sizeof stamps[0]);
    for (size_t r = 1; r <= m; r++) {
        size_t start = next;
        int both = 0;
        for (int32_t left = words[at++]; left > 0; left--) {
            int32_t e = words[at++];
            unsigned code = (unsigned)(e > 0 ? 2 * (e - 1) : 2 * (-e - 1) + 1);
            w->codes[next++] = (uint16_t)code;
            if (leaves_out) {
                stamps[code] = (uint16_t)r;
                both |= stamps[code ^ 1] == r;
            }
        }
        if (both)
            next = start;
        else
            w->starts[rules++] = (uint16_t)start;
    }
    w->starts[rules] = (uint16_t)next;
    w->rules = rules;
}

/* The number of the first rule that the plan does not meet, or of rules. */
static inline size_t first_unmet(const struct walk *w)
{
    size_t end = w->starts[0];
    for (size_t r = 0; r < w->rules; r++) {
        size_t i = end;
        end = w->starts[r + 1];
        for (;; i++) {
            if (i == end)
                return r;
            unsigned code = w->codes[i];
            if (w->plan[code / 2] == 1 + code % 2)
                break;
        }
    }
    return w->rules;
}

#endif
