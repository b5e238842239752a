/* A reference for the hall sheet of document 01, with requests 1 and 3 of document 02: what it says, and its first fault. */
#include "reference_sheet.h"

static bool refuse(struct reader *r, int code, size_t place)
{
    r->code = code;
    r->place = place;
    return false;
}

/* Reads a word that has to lie between low and high; the code given is for a word outside. False at a fault. */
static bool read_word(struct reader *r, int32_t low, int32_t high, int code, int32_t *value)
{
    if (r->next == r->words)
        return refuse(r, 11, r->words);
    *value = r->word[r->next];
    if (*value < low || *value > high)
        return refuse(r, code, r->next);
    r->next++;
    return true;
}

static bool read_rule(struct reader *r, int32_t devices)
{
    int32_t width, entry;
    r->rule++;
    if (!read_word(r, 0, 32, 19, &width))
        return false;
    for (int e = 1; e <= width; e++) {
        if (!read_word(r, -devices, devices, 14, &entry))
            return false;
        if (entry == 0)
            return refuse(r, 14, r->next - 1);
    }
    return true;
}

/* 02, request 3: "a rule holding both entries of one device" */
static bool has_both_entries(const int32_t *rule)
{
    for (int e = 1; e <= rule[0]; e++)
        for (int f = e + 1; f <= rule[0]; f++)
            if (rule[f] == -rule[e])
                return true;
    return false;
}

/* The order: 17; the sheet from left to right; 15. */
bool read_sheet(struct reader *r, struct hall *s)
{
    int32_t cost;
    if (r->words > 16384)
        return refuse(r, 17, 16384);
    s->cost = r->word;
    if (!read_word(r, 0, 200, 12, &s->devices))
        return false;
    for (int v = 1; v <= s->devices; v++)
        if (!read_word(r, 0, 1000000000, 13, &cost))
            return false;
    if (!read_word(r, 0, 2000, 18, &s->rules))
        return false;
    for (int i = 0; i < s->rules; i++) {
        s->rule[i] = r->word + r->next;
        if (!read_rule(r, s->devices))
            return false;
        s->has_both[i] = has_both_entries(s->rule[i]);
        s->both_rules += s->has_both[i];
    }
    if (r->next < r->words)
        return refuse(r, 15, r->next);
    return true;
}

/* Request 1: with 19 the number of its rule comes third. */
int refusal_numbers(const struct reader *r, uint64_t *number)
{
    number[0] = (uint64_t)r->code;
    number[1] = r->place;
    if (r->code != 19)
        return 2;
    number[2] = (uint64_t)r->rule;
    return 3;
}
