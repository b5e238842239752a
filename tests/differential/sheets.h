/* Sheets to compare on, good and damaged. */
#ifndef SHEETS_H
#define SHEETS_H

#include <stddef.h>
#include <stdint.h>

enum { MOST_WORDS = 16384, WORDS = MOST_WORDS + 64 };

struct sheet {
    int32_t word[WORDS];
    char is[WORDS]; /* what each word is: n, c, m, w or e for device count, cost, rule count, width, entry; x for anything */
    size_t words;
    int devices;
    size_t room;
};

void any_sheet(struct sheet *s);
void random_words(struct sheet *s); /* words that follow no plan */
void crowded_sheet(struct sheet *s, size_t words); /* so many words, at least 12, of a few devices and wide rules */
void damage_sheet(struct sheet *s);

/* A walk of 2^(rules + 1) - 1 nodes; in front of each of these rules there may be one that names both positions of a device. */
void doubling_sheet(struct sheet *s, int rules, int both);

/* What all makers of sheets begin with: the devices with their costs, of one of six kinds; one word more; and a rule of some of n devices. */
void begin(struct sheet *s, int devices, int cost_kind);
void put(struct sheet *s, char is, int32_t w);
void put_rule(struct sheet *s, int n, int width, int odd); /* where it is odd, entries repeat earlier ones, or their other position */

size_t place_of(const struct sheet *s, char is); /* a place whose word is of this kind, or the sheet's length where there is none */
int32_t outside(int32_t high);                   /* a count outside 0 to high */

#endif
