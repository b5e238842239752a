/* Texts to compare on, good and damaged. */
#ifndef TEXTS_H
#define TEXTS_H

#include "sheets.h"

enum { MOST_BYTES = 60000, BYTES = 20 * WORDS };

struct text {
    unsigned char byte[BYTES];
    size_t bytes;
};

void text_of(const struct sheet *s, struct text *t); /* a way to type the sheet */
void damage_text(struct text *t);

/* What typed texts and files share. */
void put_separators(struct text *t, int least); /* so many, and sometimes more */
void put_word(struct text *t, int32_t w);       /* a way to type the word */
void insert(struct text *t, size_t at, const char *bytes, size_t n);
void put_odd_byte(struct text *t);
void put_edge(struct text *t); /* a number at the edge of 32 bits or of ten digits */

#endif
