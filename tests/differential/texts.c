/*
 * The sheets as somebody may type them: with any separators, leading zeros and minus signs that document 01 allows; and damaged, for
 * each refusal of a text.
 */
#include "texts.h"

#include "draw.h"

#include <stdio.h>
#include <string.h>

static const char separators[] = {9, 10, 13, 32};

/* Between tokens one separator at least, at the ends of the text none. */
void put_separators(struct text *t, int least)
{
    int n = one_in(6) ? from_to(1, 3) : least;
    for (int i = 0; i < n; i++)
        t->byte[t->bytes++] = one_in(2) ? ' ' : (unsigned char)separators[below(4)];
}

void put_word(struct text *t, int32_t w)
{
    char digits[16];
    int64_t size = w < 0 ? -(int64_t)w : w;
    int width = one_in(12) ? from_to(1, 10) : 1;
    if (w < 0 || (w == 0 && one_in(12)))
        t->byte[t->bytes++] = '-';
    int n = snprintf(digits, sizeof digits, "%0*lld", width, (long long)size);
    memcpy(t->byte + t->bytes, digits, (size_t)n);
    t->bytes += (size_t)n;
}

void text_of(const struct sheet *s, struct text *t)
{
    t->bytes = 0;
    put_separators(t, 0);
    for (size_t i = 0; i < s->words; i++) {
        if (i > 0)
            put_separators(t, 1);
        put_word(t, s->word[i]);
    }
    put_separators(t, 0);
}

/* ---- damage */

void insert(struct text *t, size_t at, const char *bytes, size_t n)
{
    memmove(t->byte + at + n, t->byte + at, t->bytes - at);
    memcpy(t->byte + at, bytes, n);
    t->bytes += n;
}

static size_t some_place(const struct text *t)
{
    return one_in(8) ? t->bytes : (size_t)below((int)t->bytes + 1);
}

static char odd_byte(void)
{
    static const char odd[] = "+-.,ax\0\v\f\177\200\205\240\377";
    return one_in(4) ? (char)below(256) : odd[below((int)sizeof odd - 1)];
}

void put_odd_byte(struct text *t)
{
    char b = odd_byte();
    if (t->bytes > 0 && one_in(2))
        t->byte[below((int)t->bytes)] = (unsigned char)b;
    else
        insert(t, some_place(t), &b, 1);
}

/* Put inside a token it makes the token longer. */
void put_edge(struct text *t)
{
    static const char *const edges[] = {" 2147483647 ", " 2147483648 ", " -2147483648 ", " -2147483649 ", " 9999999999 ", " -9999999999 ", " 4294967296 ",
                                        " 0000000000 ", " -0000000000 ", " 00000000000 ", " -00000000001 ", "0000000000", "9999999", "18446744073709551617"};
    const char *e = edges[below((int)(sizeof edges / sizeof edges[0]))];
    insert(t, some_place(t), e, strlen(e));
}

/* Separators up to about the most bytes. */
static void lengthen(struct text *t)
{
    size_t bytes = (size_t)from_to(MOST_BYTES - 2, MOST_BYTES + 3);
    while (t->bytes < bytes)
        t->byte[t->bytes++] = (unsigned char)separators[below(4)];
}

/* Tokens up to about the most words. */
static void crowd(struct text *t)
{
    int tokens = from_to(MOST_WORDS - 100, MOST_WORDS + 2);
    for (int i = 0; i < tokens; i++)
        insert(t, t->bytes, " 0", 2);
}

void damage_text(struct text *t)
{
    int k = below(100);
    if (t->bytes > MOST_BYTES)
        return;
    if (k < 50)
        put_odd_byte(t);
    else if (k < 85)
        put_edge(t);
    else if (k < 93)
        lengthen(t);
    else
        crowd(t);
}
