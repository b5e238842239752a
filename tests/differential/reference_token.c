/* A reference for one token of document 01's typed text: where it ends, whether it is a number that fits a word, and its value. */
#include "reference_token.h"

bool is_separator(unsigned char byte)
{
    return byte == 9 || byte == 10 || byte == 13 || byte == 32;
}

bool next_token(const unsigned char *text, size_t length, size_t from, struct token *t)
{
    t->first = from;
    while (t->first < length && is_separator(text[t->first]))
        t->first++;
    t->end = t->first;
    while (t->end < length && !is_separator(text[t->end]))
        t->end++;
    return t->first < length;
}

/* Where the first digit of a token should stand. */
static size_t first_digit(const unsigned char *text, struct token t)
{
    return text[t.first] == '-' ? t.first + 1 : t.first;
}

/* The first place from there on where no digit stands; the token's end where all are digits. */
static size_t first_other(const unsigned char *text, struct token t)
{
    size_t place = first_digit(text, t);
    while (place < t.end && text[place] >= '0' && text[place] <= '9')
        place++;
    return place;
}

int64_t token_value(const unsigned char *text, struct token t)
{
    int64_t size = 0;
    for (size_t place = first_digit(text, t); place < t.end; place++)
        size = 10 * size + (text[place] - '0');
    return text[t.first] == '-' ? -size : size;
}

struct token_fault check_token(const unsigned char *text, struct token t)
{
    if (first_other(text, t) < t.end || first_digit(text, t) == t.end)
        return (struct token_fault){21, first_other(text, t)};
    if (t.end - first_digit(text, t) > 10 || token_value(text, t) < INT32_MIN || token_value(text, t) > INT32_MAX)
        return (struct token_fault){22, t.first};
    return (struct token_fault){0, 0};
}
