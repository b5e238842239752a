/* A reference for the typed text of document 01, and for what leastplan prints. */
#include "reference.h"
#include "reference_token.h"

#include <inttypes.h>
#include <stdio.h>

/* ---- sheets typed as text */

/* The order: 23; then token by token, and for each token 21 over its whole length, then 22, then 24. */
static struct reference_reading check_text(const unsigned char *text, size_t length, size_t room)
{
    size_t words = 0;
    struct token t = {0, 0};
    if (length > 60000)
        return (struct reference_reading){23, 60000, 0};
    while (next_token(text, length, t.end, &t)) {
        struct token_fault fault = check_token(text, t);
        if (fault.code != 0)
            return (struct reference_reading){fault.code, fault.place, 0};
        if (words == room)
            return (struct reference_reading){24, t.first, 0};
        words++;
    }
    return (struct reference_reading){0, 0, words};
}

/* Nothing is written before the whole text has been checked. */
struct reference_reading reference_read(const unsigned char *text, size_t length, int32_t *word, size_t room)
{
    struct reference_reading reading = check_text(text, length, room);
    struct token t = {0, 0};
    for (size_t i = 0; i < reading.words; i++) {
        next_token(text, length, t.end, &t);
        word[i] = (int32_t)token_value(text, t);
    }
    return reading;
}

/* ---- what leastplan prints */

static int print_least(const struct reference_answer *a, char *to)
{
    int bytes = sprintf(to, "least %" PRIu64 " %" PRIu64 " %" PRIu64 "\nhold", a->number[1], a->number[2], a->number[3]);
    for (int v = 1; v <= a->devices; v++)
        if (a->plan[v - 1] != 0)
            bytes += sprintf(to + bytes, " %d", a->plan[v - 1] == 1 ? v : -v);
    return bytes + sprintf(to + bytes, "\n");
}

/* Request 1: the number of a width's rule is printed last. */
static int print_refused(const struct reference_answer *a, char *to)
{
    int bytes = sprintf(to, "refused");
    for (int i = 0; i < a->numbers; i++)
        bytes += sprintf(to + bytes, " %" PRIu64, a->number[i]);
    return bytes + sprintf(to + bytes, "\n");
}

size_t reference_print(const struct reference_answer *a, char *to)
{
    if (a->number[0] == 0)
        return (size_t)print_least(a, to);
    if (a->number[0] == 1)
        return (size_t)sprintf(to, "none %" PRIu64 "\n", a->number[1]);
    if (a->number[0] == 2)
        return (size_t)sprintf(to, "spent %" PRIu64 "\n", a->number[1]);
    return (size_t)print_refused(a, to);
}
