/*
 * Sheets that show the sentences of request 5 of document 02: each with its numbers and its whole list. Lists of 256 plans are put together
 * here in another way than the reference's: the ties of rules of one width without a common device are counted through.
 */
#include "known_ties.h"

#include "tied.h"
#include "ties_calls.h"

#include <stdio.h>
#include <string.h>

#define G 1000000000

struct row {
    uint32_t budget;
    size_t room;
    int numbers;
    uint64_t number[5];
    const char *plans; /* code 0: the plans, best first, a byte for each device */
    int words;
    int32_t word[24];
};

static const struct row rows[] = {
    /* no device: one plan of 0 bytes */
    {1000, 0, 5, {0, 0, 0, 1, 1}, "", 2, {0, 0}},
    {1000, 99, 5, {0, 0, 0, 1, 1}, "", 2, {0, 0}},
    {0, 0, 2, {2, 0}, "", 2, {0, 0}},
    {1, 0, 5, {0, 0, 0, 1, 1}, "", 2, {0, 0}},
    /* no rule: the plan that holds nothing, whatever the costs */
    {1000, 3, 5, {0, 0, 0, 1, 1}, "\0\0\0", 5, {3, 0, 7, 0, 0}},
    {1000, 2, 2, {51, 2}, "", 5, {3, 0, 7, 0, 0}},
    /* no plan */
    {1000, 99, 2, {1, 1}, "", 3, {0, 1, 0}},
    {1000, 0, 2, {1, 2}, "", 7, {1, 4, 2, 1, 1, 1, -1}},
    {1, 0, 2, {2, 1}, "", 7, {1, 4, 2, 1, 1, 1, -1}},
    /* two ties: free comes before held at 1 */
    {1000, 99, 5, {0, 3, 1, 2, 3}, "\0\1" "\1\0", 7, {2, 3, 3, 1, 2, 2, 1}},
    {1000, 4, 5, {0, 3, 1, 2, 3}, "\0\1" "\1\0", 7, {2, 3, 3, 1, 2, 1, 2}},
    {1000, 3, 2, {51, 3}, "", 7, {2, 3, 3, 1, 2, 2, 1}},
    {1000, 2, 2, {51, 2}, "", 7, {2, 3, 3, 1, 2, 2, 1}},
    {1000, 1, 2, {51, 1}, "", 7, {2, 3, 3, 1, 2, 2, 1}},
    {1000, 0, 2, {51, 0}, "", 7, {2, 3, 3, 1, 2, 2, 1}},
    /* "spent" comes before 51 */
    {3, 0, 2, {51, 0}, "", 7, {2, 3, 3, 1, 2, 2, 1}},
    {2, 0, 2, {2, 2}, "", 7, {2, 3, 3, 1, 2, 2, 1}},
    {2, 99, 2, {2, 2}, "", 7, {2, 3, 3, 1, 2, 2, 1}},
    {0, 0, 2, {2, 0}, "", 7, {2, 3, 3, 1, 2, 2, 1}},
    /* held at 1 comes before held at 0 */
    {1000, 9, 5, {0, 2, 2, 3, 6}, "\0\1\1" "\1\0\1" "\2\1\0", 11, {3, 1, 1, 1, 2, 2, 1, 2, 2, -1, 3}},
    {1000, 4, 5, {0, 8, 2, 2, 5}, "\1\2" "\2\1", 10, {2, 4, 4, 2, 2, 1, 2, 2, -1, -2}},
    /* of equal cost, but not of equal number: the plan of fewer devices is alone */
    {1000, 3, 5, {0, 5, 1, 1, 5}, "\1\0\0", 11, {3, 5, 5, 0, 2, 2, 2, 1, 2, 3, 1}},
    /* of equal number, but not of equal cost */
    {1000, 2, 5, {0, 1, 1, 1, 3}, "\1\0", 7, {2, 1, 10, 1, 2, 1, 2}},
    {1000, 8, 5, {0, 1, 1, 2, 5}, "\0\0\1\0" "\0\1\0\0", 11, {4, 9, 1, 1, 9, 1, 4, 1, 2, 3, 4}},
    /* costs of 0 */
    {1000, 9, 5, {0, 0, 1, 3, 4}, "\0\0\1" "\0\1\0" "\1\0\0", 9, {3, 0, 0, 0, 1, 3, 1, 2, 3}},
    /* a repeated entry opens its plan again, which is listed once */
    {1000, 4, 5, {0, 1, 1, 2, 6}, "\0\2" "\1\0", 10, {2, 1, 1, 1, 5, 1, -2, 1, -2, 1}},
    /* two of three: each tie by two routes */
    {1000, 9, 5, {0, 2, 2, 3, 7}, "\0\1\1" "\1\0\1" "\1\1\0", 14, {3, 1, 1, 1, 3, 2, 1, 2, 2, 1, 3, 2, 2, 3}},
    /* a rule that names both positions of a device is met by every plan, and adds no tie */
    {1000, 1, 5, {0, 0, 0, 1, 1}, "\0", 6, {1, 4, 1, 2, -1, 1}},
    {1000, 4, 5, {0, 7, 1, 2, 3}, "\0\1" "\1\0", 10, {2, 7, 7, 2, 2, 1, -1, 2, 1, 2}},
    /* sums beyond 32 bits */
    {1000, 12, 5, {0, 5000000000, 5, 2, 11}, "\0\1\1\1\1\1" "\1\0\1\1\1\1", 19, {6, G, G, G, G, G, G, 5, 2, 1, 2, 1, 3, 1, 4, 1, 5, 1, 6}},
    /* document 01's sheet of four devices */
    {1000, 4, 5, {0, 9, 3, 1, 10}, "\0\1\1\1", 15, {4, 5, 2, 4, 3, 3, 2, 1, 2, 2, -2, 3, 2, -1, 4}},
    /* the sheet's refusals; 16 is not given */
    {1000, 0, 2, {11, 0}, "", 0, {0}},
    {0, 99, 2, {12, 0}, "", 1, {201}},
    {1000, 0, 2, {13, 1}, "", 3, {1, G + 1, 0}},
    {1000, 99, 2, {11, 4}, "", 4, {1, 5, 1, 1}},
    {0, 0, 2, {14, 4}, "", 5, {1, 5, 1, 1, 2}},
    {1000, 99, 2, {18, 2}, "", 3, {1, 5, -1}},
    {1000, 0, 3, {19, 3, 1}, "", 4, {1, 5, 1, 33}},
    {1000, 99, 3, {19, 7, 3}, "", 8, {1, 5, 4, 0, 2, 1, -1, 33}},
    {1000, 0, 2, {15, 3}, "", 4, {1, 5, 0, 7}},
    {1000, 0, 2, {51, 0}, "", 3, {1, 5, 0}},
};

static int same(const struct reference_ties *t, int numbers, const uint64_t *number)
{
    return t->numbers == numbers && memcmp(t->number, number, (size_t)numbers * sizeof number[0]) == 0;
}

static void small_sheets(void)
{
    static struct sheet s;
    static unsigned char listed[LONGEST_TIES_ROOM];
    for (size_t i = 0; i < sizeof rows / sizeof rows[0]; i++) {
        const struct row *r = &rows[i];
        s.words = (size_t)r->words;
        memcpy(s.word, r->word, s.words * sizeof s.word[0]);
        struct reference_ties t = compare_list(&s, r->budget, r->room, listed);
        judge_known(same(&t, r->numbers, r->number) && (t.number[0] != 0 || memcmp(listed, r->plans, t.bytes) == 0), "ties", i + 1);
    }
}

/* ---- long lists */

/* Tie i of rules of one width without a common device, best first: of the first rule the last entry comes first, then the one before it. */
static void count_through(unsigned char *plan, int rules, int width, int devices, int i)
{
    memset(plan, 0, (size_t)devices);
    for (int r = rules - 1; r >= 0; r--) {
        plan[r * width + width - 1 - i % width] = 1;
        i /= width;
    }
}

/* 256 plans, in a room exactly long enough, in a longer one and in one a byte shorter; and under one node less than is needed. */
static void list_of_256(int rules, int width, int devices, uint32_t opened, size_t row)
{
    static struct sheet s;
    static unsigned char listed[LONGEST_TIES_ROOM], expected[LONGEST_TIES_ROOM];
    size_t bytes = (size_t)MOST_TIES * (size_t)devices;
    const uint64_t least[5] = {0, (uint64_t)rules, (uint64_t)rules, MOST_TIES, opened}, spent[2] = {2, opened - 1}, one_short[2] = {51, bytes - 1};
    equal_rules_sheet(&s, rules, width, devices);
    for (int i = 0; i < MOST_TIES; i++)
        count_through(expected + i * devices, rules, width, devices, i);
    for (size_t more = 0; more <= LONGER_BY; more += LONGER_BY) {
        struct reference_ties t = compare_list(&s, opened, bytes + more, listed);
        judge_known(same(&t, 5, least) && memcmp(listed, expected, bytes) == 0, "long list", row);
    }
    struct reference_ties t = compare_list(&s, opened, bytes - 1, NULL);
    judge_known(same(&t, 2, one_short), "long list", row);
    t = compare_list(&s, opened - 1, bytes - 1, NULL);
    judge_known(same(&t, 2, spent), "long list", row);
}

/* More than 256 plans, whatever the room. */
static void list_too_long(const struct sheet *s, uint32_t opened, size_t row)
{
    static const size_t rooms[] = {0, MOST_TIES * 200, LONGEST_TIES_ROOM};
    const uint64_t spent[2] = {2, opened - 1};
    struct reference_ties t;
    for (size_t i = 0; i < sizeof rooms / sizeof rooms[0]; i++) {
        const uint64_t too_many[2] = {51, rooms[i]};
        t = compare_list(s, opened, rooms[i], NULL);
        judge_known(same(&t, 2, too_many), "list too long", row);
    }
    t = compare_list(s, opened - 1, 0, NULL);
    judge_known(same(&t, 2, spent), "list too long", row);
}

/* 257 ties: 16 times 16 plans that hold an entry of each of two rules, and one that holds the entry of both and another for the third rule. */
static void sheet_of_257(struct sheet *s)
{
    begin(s, 34, 1);
    s->word[33] = 2;
    s->word[34] = 0;
    put(s, 'm', 3);
    for (int r = 0; r < 3; r++) {
        put(s, 'w', 17);
        for (int j = 1; j <= 16; j++)
            put(s, 'e', r == 1 ? 16 + j : j);
        put(s, 'e', r == 2 ? 34 : 33);
    }
}

/* Five of ten devices: 252 ties, each opened by many routes; in order they are the numbers of ten binary digits with five ones. */
static void list_of_252(void)
{
    static struct sheet s;
    static unsigned char listed[LONGEST_TIES_ROOM], expected[LONGEST_TIES_ROOM];
    const uint64_t least[5] = {0, 5, 5, 252, 9331};
    size_t bytes = 0;
    begin(&s, 10, 1);
    put_at_least(&s, (const int32_t[]){1, 2, 3, 4, 5, 6, 7, 8, 9, 10}, 5, 10);
    for (int i = 0; i < 1024; i++) {
        int ones = 0;
        for (int v = 0; v < 10; v++)
            ones += expected[bytes + (size_t)v] = (unsigned char)(i >> (9 - v) & 1);
        if (ones == 5)
            bytes += 10;
    }
    struct reference_ties t = compare_list(&s, 1000000, bytes, listed);
    judge_known(bytes == 2520 && same(&t, 5, least) && memcmp(listed, expected, bytes) == 0, "long list", 5);
}

static void long_lists(void)
{
    static struct sheet s;
    list_of_256(8, 2, 16, 511, 1);
    list_of_256(4, 4, 200, 341, 2);
    list_of_256(2, 16, 32, 273, 3);
    list_of_256(2, 16, 200, 273, 4);
    list_of_252();
    sheet_of_257(&s);
    list_too_long(&s, 307, 1);
    equal_rules_sheet(&s, 9, 2, 18);
    list_too_long(&s, 1023, 2);
    equal_rules_sheet(&s, 2, 17, 200);
    list_too_long(&s, 307, 3);
}

void known_ties(void)
{
    small_sheets();
    long_lists();
    printf("%zu sheets with known ties, 8 long lists\n", sizeof rows / sizeof rows[0]);
}
