/*
 * Sheets that show the sentences of request 4 of document 02: each with its text in both editions, whole, or with the numbers of its
 * refusal. Two long ones are put together here in another way than the reference's: 200 devices at the highest cost, and the longest text.
 */
#include "known_wcnf.h"

#include "wcnf_calls.h"

#include <stdio.h>
#include <string.h>

#define G 1000000000

struct text_row {
    const char *from_2022, *before;
    int words;
    int32_t word[24];
};

static const struct text_row text_rows[] = {
    {"", "p wcnf 0 0 1\n", 2, {0, 0}},
    /* an empty rule */
    {"h 0\n", "p wcnf 0 1 1\n1 0\n", 3, {0, 1, 0}},
    {"h 0\nh 1 0\nh 0\nh -1 -2 0\n5 -1 0\n5 -2 0\n", "p wcnf 2 6 11\n11 0\n11 1 0\n11 0\n11 -1 -2 0\n5 -1 0\n5 -2 0\n", 7, {1, 5, 3, 0, 1, 1, 0}},
    /* no rule */
    {"h -1 -2 0\n4 -1 0\n4 -2 0\n", "p wcnf 2 3 9\n9 -1 -2 0\n4 -1 0\n4 -2 0\n", 3, {1, 4, 0}},
    /* a cost of 0 gives no soft clause */
    {"h -1 -2 0\n", "p wcnf 2 1 1\n1 -1 -2 0\n", 3, {1, 0, 0}},
    {"h 1 0\nh -1 -2 0\nh -3 -4 0\n", "p wcnf 4 3 1\n1 1 0\n1 -1 -2 0\n1 -3 -4 0\n", 6, {2, 0, 0, 1, 1, 1}},
    {"h 3 5 0\nh -1 -2 0\nh -3 -4 0\nh -5 -6 0\n7 -1 0\n7 -2 0\n1 -5 0\n1 -6 0\n",
     "p wcnf 6 8 17\n17 3 5 0\n17 -1 -2 0\n17 -3 -4 0\n17 -5 -6 0\n7 -1 0\n7 -2 0\n1 -5 0\n1 -6 0\n", 8, {3, 7, 0, 1, 1, 2, 2, 3}},
    /* each position of a device */
    {"h 1 0\nh 2 0\nh -1 -2 0\n4 -1 0\n4 -2 0\n", "p wcnf 2 5 9\n9 1 0\n9 2 0\n9 -1 -2 0\n4 -1 0\n4 -2 0\n", 7, {1, 4, 2, 1, 1, 1, -1}},
    /* both positions in one rule: it is left out, wherever they stand and whatever stands beside them */
    {"h -1 -2 0\n4 -1 0\n4 -2 0\n", "p wcnf 2 3 9\n9 -1 -2 0\n4 -1 0\n4 -2 0\n", 6, {1, 4, 1, 2, -1, 1}},
    {"h 4 0\nh -1 -2 0\nh -3 -4 0\n2 -3 0\n2 -4 0\n", "p wcnf 4 5 5\n5 4 0\n5 -1 -2 0\n5 -3 -4 0\n2 -3 0\n2 -4 0\n", 15,
     {2, 0, 2, 3, 3, 1, 2, -1, 1, -2, 4, -2, -2, 1, 2}},
    {"h -1 -2 0\nh -3 -4 0\n", "p wcnf 4 2 1\n1 -1 -2 0\n1 -3 -4 0\n", 11, {2, 0, 0, 2, 2, 1, -1, 3, 2, 2, -2}},
    /* repeated entries, as written */
    {"h 1 1 0\nh 4 1 4 0\nh -1 -2 0\nh -3 -4 0\n3 -1 0\n3 -2 0\n3 -3 0\n3 -4 0\n",
     "p wcnf 4 8 13\n13 1 1 0\n13 4 1 4 0\n13 -1 -2 0\n13 -3 -4 0\n3 -1 0\n3 -2 0\n3 -3 0\n3 -4 0\n", 11, {2, 3, 3, 2, 2, 1, 1, 3, -2, 1, -2}},
    /* the same rule twice */
    {"h 2 0\nh 2 0\nh -1 -2 0\n", "p wcnf 2 3 1\n1 2 0\n1 2 0\n1 -1 -2 0\n", 7, {1, 0, 2, 1, -1, 1, -1}},
    /* document 01's sheet of four devices */
    {"h 1 3 0\nh 4 5 0\nh 2 7 0\nh -1 -2 0\nh -3 -4 0\nh -5 -6 0\nh -7 -8 0\n"
     "5 -1 0\n5 -2 0\n2 -3 0\n2 -4 0\n4 -5 0\n4 -6 0\n3 -7 0\n3 -8 0\n",
     "p wcnf 8 15 29\n29 1 3 0\n29 4 5 0\n29 2 7 0\n29 -1 -2 0\n29 -3 -4 0\n29 -5 -6 0\n29 -7 -8 0\n"
     "5 -1 0\n5 -2 0\n2 -3 0\n2 -4 0\n4 -5 0\n4 -6 0\n3 -7 0\n3 -8 0\n",
     15, {4, 5, 2, 4, 3, 3, 2, 1, 2, 2, -2, 3, 2, -1, 4}},
    /* numbers of one digit and of more; a top weight beyond 32 bits */
    {"h 9 8 12 0\nh -1 -2 0\nh -3 -4 0\nh -5 -6 0\nh -7 -8 0\nh -9 -10 0\nh -11 -12 0\n"
     "9 -1 0\n9 -2 0\n10 -3 0\n10 -4 0\n99 -5 0\n99 -6 0\n100 -9 0\n100 -10 0\n999999999 -11 0\n999999999 -12 0\n",
     "p wcnf 12 17 2000000435\n2000000435 9 8 12 0\n2000000435 -1 -2 0\n2000000435 -3 -4 0\n2000000435 -5 -6 0\n2000000435 -7 -8 0\n"
     "2000000435 -9 -10 0\n2000000435 -11 -12 0\n"
     "9 -1 0\n9 -2 0\n10 -3 0\n10 -4 0\n99 -5 0\n99 -6 0\n100 -9 0\n100 -10 0\n999999999 -11 0\n999999999 -12 0\n",
     12, {6, 9, 10, 99, 0, 100, 999999999, 1, 3, 5, -4, -6}},
    {"h 4 0\nh -1 -2 0\nh -3 -4 0\nh -5 -6 0\n"
     "1000000000 -1 0\n1000000000 -2 0\n1000000000 -3 0\n1000000000 -4 0\n147483648 -5 0\n147483648 -6 0\n",
     "p wcnf 6 10 4294967297\n4294967297 4 0\n4294967297 -1 -2 0\n4294967297 -3 -4 0\n4294967297 -5 -6 0\n"
     "1000000000 -1 0\n1000000000 -2 0\n1000000000 -3 0\n1000000000 -4 0\n147483648 -5 0\n147483648 -6 0\n",
     7, {3, G, G, 147483648, 1, 1, -2}},
};

/* What writing into a room comes to. */
struct room_row {
    uint32_t edition;
    size_t room;
    int numbers;
    uint64_t number[3];
    int words;
    int32_t word[8];
};

static const struct room_row room_rows[] = {
    /* the room */
    {0, 0, 2, {0, 0}, 2, {0, 0}},
    {1, 13, 2, {0, 13}, 2, {0, 0}},
    {1, 12, 2, {41, 13}, 2, {0, 0}},
    {1, 0, 2, {41, 13}, 2, {0, 0}},
    {0, 24, 2, {0, 24}, 3, {1, 5, 0}},
    {0, 23, 2, {41, 24}, 3, {1, 5, 0}},
    {0, 0, 2, {41, 24}, 3, {1, 5, 0}},
    {1, 39, 2, {0, 39}, 3, {1, 5, 0}},
    {1, 38, 2, {41, 39}, 3, {1, 5, 0}},
    {1, 24, 2, {41, 39}, 3, {1, 5, 0}},
    /* any number but 0 is the edition before 2022 */
    {2, 99, 2, {0, 39}, 3, {1, 5, 0}},
    {256, 99, 2, {0, 39}, 3, {1, 5, 0}},
    {65536, 99, 2, {0, 39}, 3, {1, 5, 0}},
    {4294967295, 99, 2, {0, 39}, 3, {1, 5, 0}},
    /* the sheet's refusals, which come before 41 */
    {0, 99, 2, {11, 0}, 0, {0}},
    {1, 0, 2, {11, 0}, 0, {0}},
    {0, 0, 2, {12, 0}, 1, {201}},
    {1, 99, 2, {12, 0}, 1, {-1}},
    {1, 99, 2, {13, 1}, 3, {1, G + 1, 0}},
    {0, 0, 2, {13, 1}, 3, {1, -1, 0}},
    {0, 99, 2, {11, 4}, 4, {1, 5, 1, 1}},
    {0, 99, 2, {14, 4}, 5, {1, 5, 1, 1, 2}},
    {1, 0, 2, {14, 4}, 5, {1, 5, 1, 1, 0}},
    {1, 99, 2, {18, 1}, 2, {0, 2001}},
    {0, 0, 2, {18, 2}, 3, {1, 5, -1}},
    {0, 99, 3, {19, 3, 1}, 4, {1, 5, 1, 33}},
    {1, 99, 3, {19, 7, 3}, 8, {1, 5, 4, 0, 2, 1, -1, 33}},
    {1, 0, 3, {19, 3, 2}, 5, {0, 2, 0, 40, 7}},
    {0, 99, 2, {15, 3}, 4, {1, 5, 0, 7}},
    {1, 0, 2, {15, 3}, 4, {1, 5, 0, 7}},
};

static void copy(struct sheet *s, const int32_t *word, int words)
{
    s->words = (size_t)words;
    memcpy(s->word, word, s->words * sizeof s->word[0]);
}

/* Into a room exactly as long as the text, whose length has to be this; and into one a byte shorter. */
static void judge_text(const struct sheet *s, uint32_t edition, const char *text, size_t length, const char *kind, size_t row)
{
    static unsigned char written[LONGEST_TEXT];
    struct reference_wcnf r = compare_writing(s, edition, length, written);
    judge_known(strlen(text) == length && r.numbers == 2 && r.number[0] == 0 && r.number[1] == length && memcmp(written, text, length) == 0, kind, row);
    if (length == 0)
        return;
    r = compare_writing(s, edition, length - 1, NULL);
    judge_known(r.numbers == 2 && r.number[0] == 41 && r.number[1] == length, kind, row);
}

/* ---- long texts */

/* 200 devices at the highest cost; rules of width 8, then rules of width 7, whose variables have three digits. */
static void long_sheet(struct sheet *s, int eights, int sevens)
{
    s->words = 0;
    put(s, 'n', 200);
    for (int v = 1; v <= 200; v++)
        put(s, 'c', G);
    put(s, 'm', eights + sevens);
    for (int i = 0; i < eights + sevens; i++) {
        int width = i < eights ? 8 : 7;
        put(s, 'w', width);
        for (int32_t v = 51; v < 51 + width; v++)
            put(s, 'e', v);
    }
}

static const char *long_text(const char *header, const char *hard, int eights, int sevens)
{
    static char text[LONGEST_TEXT + 2];
    char *at = text + sprintf(text, "%s", header);
    for (int i = 0; i < eights + sevens; i++)
        at += sprintf(at, "%s 101 103 105 107 109 111 113%s 0\n", hard, i < eights ? " 115" : "");
    for (int i = 1; i <= 399; i += 2)
        at += sprintf(at, "%s -%d -%d 0\n", hard, i, i + 1);
    for (int i = 1; i <= 400; i++)
        at += sprintf(at, "1000000000 -%d 0\n", i);
    return text;
}

static void long_texts(void)
{
    static struct sheet s;
    long_sheet(&s, 0, 0);
    judge_text(&s, 0, long_text("", "h", 0, 0), 9784, "long text", 1);
    judge_text(&s, 1, long_text("p wcnf 400 600 400000000001\n", "400000000001", 0, 0), 12012, "long text", 2);
    long_sheet(&s, 182, 1818);
    judge_known(s.words == MOST_WORDS, "long text", 3);
    judge_text(&s, 0, long_text("", "h", 182, 1818), 74512, "long text", 3);
    judge_text(&s, 1, long_text("p wcnf 400 2600 400000000001\n", "400000000001", 182, 1818), LONGEST_TEXT, "long text", 4);
}

/* ---- all of them */

void known_wcnf(void)
{
    static struct sheet s;
    size_t texts = sizeof text_rows / sizeof text_rows[0], rooms = sizeof room_rows / sizeof room_rows[0];
    for (size_t i = 0; i < texts; i++) {
        const struct text_row *t = &text_rows[i];
        copy(&s, t->word, t->words);
        judge_text(&s, 0, t->from_2022, strlen(t->from_2022), "text from 2022", i + 1);
        judge_text(&s, 1, t->before, strlen(t->before), "text before 2022", i + 1);
    }
    for (size_t i = 0; i < rooms; i++) {
        const struct room_row *t = &room_rows[i];
        copy(&s, t->word, t->words);
        struct reference_wcnf r = compare_writing(&s, t->edition, t->room, NULL);
        judge_known(r.numbers == t->numbers && memcmp(r.number, t->number, (size_t)t->numbers * sizeof r.number[0]) == 0, "text room", i + 1);
    }
    long_texts();
    printf("%zu sheets with known WCNF texts, %zu text rooms with known numbers\n", texts + 2, rooms);
}
