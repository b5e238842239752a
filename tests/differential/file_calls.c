/*
 * The library beside the reference on a DIMACS CNF file: the numbers, the whole room with what lies around it, the file itself; what is
 * printed; and the search of what was read.
 */
#include "file_calls.h"

#include "../../include/leastplan.h"
#include "draw.h"

#include <stdio.h>
#include <string.h>

enum { AROUND = 16, LONG_FILE = 20000 };

/* ---- reading */

static void show(const struct text *t, size_t room, const struct reference_cnf *r, const uint64_t *got)
{
    if (tally.failed > 5)
        return;
    printf("FAILED: room of %zu words, expected", room);
    for (int i = 0; i < r->numbers; i++)
        printf(" %llu", (unsigned long long)r->number[i]);
    printf(", got");
    for (int i = 0; i < 4; i++)
        printf(" %llu", (unsigned long long)got[i]);
    printf(", file of %zu bytes: %.*s\n", t->bytes, t->bytes < 2000 ? (int)t->bytes : 2000, (const char *)t->byte);
}

static void count(const struct reference_cnf *r, size_t room)
{
    tally.readings++;
    tally.by_reading[r->number[0]]++;
    tally.later_clause += r->number[0] == 19 && r->number[2] > 1;
    tally.beyond_limit += r->number[0] == 24 && room > MOST_WORDS;
    tally.room_of_0 += room == 0;
}

struct reference_cnf compare_reading(const struct text *t, size_t room)
{
    static int32_t words[AROUND + LONGEST_ROOM + AROUND], words_expected[AROUND + LONGEST_ROOM + AROUND];
    uint64_t numbers[2 + 4 + 2], numbers_expected[8];
    size_t bytes = (AROUND + room + AROUND) * sizeof words[0];
    uint32_t pattern = (uint32_t)draw();

    for (size_t i = 0; i < AROUND + room + AROUND; i++)
        words[i] = (int32_t)(pattern += 0x9e3779b9);
    mark_numbers(numbers, 8);
    memcpy(words_expected, words, bytes);
    memcpy(numbers_expected, numbers, sizeof numbers);
    struct reference_cnf r = reference_cnf_read(t->byte, t->bytes, words_expected + AROUND, room);
    memcpy(numbers_expected + 2, r.number, (size_t)r.numbers * sizeof r.number[0]);
    unsigned char *text = lend(t->byte, t->bytes);

    leastplan_cnf_read(text, t->bytes, words + AROUND, room, numbers + 2);

    count(&r, room);
    if (memcmp(words, words_expected, bytes) == 0 && memcmp(numbers, numbers_expected, sizeof numbers) == 0 && memcmp(text, t->byte, t->bytes) == 0)
        tally.passed++;
    else {
        tally.failed++;
        show(t, room, &r, numbers + 2);
    }
    return r;
}

/* Longer than the sheet of a file of so many bytes: two bytes are needed for each word behind the clause count. */
static size_t long_room(size_t bytes)
{
    size_t room = 220 + bytes / 2;
    return one_in(16) || room > LONGEST_ROOM ? (size_t)from_to(MOST_WORDS, LONGEST_ROOM) : room;
}

void compare_rooms(const struct text *t)
{
    struct reference_cnf r = compare_reading(t, long_room(t->bytes));
    size_t words = r.number[0] == 0 ? r.number[1] : 220 + t->bytes / 2;
    if (r.number[0] == 0) {
        compare_reading(t, words);
        compare_reading(t, words - 1);
        tally.exact_room++;
    }
    if (t->bytes > LONG_FILE)
        return;
    compare_reading(t, (size_t)below((int)words));
    if (one_in(4))
        compare_reading(t, 0);
}

void compare_with_sheet(const struct text *t, const struct sheet *s)
{
    static int32_t words[MOST_WORDS];
    struct reference_cnf r = reference_cnf_read(t->byte, t->bytes, words, MOST_WORDS);
    if (t->bytes > MOST_BYTES || s->words > MOST_WORDS)
        return;
    tally.read_back++;
    if (r.number[0] == 0 && r.number[1] == s->words && memcmp(words, s->word, s->words * sizeof words[0]) == 0)
        tally.passed++;
    else {
        tally.failed++;
        printf("FAILED: the reference does not read the sheet back from a file of %zu bytes: %.*s\n", t->bytes, t->bytes < 2000 ? (int)t->bytes : 2000,
               (const char *)t->byte);
    }
}

/* ---- printing */

/* The answer to a file under a budget and in the program's room. The search has to accept every sheet that was read. */
static struct reference_answer answer_to(const struct text *t, uint32_t budget)
{
    static int32_t words[MOST_WORDS];
    struct reference_cnf r = reference_cnf_read(t->byte, t->bytes, words, MOST_WORDS);
    struct reference_answer a = {.numbers = r.numbers};
    memcpy(a.number, r.number, sizeof r.number);
    if (r.number[0] == 0) {
        a = reference(words, r.number[1], budget, 200);
        if (a.number[0] > 2) {
            tally.failed++;
            printf("FAILED: the search refuses what was read: %llu\n", (unsigned long long)a.number[0]);
        }
    }
    return a;
}

/* A caller may search what was read under any budget. The plan room is exactly long enough. */
static void compare_search(const struct text *t, uint32_t needed)
{
    static struct sheet s;
    s.words = reference_cnf_read(t->byte, t->bytes, s.word, MOST_WORDS).number[1];
    s.room = (size_t)s.word[0];
    compare(&s, needed);
    tally.both_file_spent += compare(&s, needed - 1).both_rules > 0;
}

struct reference_answer compare_file(const struct text *t, uint32_t most)
{
    struct reference_answer a = answer_to(t, most);
    if (a.number[0] == 2 && most < BUDGET) {
        tally.files_left_out++;
        return a;
    }
    tally.files++;
    tally.by_file[a.number[0]]++;
    tally.both_by_file[a.number[0]] += a.both_rules > 0;
    compare_printed(t, &a, leastplan_cnf_answer);
    if (a.number[0] < 2)
        compare_search(t, (uint32_t)a.number[a.numbers - 1]);
    return a;
}
