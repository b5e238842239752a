/*
 * One call of the library beside the reference: the answer and every lent room, with what lies around it, and what was lent to be
 * read. Words and texts end where readable memory ends.
 */
#define _GNU_SOURCE
#include "calls.h"

#include "../../include/leastplan.h"
#include "draw.h"

#include <stdio.h>
#include <stdlib.h>
#include <string.h>
#include <sys/mman.h>
#include <unistd.h>

enum { ROOM = 260, AROUND = 16 };

struct tally tally;

static unsigned char *end_of_memory; /* behind it nothing can be read */

void make_memory(void)
{
    size_t page = (size_t)sysconf(_SC_PAGESIZE), size = (BYTES + page - 1) / page * page;
    unsigned char *at = mmap(NULL, size + page, PROT_READ | PROT_WRITE, MAP_PRIVATE | MAP_ANONYMOUS, -1, 0);
    if (at == MAP_FAILED || mprotect(at + size, page, PROT_NONE) != 0) {
        puts("no memory for the sheets");
        exit(1);
    }
    end_of_memory = at + size;
}

unsigned char *lend(const void *from, size_t bytes)
{
    return memcpy(end_of_memory - bytes, from, bytes);
}

void mark_room(unsigned char *room, size_t bytes)
{
    uint32_t pattern = (uint32_t)draw();
    for (size_t i = 0; i < bytes; i++)
        room[i] = (unsigned char)((pattern += 0x9e3779b9) >> 24 | 0x80);
}

void mark_numbers(uint64_t *numbers, int count)
{
    for (int i = 0; i < count; i++)
        numbers[i] = draw() | UINT64_C(1) << 63;
}

void judge_known(int right, const char *kind, size_t row)
{
    if (right)
        tally.passed++;
    else {
        tally.failed++;
        printf("FAILED: the reference on known %s %zu\n", kind, row);
    }
}

/* ---- a sheet */

void show_numbers(const struct sheet *s, const uint64_t *expected, int numbers, const uint64_t *got, int lent)
{
    printf(", expected");
    for (int i = 0; i < numbers; i++)
        printf(" %llu", (unsigned long long)expected[i]);
    printf(", got");
    for (int i = 0; i < lent; i++)
        printf(" %llu", (unsigned long long)got[i]);
    printf(", sheet");
    for (size_t i = 0; i < s->words && i < 400; i++)
        printf(" %ld", (long)s->word[i]);
    putchar('\n');
}

static void show(const struct sheet *s, uint32_t budget, const uint64_t *expected, int numbers, const uint64_t *got)
{
    if (tally.failed > 5)
        return;
    printf("FAILED: budget %lu, room %zu", (unsigned long)budget, s->room);
    show_numbers(s, expected, numbers, got, 4);
}

struct reference_answer compare(const struct sheet *s, uint32_t budget)
{
    struct reference_answer a = reference(s->word, s->words, budget, s->room);
    uint8_t room[AROUND + ROOM + AROUND], room_expected[sizeof room];
    uint64_t numbers[2 + 4 + 2], numbers_expected[8];
    int32_t *words = (int32_t *)(void *)lend(s->word, s->words * sizeof s->word[0]);

    for (size_t i = 0; i < sizeof room; i++)
        room[i] = (uint8_t)(0x80 | (draw() >> 56));
    mark_numbers(numbers, 8);
    memcpy(room_expected, room, sizeof room);
    memcpy(numbers_expected, numbers, sizeof numbers);
    memcpy(numbers_expected + 2, a.number, (size_t)a.numbers * sizeof a.number[0]);
    memcpy(room_expected + AROUND, a.plan, (size_t)a.devices);

    leastplan_search(words, s->words, budget, room + AROUND, s->room, numbers + 2);

    tally.searches++;
    tally.by_code[a.number[0]]++;
    tally.later_rule += a.number[0] == 19 && a.number[2] > 1;
    tally.by_number += a.by_number;
    tally.by_marks += a.by_marks;
    if (a.both_rules > 0) {
        tally.both_by_code[a.number[0]]++;
        tally.both_exact_room += a.number[0] <= 2 && s->room == (size_t)s->word[0];
    }
    if (memcmp(room, room_expected, sizeof room) == 0 && memcmp(numbers, numbers_expected, sizeof numbers) == 0 &&
        memcmp(words, s->word, s->words * sizeof words[0]) == 0)
        tally.passed++;
    else {
        tally.failed++;
        show(s, budget, a.number, a.numbers, numbers + 2);
    }
    return a;
}

/* ---- a text */

/* The answer to a text under a budget and in the program's room. */
static struct reference_answer answer_to(const struct text *t, uint32_t budget)
{
    static int32_t word[MOST_WORDS];
    struct reference_reading r = reference_read(t->byte, t->bytes, word, MOST_WORDS);
    if (r.code != 0)
        return (struct reference_answer){.number = {(uint64_t)r.code, r.place}, .numbers = 2};
    return reference(word, r.words, budget, 200);
}

void compare_printed(const struct text *t, const struct reference_answer *a, printing_call *call)
{
    static char expected[4096];
    uint8_t out[1024 + AROUND];
    size_t bytes = reference_print(a, expected);
    memset(expected + bytes, 0x5a, sizeof expected - bytes);
    memset(out, 0x5a, sizeof out);
    unsigned char *text = lend(t->byte, t->bytes);

    size_t told = call(text, t->bytes, out);

    if (told == bytes && memcmp(out, expected, sizeof out) == 0 && memcmp(text, t->byte, t->bytes) == 0)
        tally.passed++;
    else {
        tally.failed++;
        if (tally.failed <= 5)
            printf("FAILED: text of %zu bytes: %zu bytes told, expected %zu: %.*sthe text: %.*s\n", t->bytes, told, bytes, (int)bytes, expected,
                   t->bytes < 2000 ? (int)t->bytes : 2000, (const char *)t->byte);
    }
}

void compare_text(const struct text *t, uint32_t most)
{
    struct reference_answer a = answer_to(t, most);
    if (a.number[0] == 2 && most < BUDGET) {
        tally.left_out++;
        return;
    }
    tally.texts++;
    tally.by_printed[a.number[0]]++;
    tally.both_by_printed[a.number[0]] += a.both_rules > 0;
    compare_printed(t, &a, leastplan_answer);
}
