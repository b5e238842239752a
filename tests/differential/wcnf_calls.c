/* The library beside the reference on WCNF text: the numbers, the whole room with what lies around it, and the sheet itself. */
#include "wcnf_calls.h"

#include "../../include/leastplan.h"
#include "draw.h"

#include <stdio.h>
#include <string.h>

enum { AROUND = 16, LONG_TEXT = 20000 };

static void show(const struct sheet *s, uint32_t edition, size_t room, const struct reference_wcnf *r, const uint64_t *got)
{
    if (tally.failed > 5)
        return;
    printf("FAILED: edition %lu, room of %zu bytes", (unsigned long)edition, room);
    show_numbers(s, r->number, r->numbers, got, 4);
}

static void count(const struct reference_wcnf *r, uint32_t edition, size_t room)
{
    int written = r->number[0] == 0;
    tally.writings++;
    tally.by_writing[edition != 0][r->number[0]]++;
    tally.writing_of_later_rule += r->number[0] == 19 && r->number[2] > 1;
    tally.other_edition += written && edition > 1;
    tally.refused_without_room += !written && r->number[0] != 41 && room == 0;
    tally.exact_text_room += written && room == r->number[1];
    tally.text_room_one_short += r->number[0] == 41 && room + 1 == r->number[1];
    tally.no_text_room += r->number[0] == 41 && room == 0;
    tally.long_text_room += written && room >= r->number[1] + LONG_TEXT;
    tally.without_bytes += written && r->number[1] == 0;
    tally.with_rules_left_out += written && r->both_rules > 0;
}

struct reference_wcnf compare_writing(const struct sheet *s, uint32_t edition, size_t room, unsigned char *expected)
{
    static unsigned char text[AROUND + LONGEST_TEXT_ROOM + AROUND], text_expected[AROUND + LONGEST_TEXT_ROOM + AROUND];
    uint64_t numbers[2 + 4 + 2], numbers_expected[8];
    size_t bytes = AROUND + room + AROUND;

    mark_room(text, bytes);
    mark_numbers(numbers, 8);
    memcpy(text_expected, text, bytes);
    memcpy(numbers_expected, numbers, sizeof numbers);
    struct reference_wcnf r = reference_wcnf_write(s->word, s->words, edition, text_expected + AROUND, room);
    memcpy(numbers_expected + 2, r.number, (size_t)r.numbers * sizeof r.number[0]);
    int32_t *words = (int32_t *)(void *)lend(s->word, s->words * sizeof s->word[0]);

    leastplan_wcnf_write(words, s->words, edition, text + AROUND, room, numbers + 2);

    count(&r, edition, room);
    if (expected != NULL && r.number[0] == 0)
        memcpy(expected, text_expected + AROUND, r.number[1]);
    if (memcmp(text, text_expected, bytes) == 0 && memcmp(numbers, numbers_expected, sizeof numbers) == 0 &&
        memcmp(words, s->word, s->words * sizeof words[0]) == 0)
        tally.passed++;
    else {
        tally.failed++;
        show(s, edition, room, &r, numbers + 2);
    }
    return r;
}

/* A number for the edition before 2022: any but 0. */
static uint32_t some_old(void)
{
    static const uint32_t old[] = {1, 1, 2, 22, 256, 2021, 2022, 65536, 0x7fffffff, 0x80000000, 0xffff0000, 0xffffffff};
    return one_in(8) ? (uint32_t)draw() | 1 : old[below((int)(sizeof old / sizeof old[0]))];
}

static void compare_rooms_of(const struct sheet *s, uint32_t edition)
{
    size_t around = (size_t)below(300);
    struct reference_wcnf r = compare_writing(s, edition, around, NULL);
    if (r.number[0] != 0 && r.number[0] != 41) {
        if (one_in(2))
            compare_writing(s, edition, 0, NULL);
        return;
    }
    size_t length = r.number[1];
    compare_writing(s, edition, length, NULL);
    if (length > 0)
        compare_writing(s, edition, length - 1, NULL);
    switch (below(8)) {
    case 0: compare_writing(s, edition, 0, NULL); break;
    case 1: compare_writing(s, edition, length + 1 + around, NULL); break;
    case 2: compare_writing(s, edition, (size_t)below((int)length + 1), NULL); break;
    case 3:
        if (one_in(2))
            compare_writing(s, edition, length + LONG_TEXT, NULL);
        break;
    default: break;
    }
}

void compare_writings(const struct sheet *s)
{
    compare_rooms_of(s, 0);
    compare_rooms_of(s, some_old());
}
