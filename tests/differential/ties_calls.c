/* The library beside the reference on the list of ties: the numbers, the whole room with what lies around it, and the sheet itself. */
#include "ties_calls.h"

#include "../../include/leastplan.h"
#include "draw.h"

#include <stdio.h>
#include <string.h>

enum { AROUND = 16, DEVICES_TO_TRY = 6 };

/* ---- one call */

static void show(const struct sheet *s, uint32_t budget, size_t room, const struct reference_ties *t, const uint64_t *got)
{
    if (tally.failed > 5)
        return;
    printf("FAILED: ties, budget %lu, room of %zu bytes", (unsigned long)budget, room);
    show_numbers(s, t->number, t->numbers, got, 5);
}

static void count_listed(const struct reference_ties *t, size_t room)
{
    tally.one_tie += t->plans == 1;
    tally.several_ties += t->plans > 1;
    tally.ties_256 += t->plans == MOST_TIES;
    tally.ties_without_bytes += t->bytes == 0;
    tally.ties_again += t->again > 0;
    tally.ties_earlier += t->earlier > 0;
    tally.ties_lowered += t->ties_lowered > 0;
    tally.ties_with_both += t->both_rules > 0;
    tally.exact_ties_room += room == t->bytes;
    tally.long_ties_room += room >= t->bytes + LONGER_BY;
}

static void count_short(const struct reference_ties *t, size_t devices, size_t room)
{
    tally.too_many_ties += t->plans > MOST_TIES && room >= t->bytes;
    tally.ties_room_one_short += t->plans <= MOST_TIES && room + 1 == t->bytes;
    tally.ties_room_below_plan += room > 0 && room < devices;
    tally.no_ties_room += room == 0;
}

static void count(const struct sheet *s, const struct reference_ties *t, size_t room)
{
    tally.lists++;
    tally.by_list[t->number[0]]++;
    tally.list_of_later_rule += t->number[0] == 19 && t->number[2] > 1;
    tally.list_without_room += t->number[0] >= 11 && t->number[0] <= 19 && room == 0;
    if (t->number[0] == 0)
        count_listed(t, room);
    if (t->number[0] == 51)
        count_short(t, (size_t)s->word[0], room);
}

struct reference_ties compare_list(const struct sheet *s, uint32_t budget, size_t room, unsigned char *expected)
{
    static unsigned char plans[AROUND + LONGEST_TIES_ROOM + AROUND], plans_expected[AROUND + LONGEST_TIES_ROOM + AROUND];
    uint64_t numbers[2 + 5 + 2], numbers_expected[9];
    size_t bytes = AROUND + room + AROUND;

    mark_room(plans, bytes);
    mark_numbers(numbers, 9);
    memcpy(plans_expected, plans, bytes);
    memcpy(numbers_expected, numbers, sizeof numbers);
    struct reference_ties t = reference_ties_list(s->word, s->words, budget, plans_expected + AROUND, room);
    memcpy(numbers_expected + 2, t.number, (size_t)t.numbers * sizeof t.number[0]);
    int32_t *words = (int32_t *)(void *)lend(s->word, s->words * sizeof s->word[0]);

    leastplan_ties(words, s->words, budget, plans + AROUND, room, numbers + 2);

    count(s, &t, room);
    if (expected != NULL && t.number[0] == 0)
        memcpy(expected, plans_expected + AROUND, t.bytes);
    if (memcmp(plans, plans_expected, bytes) == 0 && memcmp(numbers, numbers_expected, sizeof numbers) == 0 &&
        memcmp(words, s->word, s->words * sizeof words[0]) == 0)
        tally.passed++;
    else {
        tally.failed++;
        show(s, budget, room, &t, numbers + 2);
    }
    return t;
}

/* ---- a sheet under several budgets and in several rooms */

static void judge(int right, const char *what)
{
    if (right)
        tally.passed++;
    else {
        tally.failed++;
        printf("FAILED: the reference lists other ties than %s\n", what);
    }
}

/* The reference's list beside all plans of a small sheet, each tried. So few devices have no more than 240 plans that hold the same number. */
static void compare_with_tried(const struct sheet *s, uint32_t most, const struct reference_ties *t)
{
    static unsigned char listed[MOST_TIES * DEVICES_TO_TRY], tried[MOST_TIES * DEVICES_TO_TRY];
    int plans = reference_ties_tried(s->word, s->words, tried);
    compare_list(s, most, t->bytes, listed);
    judge(plans == t->plans && memcmp(listed, tried, t->bytes) == 0, "those of all plans");
    tally.lists_tried++;
}

/* Around the budget that the walk needs: where it is spent, it is so whatever the room. */
static void compare_budgets(const struct sheet *s, const struct reference_ties *t)
{
    compare_list(s, t->opened, t->bytes, NULL);
    compare_list(s, t->opened - 1, t->bytes, NULL);
    tally.exact_lists++;
    if (t->bytes > 0 && one_in(4)) {
        compare_list(s, t->opened - 1, t->bytes - 1, NULL);
        tally.spent_before_51++;
    }
}

/* A sheet whose walk, under this budget, ended with a least plan. */
static void compare_found(const struct sheet *s, uint32_t most, const struct reference_ties *t)
{
    size_t devices = (size_t)s->word[0];
    compare_list(s, most, t->bytes, NULL);
    if (t->bytes > 0)
        compare_list(s, most, t->bytes - 1, NULL);
    compare_budgets(s, t);
    switch (below(6)) {
    case 0: compare_list(s, most, 0, NULL); break;
    case 1: compare_list(s, most, (size_t)below((int)devices + 1), NULL); break;
    case 2: compare_list(s, most, t->bytes + (size_t)from_to(1, 300), NULL); break;
    case 3: compare_list(s, UINT32_MAX, t->bytes + LONGER_BY, NULL); break;
    case 4: compare_list(s, (uint32_t)below((int)t->opened), t->bytes, NULL); break;
    default: compare_list(s, most, (size_t)below((int)t->bytes + 1), NULL); break;
    }
    if (devices <= DEVICES_TO_TRY && one_in(4))
        compare_with_tried(s, most, t);
}

/* A sheet whose walk, under this budget, ended without a plan, or was spent; or which is refused. */
static void compare_not_found(const struct sheet *s, uint32_t most, const struct reference_ties *t)
{
    if (t->number[0] == 1) {
        compare_list(s, (uint32_t)t->number[1], (size_t)below(300), NULL);
        compare_list(s, (uint32_t)t->number[1] - 1, (size_t)below(300), NULL);
    }
    if (one_in(2))
        compare_list(s, most, 0, NULL);
    if (one_in(8))
        compare_list(s, 0, (size_t)below(300), NULL);
}

struct reference_ties compare_lists(const struct sheet *s, uint32_t most, int ties)
{
    struct reference_ties t = compare_list(s, most, (size_t)below(300), NULL);
    if (t.number[0] != 0 && t.number[0] != 51) {
        compare_not_found(s, most, &t);
        return t;
    }
    if (ties >= 0)
        judge(t.plans == (ties > MOST_TIES ? MOST_TIES + 1 : ties), "the sheet was made with");
    compare_found(s, most, &t);
    return t;
}
