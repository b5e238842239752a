/*
 * Compares the library with the reference: on sheets and files with known answers, WCNF texts and ties, the documents' and our own, and on
 * sheets, texts and DIMACS CNF files made from a seed.
 *
 *   compare [SEED [SHEETS]]
 *
 * An accepted sheet is called again with the budget that its walk needs and with one less, and without the rules that name both
 * positions of a device. Then the sheet is typed as text, sometimes damaged, and what leastplan_answer prints is compared with what the
 * reference reads, finds and prints. Files are a third as many as sheets; each is read into several rooms, what leastplan_cnf_answer
 * prints is compared too, and so is the search of what was read. Every other sheet, good or damaged, is written as WCNF text in both
 * editions, each into several rooms. A quarter as many sheets again, half of them made to have ties, are listed in several rooms and under
 * several budgets.
 */
#include "both.h"
#include "calls.h"
#include "demands.h"
#include "draw.h"
#include "file_calls.h"
#include "files.h"
#include "known.h"
#include "known_files.h"
#include "known_ties.h"
#include "known_wcnf.h"
#include "seen.h"
#include "tied.h"
#include "ties_calls.h"
#include "wcnf_calls.h"

#include <stdio.h>
#include <stdlib.h>
#include <string.h>

/* 02, request 3: "From now on every plan meets such a rule": so the sheet without these rules has the same answer, plan and count. */
static void compare_without_both(const struct sheet *s, uint32_t budget, const struct reference_answer *a)
{
    static struct sheet without;
    without_both(s, &without);
    struct reference_answer b = compare(&without, budget);
    tally.as_without_both++;
    if (b.both_rules == 0 && b.numbers == a->numbers && memcmp(b.number, a->number, (size_t)b.numbers * sizeof b.number[0]) == 0 &&
        b.devices == a->devices && memcmp(b.plan, a->plan, (size_t)b.devices) == 0)
        tally.passed++;
    else {
        tally.failed++;
        puts("FAILED: the reference answers otherwise without the rules that name both positions");
    }
}

/* A sheet under several budgets. */
static void compare_sheet(const struct sheet *s, uint32_t most)
{
    struct reference_answer a = compare(s, most);
    if (one_in(8)) {
        compare(s, 0);
        tally.budget_0++;
    }
    if (a.number[0] > 2)
        return;
    tally.accepted++;
    look_at(s);
    if (a.both_rules > 0)
        compare_without_both(s, most, &a);
    if (a.number[0] == 2)
        return;
    uint32_t needed = (uint32_t)a.number[a.numbers - 1];
    compare(s, needed);
    compare(s, needed - 1);
    tally.exact_budget++;
    if (one_in(8))
        compare(s, UINT32_MAX);
    if (one_in(8))
        compare(s, (uint32_t)below((int)needed));
}

static void damage_some(struct sheet *s)
{
    do
        damage_sheet(s);
    while (one_in(3));
}

static void good_or_damaged(struct sheet *s)
{
    int how = below(20);
    if (how == 0)
        random_words(s);
    else
        any_sheet(s);
    if (how >= 1 && how <= 7)
        damage_some(s);
}

/* The budget for a sheet: the reference is slow. */
static uint32_t nodes_for(const struct sheet *s)
{
    return s->words > 2000 ? 40 : s->devices > 40 ? 400 : 2000;
}

static void compare_all(unsigned long sheets)
{
    static struct sheet s;
    static struct text t;
    for (unsigned long i = 0; i < sheets; i++) {
        good_or_damaged(&s);
        uint32_t most = nodes_for(&s);
        compare_sheet(&s, most);
        if (i % 2 == 0)
            compare_writings(&s);
        text_of(&s, &t);
        if (one_in(3))
            do
                damage_text(&t);
            while (one_in(3));
        compare_text(&t, most);
    }
}

static void compare_files(unsigned long files)
{
    static struct sheet s;
    static struct text t;
    for (unsigned long i = 0; i < files; i++) {
        if (any_file(&s, &t))
            compare_with_sheet(&t, &s);
        compare_rooms(&t);
        compare_file(&t, t.bytes > 8000 ? 40 : 1000);
    }
}

/* A sheet made to have ties, so many of them where that is known. */
static void compare_tied(void)
{
    static struct sheet s;
    int how = below(20), ties = -1;
    enum product product = PRODUCTS;
    if (how < 4)
        ties = at_least_sheet(&s);
    else if (how < 9) {
        product = (enum product)below(PRODUCTS);
        ties = product_sheet(&s, product);
    } else
        tied_sheet(&s);
    if (how >= 9 && how < 12)
        damage_some(&s);
    struct reference_ties t = compare_lists(&s, 2000, ties);
    tally.made_with_257 += ties == 257 && t.plans > MOST_TIES;
    tally.made_with_more_first += product == LOWERED_TIES && t.plans == ties;
}

static void compare_ties(unsigned long sheets)
{
    static struct sheet s;
    for (unsigned long i = 0; i < sheets / 2; i++) {
        good_or_damaged(&s);
        compare_lists(&s, nodes_for(&s), -1);
        compare_tied();
    }
}

static void compare_long_text(int rules, int both)
{
    static struct sheet s;
    static struct text t;
    doubling_sheet(&s, rules, both);
    text_of(&s, &t);
    compare_text(&t, BUDGET);
}

/* Half a million nodes, and more than the program's budget. */
static void compare_long_walks(void)
{
    static struct sheet s;
    static struct text t;
    compare_long_text(18, 0);
    compare_long_text(18, 1);
    compare_long_text(19, 1);
    doubling_sheet(&s, 19, 1);
    file_of(&s, &t);
    compare_file(&t, BUDGET);
    doubling_sheet(&s, 18, 0);
    compare_list(&s, BUDGET, LONGEST_TIES_ROOM, NULL);
}

int main(int argc, char **argv)
{
    uint64_t seed = argc > 1 ? strtoull(argv[1], NULL, 10) : 1;
    unsigned long sheets = argc > 2 ? strtoul(argv[2], NULL, 10) : 120000, passed, failed;

    draw_from(seed);
    make_memory();
    known_sheets();
    known_files();
    known_wcnf();
    known_ties();
    passed = tally.passed, failed = tally.failed;
    tally = (struct tally){.passed = passed, .failed = failed}; /* what is demanded has to come from the seed */
    compare_all(sheets);
    compare_files(sheets / 3);
    compare_ties(sheets / 4);
    compare_long_walks();

    printf("seed %llu, %lu sheets, %lu searches\n", (unsigned long long)seed, sheets, tally.searches);
    demand_all(sheets);
    printf("%lu passed, %lu failed\n", tally.passed, tally.failed);
    return tally.failed != 0;
}
