/*
 * Time per opened node of the proved walk, of the walk in C and of the walk in C as it was before request 3 of document 02, in turn in
 * one program.
 *
 *   measure sheets    a table of seven sheets, and what a call takes besides its nodes
 *   measure growth    lines KIND SIZE OURS C, in nanoseconds per node, for sheets with more and more rules or devices
 *
 * Each figure is the best of several runs by the processor's clock. The first two have to give the same answer, and the third too
 * where no rule names both positions of a device: where one does, it opens other nodes, so that its figure is of another walk.
 */
#define _POSIX_C_SOURCE 199309L
#include "../include/leastplan.h"
#include "walk.h"
#include "clock.h"

#include <stdio.h>
#include <stdlib.h>
#include <string.h>

typedef void search(const int32_t *, size_t, uint32_t, uint8_t *, size_t, uint64_t[4]);

enum { RUNS = 5 };

/* ---- sheets, from a seed: xorshift64* */

static uint64_t state;
static int32_t words[16384];
static size_t count;

static uint32_t below(uint32_t n)
{
    state ^= state >> 12;
    state ^= state << 25;
    state ^= state >> 27;
    return (uint32_t)((state * UINT64_C(2685821657736338717) >> 33) % n);
}

static void put(int32_t w)
{
    if (count == sizeof words / sizeof words[0]) {
        puts("a sheet has more than 16,384 words");
        exit(1);
    }
    words[count++] = w;
}

static int32_t either(uint32_t v)
{
    return below(2) ? (int32_t)v : -(int32_t)v;
}

static void begin(int devices, int rules, uint32_t costs)
{
    state = UINT64_C(0x9e3779b97f4a7c15);
    count = 0;
    put(devices);
    for (int v = 0; v < devices; v++)
        put(1 + (int32_t)below(costs));
    put(rules);
}

static void put_random_rule(int devices, int width)
{
    put(width);
    for (int j = 0; j < width; j++)
        put(either(1 + below((uint32_t)devices)));
}

/* Rules of one width, with devices and positions drawn at random. Wide ones name both positions of a device more often than not. */
static void random_sheet(int devices, int rules, int width)
{
    begin(devices, rules, 1000);
    for (int r = 0; r < rules; r++)
        put_random_rule(devices, width);
}

/* The same, but every other rule, from the first on, names both positions of a device: its last entry is the other one of its first. */
static void both_sheet(int devices, int rules, int width)
{
    random_sheet(devices, rules, width);
    for (size_t at = (size_t)devices + 2; at < count; at += 2 * (1 + (size_t)width))
        words[at + (size_t)width] = -words[at + 1];
}

/* As large as a sheet may be: 200 devices, 2,000 rules, 16,384 words. */
static void largest_sheet(void)
{
    begin(200, 2000, 1000);
    for (int r = 0; r < 2000; r++)
        put_random_rule(200, r < 182 ? 8 : 7);
}

/*
 * The first half of the devices, at most 40, is held at 1 by rules of width 1. The rules behind them are met by their last entry
 * alone, so that every node below tests every entry of them; but where a rule has its last entry's device among the others too, it
 * names both positions. Forty rules of width 4 over the other devices, all of one cost, make the walk long.
 */
static void late_sheet(int devices, int rules, int width)
{
    int held = devices / 2 < 40 ? devices / 2 : 40, tail = 40;
    begin(devices, rules, 1);
    for (int v = 1; v <= held; v++) {
        put(1);
        put(v);
    }
    for (int r = held; r < rules - tail; r++) {
        put(width);
        for (int j = 1; j < width; j++)
            put(-(1 + (int32_t)below((uint32_t)held)));
        put(1 + (int32_t)below((uint32_t)held));
    }
    for (int r = 0; r < tail; r++) {
        put(4);
        for (int j = 0; j < 4; j++)
            put(either((uint32_t)held + 1 + below((uint32_t)(devices - held))));
    }
}

/* ---- measuring */

struct answer {
    uint8_t room[200];
    uint64_t numbers[4];
};

/* Nanoseconds per opened node, over as many calls as open so many nodes. */
static double per_node(search *f, uint32_t budget, uint64_t nodes, struct answer *a)
{
    uint64_t opened = 0;
    memset(a, 0, sizeof *a);
    double start = now();
    do {
        f(words, count, budget, a->room, sizeof a->room, a->numbers);
        opened += a->numbers[0] == 0 ? a->numbers[3] : a->numbers[1];
    } while (opened < nodes);
    return (now() - start) / (double)opened;
}

static int names_both(void)
{
    for (size_t at = (size_t)words[0] + 2; at < count; at += 1 + (size_t)words[at])
        for (int j = 1; j <= words[at]; j++)
            for (int k = 1; k < j; k++)
                if (words[at + (size_t)j] == -words[at + (size_t)k])
                    return 1;
    return 0;
}

struct figures {
    double ours, c, before;
    struct answer answer;
};

/* The least so far of the nanoseconds per node. */
static void time_walk(search *f, uint32_t budget, uint64_t nodes, struct answer *a, double *least)
{
    double t = per_node(f, budget, nodes, a);
    if (t < *least)
        *least = t;
}

static struct figures measure(uint32_t budget, uint64_t nodes)
{
    struct figures f = {1e30, 1e30, 1e30, {{0}, {0}}};
    for (int i = 0; i < RUNS; i++) {
        struct answer c, before;
        time_walk(leastplan_search, budget, nodes, &f.answer, &f.ours);
        time_walk(walk_search, budget, nodes, &c, &f.c);
        time_walk(walk_search_before, budget, nodes, &before, &f.before);
        if (memcmp(&f.answer, &c, sizeof c) != 0 || (!names_both() && memcmp(&c, &before, sizeof c) != 0)) {
            puts("the walks differ");
            exit(1);
        }
    }
    return f;
}

static void row(const char *name, uint32_t budget)
{
    static const char *const meaning[] = {"least", "none", "spent"};
    struct figures f = measure(budget, budget / 2);
    uint64_t *numbers = f.answer.numbers;
    printf("%-36s %-6s %9llu %12.0f %12.0f %7.3f %12.0f\n", name, numbers[0] < 3 ? meaning[numbers[0]] : "refused",
           (unsigned long long)(numbers[0] == 0 ? numbers[3] : numbers[1]), 1e9 / f.ours, 1e9 / f.c, f.c / f.ours, 1e9 / f.before);
    fflush(stdout);
}

/* What a call takes that reads and codes the sheet, leaves rules out, and opens one node. */
static void call(const char *name)
{
    struct figures f = measure(1, 500);
    printf("a call that opens one node, %s: %.1f microseconds, in C %.1f, before %.1f\n", name, f.ours / 1e3, f.c / 1e3, f.before / 1e3);
    fflush(stdout);
}

static void sheets(void)
{
    static const struct {
        const char *name;
        void (*make)(int devices, int rules, int width);
        int devices, rules, width;
        uint32_t budget;
    } sheet[] = {
        {"30 devices, 60 rules of width 3", random_sheet, 30, 60, 3, 1000000},
        {"200 devices, 1,500 rules of width 3", random_sheet, 200, 1500, 3, 300000},
        {"200 devices, 100 rules of width 32", random_sheet, 200, 100, 32, 300000},
        {"200 devices, 130 rules, met late", late_sheet, 200, 130, 32, 200000},
        {"20 devices, 40 rules, to the end", random_sheet, 20, 40, 3, 300000},
        {"12 devices, 30 rules, to the end", random_sheet, 12, 30, 3, 500000},
        {"1,500 rules, every other names both", both_sheet, 200, 1500, 3, 300000},
    };
    printf("%-36s %-6s %9s %12s %12s %7s %12s\n", "sheet", "answer", "nodes", "ours, /s", "C, /s", "ours/C", "before, /s");
    for (size_t i = 0; i < sizeof sheet / sizeof sheet[0]; i++) {
        sheet[i].make(sheet[i].devices, sheet[i].rules, sheet[i].width);
        row(sheet[i].name, sheet[i].budget);
    }
    random_sheet(12, 30, 3);
    call("12 devices, 30 rules");
    largest_sheet();
    call("16,384 words, 2,000 rules");
}

static void point(const char *kind, int size)
{
    struct figures f = measure(8000, 8000);
    printf("%s %d %.2f %.2f\n", kind, size, f.ours, f.c);
    fflush(stdout);
}

static void growth(void)
{
    for (int rules = 250; rules <= 2000; rules += 250) {
        late_sheet(200, rules, 3);
        point("rules", rules);
    }
    for (int devices = 25; devices <= 200; devices += 25) {
        late_sheet(devices, 1000, 3);
        point("devices", devices);
    }
}

int main(int argc, char **argv)
{
    if (argc == 2 && strcmp(argv[1], "growth") == 0)
        growth();
    else
        sheets();
    return 0;
}
