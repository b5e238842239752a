/*
 * Time per opened node of the list of ties, by leastplan_ties and by the walk in C of walk_ties.c, in turn in one program; and of
 * leastplan_search on the same sheets, so that it is seen what the list takes beside the walk.
 *
 * One sheet has far more than 256 ties: they are kept until they are too many, and the walk goes on. In the others 252 plans tie, five of
 * ten devices each, and each is opened by about thirty routes: so that it is compared with those kept. The ten devices are all there are,
 * or the last of 200.
 *
 * Each figure is the best of several runs by the processor's clock. Both lists have to be the same.
 */
#define _POSIX_C_SOURCE 199309L
#include "../include/leastplan.h"
#include "walk.h"
#include "clock.h"

#include <stdio.h>
#include <stdlib.h>
#include <string.h>

enum { RUNS = 5, BUDGET = 1000000, NODES = 100000, ROOM = 51200 };

/* ---- sheets */

static int32_t words[16384];
static size_t count;

static void put(int32_t w)
{
    words[count++] = w;
}

static void begin(int devices, int rules)
{
    count = 0;
    put(devices);
    for (int v = 0; v < devices; v++)
        put(1);
    put(rules);
}

/* Rules without a common device: as many ties as the width to the power of the rules. */
static void product_sheet(int rules, int width)
{
    begin(rules * width, rules);
    for (int r = 0; r < rules; r++) {
        put(width);
        for (int j = 1; j <= width; j++)
            put(r * width + j);
    }
}

/* A rule for each six of the last ten devices: whoever holds five of them meets every rule. */
static void five_of_ten_sheet(int devices)
{
    begin(devices, 210);
    for (unsigned chosen = 0; chosen < 1024; chosen++) {
        int ones = 0;
        for (int i = 0; i < 10; i++)
            ones += chosen >> i & 1;
        if (ones != 6)
            continue;
        put(6);
        for (int i = 0; i < 10; i++)
            if (chosen >> i & 1)
                put(devices - 9 + i);
    }
}

/* ---- measuring */

struct answer {
    uint8_t room[ROOM];
    uint64_t numbers[5];
};

static void list_by_library(struct answer *a)
{
    leastplan_ties(words, count, BUDGET, a->room, ROOM, a->numbers);
}

static void list_in_c(struct answer *a)
{
    walk_ties(words, count, BUDGET, a->room, ROOM, a->numbers);
}

static void search(struct answer *a)
{
    leastplan_search(words, count, BUDGET, a->room, ROOM, a->numbers);
}

/* The least so far of the nanoseconds per node, of which one call opens so many. */
static void time_calls(void (*call)(struct answer *), uint64_t nodes, struct answer *a, double *least)
{
    uint64_t opened = 0;
    memset(a, 0, sizeof *a);
    double start = now();
    do {
        call(a);
        opened += nodes;
    } while (opened < NODES);
    double taken = (now() - start) / (double)opened;
    if (taken < *least)
        *least = taken;
}

/* So many ties, or with 51 more than are listed. */
static void row(const char *name, uint64_t code, uint64_t ties)
{
    static struct answer ours, c, found;
    double least_ours = 1e30, least_c = 1e30, least_search = 1e30;
    search(&found);
    uint64_t nodes = found.numbers[3];
    for (int i = 0; i < RUNS; i++) {
        time_calls(list_by_library, nodes, &ours, &least_ours);
        time_calls(list_in_c, nodes, &c, &least_c);
        time_calls(search, nodes, &found, &least_search);
        if (found.numbers[0] != 0 || ours.numbers[0] != code || (code == 0 && ours.numbers[3] != ties) || memcmp(&ours, &c, sizeof ours) != 0) {
            puts("a sheet has other ties, or the two lists differ");
            exit(1);
        }
    }
    printf("%-36s %-6s %9llu %12.0f %12.0f %7.3f %12.0f\n", name, code == 0 ? "listed" : "51", (unsigned long long)nodes, 1e9 / least_ours,
           1e9 / least_c, least_c / least_ours, 1e9 / least_search);
    fflush(stdout);
}

int main(void)
{
    printf("%-36s %-6s %9s %12s %12s %7s %12s\n", "ties", "answer", "nodes", "ours, /s", "C, /s", "ours/C", "search, /s");
    product_sheet(5, 14);
    row("70 devices, 5 rules: 537,824 ties", 51, 537824);
    five_of_ten_sheet(10);
    row("10 devices, any 5: 252 ties", 0, 252);
    five_of_ten_sheet(200);
    row("200 devices, any 5 of 10: 252 ties", 0, 252);
    return 0;
}
