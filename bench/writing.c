/*
 * Time per word of writing the WCNF text of a sheet, by leastplan_wcnf_write and by the writer of tests/differential/reference_wcnf.c,
 * in turn in one program: sheets of 4,096, 8,192 and 16,384 words of one making, in each edition. Where the time is linear in the
 * sheet, the nanoseconds per word stay about the same from row to row. The reference is written to be plain, not fast: it compares
 * every two entries of a rule, and goes through the text twice.
 *
 * Each figure is the least of several calls by the processor's clock. Both writers have to give the same text.
 */
#define _POSIX_C_SOURCE 199309L
#include "../include/leastplan.h"
#include "../tests/differential/draw.h"
#include "../tests/differential/reference.h"
#include "clock.h"

#include <stdio.h>
#include <stdlib.h>
#include <string.h>

enum { CALLS = 40, MOST_WORDS = 16384, MOST_BYTES = 98741 };

static int32_t words[MOST_WORDS];
static size_t count;

/*
 * Up to 200 devices at the highest cost and up to 2,000 rules of about seven entries, none of which is left out. The entries' variables
 * have two digits and the top weight has twelve, in a short sheet as in a long one.
 */
static void make_sheet(size_t length)
{
    int devices = (int)(length * 200 / MOST_WORDS), rules = (int)(length * 2000 / MOST_WORDS);
    size_t entries = length - (size_t)devices - 2 - (size_t)rules;
    draw_from(1);
    count = 0;
    words[count++] = devices;
    while (count <= (size_t)devices)
        words[count++] = 1000000000;
    words[count++] = rules;
    for (int r = 0; r < rules; r++) {
        size_t width = (entries + (size_t)(rules - 1 - r)) / (size_t)(rules - r);
        words[count++] = (int32_t)width;
        for (size_t j = 0; j < width; j++)
            words[count++] = from_to(6, 49);
        entries -= width;
    }
}

struct writing {
    uint64_t numbers[4];
    unsigned char text[MOST_BYTES];
};

static void write_by_reference(uint32_t edition, struct writing *w)
{
    struct reference_wcnf said = reference_wcnf_write(words, count, edition, w->text, MOST_BYTES);
    memcpy(w->numbers, said.number, (size_t)said.numbers * sizeof said.number[0]);
}

static void write_by_library(uint32_t edition, struct writing *w)
{
    leastplan_wcnf_write(words, count, edition, w->text, MOST_BYTES, w->numbers);
}

/* The nanoseconds of one call, where they are fewer than the least so far. */
static void time_call(void (*writer)(uint32_t, struct writing *), uint32_t edition, struct writing *w, double *least)
{
    double start = now();
    writer(edition, w);
    double taken = now() - start;
    if (taken < *least)
        *least = taken;
}

static void row(size_t length, uint32_t edition)
{
    static struct writing ours, c;
    double least_ours = 1e30, least_c = 1e30;
    make_sheet(length);
    memset(&ours, 0, sizeof ours);
    memset(&c, 0, sizeof c);
    for (int i = 0; i < CALLS; i++) {
        time_call(write_by_library, edition, &ours, &least_ours);
        time_call(write_by_reference, edition, &c, &least_c);
    }
    if (count != length || ours.numbers[0] != 0 || memcmp(&ours, &c, sizeof ours) != 0) {
        puts("a sheet is refused, or the two writers differ");
        exit(1);
    }
    printf("%6zu words, edition %-17s %16llu %13.2f %13.2f %7.3f\n", length, edition == 0 ? "from 2022" : "before 2022",
           (unsigned long long)ours.numbers[1], least_ours / (double)length, least_c / (double)length, least_c / least_ours);
}

int main(void)
{
    printf("%-36s %16s %13s %13s %7s\n", "sheet", "bytes", "ours, ns/word", "C, ns/word", "ours/C");
    for (uint32_t edition = 0; edition < 2; edition++)
        for (size_t length = MOST_WORDS / 4; length <= MOST_WORDS; length *= 2)
            row(length, edition);
    return 0;
}
