/*
 * Time per byte of reading a DIMACS CNF file, by leastplan_cnf_read and by the reader of tests/differential/reference_cnf.c, in turn in
 * one program: files of 15,000, 30,000 and 60,000 bytes of one making. Where the time is linear in the text, the nanoseconds per byte
 * stay the same from row to row. The reference is written to be plain, not fast.
 *
 * Each figure is the least of several calls by the processor's clock. Both readers have to give the same sheet.
 */
#define _POSIX_C_SOURCE 199309L
#include "../include/leastplan.h"
#include "../tests/differential/draw.h"
#include "../tests/differential/reference.h"
#include "clock.h"

#include <stdio.h>
#include <stdlib.h>
#include <string.h>

enum { CALLS = 40, MOST_BYTES = 60000, MOST_WORDS = 16384, WIDTH = 30, CLAUSE_BYTES = 5 * WIDTH + 2 };

static char text[MOST_BYTES + 1];

/* 200 variables, and clauses of one width, one on a line, as many as fit; blanks behind the last one up to the length. */
static void make_file(size_t length)
{
    char header[20];
    int clauses = 0;
    size_t bytes = strlen("p cnf 200 0000\n");
    draw_from(1);
    while (bytes + CLAUSE_BYTES <= length) {
        for (int j = 0; j < WIDTH; j++)
            bytes += (size_t)sprintf(text + bytes, "%d ", one_in(2) ? from_to(1, 200) : -from_to(1, 200));
        bytes += (size_t)sprintf(text + bytes, "0\n");
        clauses++;
    }
    memset(text + bytes, ' ', length - bytes);
    memcpy(text, header, (size_t)snprintf(header, sizeof header, "p cnf 200 %04d\n", clauses));
}

struct reading {
    uint64_t numbers[4];
    int32_t room[MOST_WORDS];
};

static void read_by_reference(size_t length, struct reading *r)
{
    struct reference_cnf said = reference_cnf_read((const unsigned char *)text, length, r->room, MOST_WORDS);
    memcpy(r->numbers, said.number, (size_t)said.numbers * sizeof said.number[0]);
}

static void read_by_library(size_t length, struct reading *r)
{
    leastplan_cnf_read((const uint8_t *)text, length, r->room, MOST_WORDS, r->numbers);
}

/* The nanoseconds of one call, where they are fewer than the least so far. */
static void time_call(void (*reader)(size_t, struct reading *), size_t length, struct reading *r, double *least)
{
    double start = now();
    reader(length, r);
    double taken = now() - start;
    if (taken < *least)
        *least = taken;
}

static void row(size_t length)
{
    static struct reading ours, c;
    double least_ours = 1e30, least_c = 1e30, bytes = (double)length;
    make_file(length);
    for (int i = 0; i < CALLS; i++) {
        time_call(read_by_library, length, &ours, &least_ours);
        time_call(read_by_reference, length, &c, &least_c);
    }
    if (ours.numbers[0] != 0 || memcmp(&ours, &c, sizeof ours) != 0) {
        puts("a file is refused, or the two readers differ");
        exit(1);
    }
    printf("%zu bytes%-25s %16llu %13.2f %13.2f %7.3f\n", length, ", clauses of width 30", (unsigned long long)ours.numbers[1], least_ours / bytes,
           least_c / bytes, least_c / least_ours);
}

int main(void)
{
    printf("%-36s %16s %13s %13s %7s\n", "file", "words", "ours, ns/byte", "C, ns/byte", "ours/C");
    row(15000);
    row(30000);
    row(60000);
    return 0;
}
