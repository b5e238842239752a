/*
 * Files that show the sentences of requests 2 and 3 of document 02: each with a room, what reading it into that room comes to, and what
 * cnfplan prints for it.
 */
#include "known_files.h"

#include "file_calls.h"

#include <stdio.h>
#include <string.h>

struct row {
    const char *file;
    size_t room;
    int numbers;
    uint64_t number[3];
    const char *printed;
};

#define ENTRIES_32 "1 2 3 4 5 6 7 8 9 10 11 12 13 14 15 16 17 18 19 20 21 22 23 24 25 26 27 28 29 30 31 32 "
#define EIGHT_WORDS "p cnf 2 2\n1 2 0\n0\n"
static const struct row rows[] = {
    /* read */
    {"p cnf 0 0", 2, 2, {0, 2}, "least 0 0 1\nhold\n"},
    {"p cnf 4 3\n1 2 0\n-2 3 0\n-1 4 0\n", 100, 2, {0, 15}, "least 3 3 10\nhold 2 3 4\n"},
    {"p cnf 4 3 1 2 0 -2\n3 0\n\n-1\t4\r\n0", 15, 2, {0, 15}, "least 3 3 10\nhold 2 3 4\n"},
    {"c\n\nc 1\r\n\t p cnf 1 2\r\n1 0\r\n-1 0\r\n", 7, 2, {0, 7}, "none 2\n"},
    {"cnf 1 1\np cnf 0 0", 2, 2, {0, 2}, "least 0 0 1\nhold\n"},
    {"p\ncnf\n1\n1\n1\n0", 5, 2, {0, 5}, "least 1 1 2\nhold 1\n"},
    {"p cnf 002 1\n-0000000002 -0", 6, 2, {0, 6}, "least 1 1 2\nhold -2\n"},
    {"p cnf 1 2 1 00 -0", 6, 2, {0, 6}, "none 2\n"},
    {"p cnf -0 00", 2, 2, {0, 2}, "least 0 0 1\nhold\n"},
    {"p cnf 33 2\n0\n" ENTRIES_32 "0", 69, 2, {0, 69}, "none 1\n"},
    /* the header */
    {"", 9, 2, {31, 0}, "refused 31 0\n"},
    {"c only a comment", 9, 2, {31, 16}, "refused 31 16\n"},
    {"c\rp cnf 0 0", 9, 2, {31, 11}, "refused 31 11\n"},
    {" c\np cnf 0 0", 9, 2, {31, 1}, "refused 31 1\n"},
    {"P cnf 0 0", 9, 2, {31, 0}, "refused 31 0\n"},
    {"pcnf 0 0", 9, 2, {31, 0}, "refused 31 0\n"},
    {"p CNF 0 0", 9, 2, {31, 2}, "refused 31 2\n"},
    {"p cnf0 0", 9, 2, {31, 2}, "refused 31 2\n"},
    {"p\nc\ncnf 0 0", 9, 2, {31, 2}, "refused 31 2\n"},
    {"%\np cnf 0 0", 9, 2, {31, 0}, "refused 31 0\n"},
    {"p", 9, 2, {31, 1}, "refused 31 1\n"},
    {"p cnf\n", 9, 2, {31, 6}, "refused 31 6\n"},
    {"p cnf 1", 9, 2, {31, 7}, "refused 31 7\n"},
    {"p cnf 201 0", 0, 2, {12, 6}, "refused 12 6\n"},
    {"p cnf -1 0", 9, 2, {12, 6}, "refused 12 6\n"},
    {"p cnf 0 2001", 1, 2, {18, 8}, "refused 18 8\n"},
    {"p cnf 0 -1", 9, 2, {18, 8}, "refused 18 8\n"},
    /* numbers */
    {"p cnf\nc\n1 1", 9, 2, {21, 6}, "refused 21 6\n"},
    {"p cnf +1 0", 9, 2, {21, 6}, "refused 21 6\n"},
    {"p cnf 0 -", 9, 2, {21, 9}, "refused 21 9\n"},
    {"p cnf 00000000000 0", 9, 2, {22, 6}, "refused 22 6\n"},
    {"p cnf 2147483648 0", 9, 2, {22, 6}, "refused 22 6\n"},
    {"p cnf 2147483647 0", 9, 2, {12, 6}, "refused 12 6\n"},
    {"p cnf 1 1\n1 0\n%\n0\n", 9, 2, {21, 14}, "refused 21 14\n"},
    {"p cnf 1 1\n1 % 0\n", 9, 2, {21, 12}, "refused 21 12\n"},
    {"p cnf 1 1\n1 0 99999999999", 9, 2, {22, 14}, "refused 22 14\n"},
    /* clauses */
    {"p cnf 1 1\n1 0\n0\n", 9, 2, {33, 14}, "refused 33 14\n"},
    {"p cnf 1 1\n1 0\n5\n", 9, 2, {33, 14}, "refused 33 14\n"},
    {"p cnf 0 0 -0", 9, 2, {33, 10}, "refused 33 10\n"},
    {"p cnf 1 1\n2 0\n", 9, 2, {14, 10}, "refused 14 10\n"},
    {"p cnf 0 1\n-1 0\n", 2, 2, {14, 10}, "refused 14 10\n"},
    {"p cnf 33 1\n" ENTRIES_32 "33 0", 99, 3, {19, 98, 1}, "refused 19 98 1\n"},
    {"p cnf 33 2\n0\n" ENTRIES_32 "33 0", 69, 3, {19, 100, 2}, "refused 19 100 2\n"},
    {"p cnf 33 2\n0\n" ENTRIES_32 "34 0", 99, 2, {14, 100}, "refused 14 100\n"},
    {"p cnf 1 1", 9, 2, {32, 9}, "refused 32 9\n"},
    {"p cnf 1 1\n1", 9, 2, {32, 11}, "refused 32 11\n"},
    {"p cnf 1 2\n1 0\n", 9, 2, {32, 14}, "refused 32 14\n"},
    /* the room */
    {EIGHT_WORDS, 8, 2, {0, 8}, "none 3\n"},
    {EIGHT_WORDS, 7, 2, {24, 16}, "none 3\n"},
    {EIGHT_WORDS, 6, 2, {24, 12}, "none 3\n"},
    {EIGHT_WORDS, 5, 2, {24, 10}, "none 3\n"},
    {EIGHT_WORDS, 4, 2, {24, 10}, "none 3\n"},
    {EIGHT_WORDS, 3, 2, {24, 8}, "none 3\n"},
    {EIGHT_WORDS, 2, 2, {24, 6}, "none 3\n"},
    {EIGHT_WORDS, 0, 2, {24, 6}, "none 3\n"},
    /* a clause that names both positions of a variable */
    {"p cnf 1 1\n1 -1 0\n", 6, 2, {0, 6}, "least 0 0 1\nhold\n"},
    {"p cnf 1 1\n1 -1 0\n", 5, 2, {24, 12}, "least 0 0 1\nhold\n"},
    {"p cnf 2 2\n1 -1 0\n2 0\n", 9, 2, {0, 9}, "least 1 1 2\nhold 2\n"},
    {"p cnf 2 2\n2 0\n-1 -1 1 1 0\n", 11, 2, {0, 11}, "least 1 1 2\nhold 2\n"},
    {"p cnf 2 1\n0001\n2\n-01 00", 8, 2, {0, 8}, "least 0 0 1\nhold\n"},
    {"p cnf 1 2 1 -1 0 -1 0", 8, 2, {0, 8}, "least 1 1 2\nhold -1\n"},
    {"p cnf 1 2\n-1 1 -1 0\n0\n", 8, 2, {0, 8}, "none 1\n"},
    {"p cnf 1 3\n1 -1 0\n1 0\n-1 0\n", 10, 2, {0, 10}, "none 2\n"},
    {"p cnf 33 2\n-32 " ENTRIES_32 "0\n0", 99, 3, {19, 99, 1}, "refused 19 99 1\n"},
};

void known_files(void)
{
    static struct text t;
    size_t count = sizeof rows / sizeof rows[0];
    for (size_t i = 0; i < count; i++) {
        const struct row *r = &rows[i];
        char printed[4096];
        t.bytes = strlen(r->file);
        memcpy(t.byte, r->file, t.bytes);
        struct reference_cnf read = compare_reading(&t, r->room);
        struct reference_answer a = compare_file(&t, BUDGET);
        printed[reference_print(&a, printed)] = 0;
        if (read.numbers == r->numbers && memcmp(read.number, r->number, (size_t)r->numbers * sizeof r->number[0]) == 0 &&
            strcmp(printed, r->printed) == 0)
            tally.passed++;
        else {
            tally.failed++;
            printf("FAILED: the reference on known file %zu\n", i + 1);
        }
    }
    printf("%zu files with known answers\n", count);
}
