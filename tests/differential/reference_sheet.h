/* The hall sheet of document 01, which the reference's search and its writer of WCNF text read. */
#ifndef REFERENCE_SHEET_H
#define REFERENCE_SHEET_H

#include <stdbool.h>
#include <stddef.h>
#include <stdint.h>

/* What a sheet says. */
struct hall {
    int32_t devices;
    const int32_t *cost; /* cost[v] for device v; before them, at 0, stands the device count */
    int32_t rules;
    const int32_t *rule[2000]; /* of each rule: at 0 the width, from 1 on the entries */
    bool has_both[2000];       /* of each rule: whether it holds both entries of one device */
    int both_rules;            /* how many rules do, of those read so far */
};

/* How far the sheet has been read, the number of the rule at hand, and the first fault. */
struct reader {
    const int32_t *word;
    size_t words, next;
    int rule;
    int code;
    size_t place;
};

/* Reads the whole sheet; false at its first fault, which the reader then has. 16 is no fault of the sheet. */
bool read_sheet(struct reader *r, struct hall *s);

/* The numbers of the fault that was found: its code, its place and, for 19, its rule. Returns how many they are. */
int refusal_numbers(const struct reader *r, uint64_t *number);

#endif
