/* The answers of document 01, with requests 1 to 5 of document 02, by the reference. */
#ifndef REFERENCE_H
#define REFERENCE_H

#include <stddef.h>
#include <stdint.h>

/* The answer to a hall sheet. */
struct reference_answer {
    uint64_t number[4];      /* the code, then what is returned, in the order of the document's table */
    int numbers;             /* how many of them there are: 4 for code 0, 3 for 19, else 2 */
    int devices;             /* code 0: the length of the plan; else 0 */
    unsigned char plan[200]; /* code 0: 0 free, 1 held at 1, 2 held at 0 */
    /* of a search: how often two plans of equal cost were told apart by the held number, and by the marks */
    uint64_t by_number, by_marks;
    uint64_t ties_lowered; /* of a search: how often a lower cost or number was found after plans that tied */
    int both_rules; /* of the rules that were read whole: how many hold both entries of one device */
};

/* A sheet of so many words, under a budget, with a plan room of so many bytes. */
struct reference_answer reference(const int32_t *word, size_t words, uint32_t budget, size_t room);

/* What the reader of typed text comes to. */
struct reference_reading {
    int code;     /* 0, or 21 to 24 */
    size_t place; /* of a refusal */
    size_t words; /* code 0: how many words there are */
};

/* Reads a text of so many bytes into a room for so many words, which a refusal leaves unchanged. */
struct reference_reading reference_read(const unsigned char *text, size_t length, int32_t *word, size_t room);

/* What the reader of DIMACS CNF files comes to. */
struct reference_cnf {
    uint64_t number[3]; /* 0 and the sheet's length; or a refusal's code, its place and, for 19, its clause */
    int numbers;        /* how many of them there are */
};

/* Reads a file of so many bytes into a room for so many words, which a refusal leaves unchanged. */
struct reference_cnf reference_cnf_read(const unsigned char *text, size_t length, int32_t *word, size_t room);

/* What the writer of WCNF text comes to. */
struct reference_wcnf {
    uint64_t number[3]; /* 0 and the text's length; or a refusal's code, its place and, for 19, its rule */
    int numbers;        /* how many of them there are */
    int both_rules;     /* of an accepted sheet: how many rules hold both entries of one device, so that they are left out */
};

/* Writes the text of a sheet into a room for so many bytes, which a refusal leaves unchanged: edition 0 is that from 2022, all others before. */
struct reference_wcnf reference_wcnf_write(const int32_t *word, size_t words, uint32_t edition, unsigned char *text, size_t room);

/* What the list of ties comes to. */
struct reference_ties {
    uint64_t number[5]; /* 0, cost, devices held, number of plans, nodes opened; else the code, then what is returned, as of a search */
    int numbers;        /* how many of them there are: 5 for code 0, 3 for 19, else 2 */
    /* codes 0 and 51: how many plans tie, 257 for all numbers beyond 256; the bytes that so many need; the nodes opened */
    int plans;
    size_t bytes;
    uint32_t opened;
    int again, earlier;    /* of the plans that tie: how many were met once more, how many behind one that they come before */
    uint64_t ties_lowered; /* as of the search */
    int both_rules;
};

/* Lists the ties of a sheet under a budget, in a room of so many bytes, which all codes but 0 leave unchanged. */
struct reference_ties reference_ties_list(const int32_t *word, size_t words, uint32_t budget, unsigned char *room, size_t bytes);

/* The same list for a sheet that has a least plan, by trying every plan: for a few devices. At most 256 plans are written. */
int reference_ties_tried(const int32_t *word, size_t words, unsigned char *room);

/* What leastplan and cnfplan print for an answer, or for a refusal (its numbers as the answer's); returns the number of bytes. */
size_t reference_print(const struct reference_answer *a, char *to);

#endif
