/* Calls of the library, each compared with the reference, and what was counted of them and of those of file_calls.h, wcnf_calls.h and ties_calls.h. */
#ifndef CALLS_H
#define CALLS_H

#include "reference.h"
#include "sheets.h"
#include "texts.h"

enum { BUDGET = 1000000 }; /* the program's */

struct tally {
    unsigned long passed, failed;
    unsigned long searches, by_code[20], later_rule, by_number, by_marks;
    unsigned long accepted, exact_budget, budget_0, as_without_both;
    unsigned long texts, by_printed[25], left_out;
    unsigned long readings, by_reading[34], later_clause, beyond_limit, exact_room, room_of_0, read_back;
    unsigned long files, by_file[34], files_left_out;
    /* those of a sheet, text or file in which a rule names both positions of a device */
    unsigned long both_by_code[20], both_exact_room, both_by_printed[25], both_by_file[34], both_file_spent;
    /* writings of WCNF text: from 2022 and before, each by its code */
    unsigned long writings, by_writing[2][42], writing_of_later_rule, other_edition, refused_without_room;
    unsigned long exact_text_room, text_room_one_short, no_text_room, long_text_room, without_bytes, with_rules_left_out;
    /* lists of ties: by code; of code 0, what was listed and in which room; of code 51, what was too much for which room; the budgets */
    unsigned long lists, by_list[52], list_of_later_rule, list_without_room;
    unsigned long one_tie, several_ties, ties_256, ties_without_bytes, ties_again, ties_earlier, ties_lowered, ties_with_both;
    unsigned long exact_ties_room, long_ties_room;
    unsigned long too_many_ties, ties_room_one_short, ties_room_below_plan, no_ties_room;
    unsigned long exact_lists, spent_before_51, lists_tried, made_with_257, made_with_more_first;
};

extern struct tally tally;

void make_memory(void); /* before the first call */
unsigned char *lend(const void *from, size_t bytes); /* a copy that ends where readable memory ends, until the next one */

/* Before a call: a room, with what lies around it, and lent numbers as no call leaves them. */
void mark_room(unsigned char *room, size_t bytes);
void mark_numbers(uint64_t *numbers, int count);

/* What the reference says of a row of known answers. */
void judge_known(int right, const char *kind, size_t row);

/* The end of a line on a call that failed: the numbers expected, all those of the lent array, and the sheet. */
void show_numbers(const struct sheet *s, const uint64_t *expected, int numbers, const uint64_t *got, int lent);

struct reference_answer compare(const struct sheet *s, uint32_t budget);

/* A call from a text to what is printed, compared with the printed answer. */
typedef size_t printing_call(const uint8_t *text, size_t text_len, uint8_t out[1024]);
void compare_printed(const struct text *t, const struct reference_answer *a, printing_call *call);

/* A text that spends a budget of `most` nodes, smaller than the program's, is left out: the reference is slow. */
void compare_text(const struct text *t, uint32_t most);

#endif
