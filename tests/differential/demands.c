/* What has to have come up in the comparison, and how often: the kinds of sheets, texts, files, rooms and answers. */
#include "demands.h"

#include "calls.h"
#include "seen.h"

#include <stdio.h>

enum { LEAST_OF_EACH = 500 };

static const char *const meaning[52] = {"least", "none", "spent", [11] = "refused 11", "refused 12", "refused 13", "refused 14", "refused 15", "refused 16",
                                        "refused 17", "refused 18", "refused 19", [21] = "refused 21", "refused 22", "refused 23", "refused 24",
                                        [31] = "refused 31", "refused 32", "refused 33", [41] = "refused 41", [51] = "refused 51"};

static void demand(const char *what, unsigned long count, unsigned long least)
{
    printf("%10lu  %s\n", count, what);
    if (count >= least)
        tally.passed++;
    else {
        tally.failed++;
        printf("FAILED: fewer than %lu\n", least);
    }
}

/* The answers of request 3: to sheets, texts or files in which a rule names both positions of a device. */
static void demand_both(const char *to, const unsigned long *by_code, unsigned long least_spent)
{
    char what[80];
    for (int code = 0; code <= 2; code++) {
        snprintf(what, sizeof what, "%s, to a %s with both positions of a device in a rule", meaning[code], to);
        demand(what, by_code[code], code == 2 ? least_spent : LEAST_OF_EACH);
    }
}

static void demand_both_sheets(void)
{
    demand("accepted with both positions of a device in a rule", seen.with_both, LEAST_OF_EACH);
    demand("of them in the first rule", seen.both_in_first, LEAST_OF_EACH);
    demand("in the last rule", seen.both_in_last, LEAST_OF_EACH);
    demand("in every rule", seen.both_in_all, LEAST_OF_EACH);
    demand("in the only rule", seen.both_in_only, LEAST_OF_EACH);
    demand("in a rule of width 32", seen.both_in_wide, LEAST_OF_EACH);
    demand("in a rule with a repeated entry", seen.both_with_repeat, LEAST_OF_EACH);
    demand("in a rule with a device that a rule of one entry before it holds", seen.both_with_held, LEAST_OF_EACH);
    demand("in a sheet with an empty rule", seen.both_with_empty, LEAST_OF_EACH);
    demand("answered as the sheet without these rules", tally.as_without_both, LEAST_OF_EACH);
    demand_both("sheet", tally.both_by_code, LEAST_OF_EACH);
    demand("searches of such a sheet with a plan room exactly long enough", tally.both_exact_room, LEAST_OF_EACH);
    demand("refused 16, of such a sheet", tally.both_by_code[16], LEAST_OF_EACH);
}

static void demand_sheets(unsigned long sheets)
{
    demand("sheets", sheets, 100000);
    demand("of them accepted", tally.accepted, (sheets + 2) / 3);
    for (int code = 0; code < 20; code++)
        if (meaning[code])
            demand(meaning[code], tally.by_code[code], LEAST_OF_EACH);
    demand("refused 19 of a rule behind the first", tally.later_rule, LEAST_OF_EACH);
    demand("called with exactly the budget needed, and with one less", tally.exact_budget, LEAST_OF_EACH);
    demand("called with budget 0", tally.budget_0, LEAST_OF_EACH);
    demand("accepted with 200 devices", seen.with_200, LEAST_OF_EACH);
    demand("accepted with a zero cost", seen.with_zero_cost, LEAST_OF_EACH);
    demand("accepted with an empty rule", seen.with_empty, LEAST_OF_EACH);
    demand("accepted with a repeated entry in a rule", seen.with_repeat, LEAST_OF_EACH);
    demand_both_sheets();
    demand("plans of equal cost told apart by the held number", tally.by_number, LEAST_OF_EACH);
    demand("plans of equal cost and number told apart by the marks", tally.by_marks, LEAST_OF_EACH);
}

static void demand_texts(void)
{
    printf("%lu texts, %lu left out because the reference takes too long\n", tally.texts, tally.left_out);
    for (int code = 0; code < 25; code++)
        if (meaning[code] && code != 16 && code != 17) /* the program has room for every plan, and 24 comes before 17 */
            demand(meaning[code], tally.by_printed[code], code == 2 ? 1 : LEAST_OF_EACH);
    demand_both("text", tally.both_by_printed, 1);
}

/* A file has no costs and no widths, and its reader leaves nothing of the sheet missing or over. */
static int of_a_file(int code)
{
    return code > 2 && meaning[code] && code != 11 && code != 13 && (code < 15 || code > 17);
}

static void demand_files(void)
{
    printf("%lu readings of files\n", tally.readings);
    demand("read", tally.by_reading[0], LEAST_OF_EACH);
    for (int code = 0; code < 34; code++)
        if (of_a_file(code))
            demand(meaning[code], tally.by_reading[code], LEAST_OF_EACH);
    demand("refused 19 of a clause behind the first", tally.later_clause, LEAST_OF_EACH);
    demand("refused 24 in a room of more than 16,384 words", tally.beyond_limit, LEAST_OF_EACH);
    demand("read into a room exactly as long as the sheet, and one word shorter", tally.exact_room, LEAST_OF_EACH);
    demand("read into a room of 0 words", tally.room_of_0, LEAST_OF_EACH);
    demand("read back as the sheet that the file was made of", tally.read_back, LEAST_OF_EACH);
    printf("%lu files answered, %lu left out because the reference takes too long\n", tally.files, tally.files_left_out);
    for (int code = 0; code < 34; code++)
        if (code <= 2 || of_a_file(code))
            demand(meaning[code], tally.by_file[code], code == 2 ? 1 : LEAST_OF_EACH);
    demand_both("file", tally.both_by_file, 1);
    demand("spent, to the sheet read from such a file", tally.both_file_spent, LEAST_OF_EACH);
}

/* The sheet's refusals but 16, and 41. */
static int of_a_writing(int code)
{
    return code == 41 || (code >= 11 && code <= 19 && code != 16);
}

static void demand_writings(void)
{
    static const char *const edition[2] = {"from 2022", "before 2022"};
    char what[80];
    printf("%lu writings of WCNF text\n", tally.writings);
    for (int old = 0; old < 2; old++) {
        snprintf(what, sizeof what, "written in the edition %s", edition[old]);
        demand(what, tally.by_writing[old][0], LEAST_OF_EACH);
        for (int code = 0; code < 42; code++)
            if (of_a_writing(code)) {
                snprintf(what, sizeof what, "%s, in the edition %s", meaning[code], edition[old]);
                demand(what, tally.by_writing[old][code], LEAST_OF_EACH / 2);
            }
    }
    demand("refused 19 of a rule behind the first", tally.writing_of_later_rule, LEAST_OF_EACH);
    demand("refusals of the sheet with a room of 0 bytes", tally.refused_without_room, LEAST_OF_EACH);
    demand("written in the edition before 2022, whose number was not 1", tally.other_edition, LEAST_OF_EACH);
    demand("written into a room exactly as long as the text", tally.exact_text_room, LEAST_OF_EACH);
    demand("refused 41 in a room one byte shorter", tally.text_room_one_short, LEAST_OF_EACH);
    demand("refused 41 in a room of 0 bytes", tally.no_text_room, LEAST_OF_EACH);
    demand("written into a room at least 20,000 bytes longer", tally.long_text_room, LEAST_OF_EACH);
    demand("written without a byte", tally.without_bytes, LEAST_OF_EACH / 2);
    demand("written without the rules that name both positions of a device", tally.with_rules_left_out, LEAST_OF_EACH);
}

/* The sheet's refusals but 16, and 51. */
static int of_a_list(int code)
{
    return code <= 2 || code == 51 || (code >= 11 && code <= 19 && code != 16);
}

static void demand_lists(void)
{
    printf("%lu calls for a list of ties\n", tally.lists);
    demand("listed", tally.by_list[0], LEAST_OF_EACH);
    for (int code = 1; code < 52; code++)
        if (of_a_list(code))
            demand(meaning[code], tally.by_list[code], code <= 2 || code == 51 ? LEAST_OF_EACH : LEAST_OF_EACH / 5);
    demand("refused 19 of a rule behind the first", tally.list_of_later_rule, LEAST_OF_EACH / 5);
    demand("refusals of the sheet with a room of 0 bytes", tally.list_without_room, LEAST_OF_EACH);
    demand("lists of one plan", tally.one_tie, LEAST_OF_EACH);
    demand("of several", tally.several_ties, LEAST_OF_EACH);
    demand("of 256", tally.ties_256, LEAST_OF_EACH);
    demand("of a plan of 0 bytes", tally.ties_without_bytes, LEAST_OF_EACH);
    demand("of ties of which one was opened again", tally.ties_again, LEAST_OF_EACH);
    demand("of ties of which one was opened behind one that it comes before", tally.ties_earlier, LEAST_OF_EACH);
    demand("of ties that were opened after others, which were not least", tally.ties_lowered, LEAST_OF_EACH);
    demand("of a sheet with both positions of a device in a rule", tally.ties_with_both, LEAST_OF_EACH);
    demand("in a room exactly as long as the list", tally.exact_ties_room, LEAST_OF_EACH);
    demand("in a room at least 20,000 bytes longer", tally.long_ties_room, LEAST_OF_EACH);
    demand("refused 51 for more than 256 ties in a room of bytes enough", tally.too_many_ties, LEAST_OF_EACH);
    demand("refused 51 in a room one byte shorter than the list", tally.ties_room_one_short, LEAST_OF_EACH);
    demand("refused 51 in a room shorter than one plan", tally.ties_room_below_plan, LEAST_OF_EACH);
    demand("refused 51 in a room of 0 bytes", tally.no_ties_room, LEAST_OF_EACH);
    demand("listed under exactly the budget needed, and under one less", tally.exact_lists, LEAST_OF_EACH);
    demand("spent, where one node more gives 51", tally.spent_before_51, LEAST_OF_EACH);
    demand("lists that were compared with all plans, each tried", tally.lists_tried, LEAST_OF_EACH);
    demand("sheets made to have 257 ties", tally.made_with_257, LEAST_OF_EACH);
    demand("sheets on which more than 256 ties are opened, and then a few that cost less", tally.made_with_more_first, LEAST_OF_EACH);
}

void demand_all(unsigned long sheets)
{
    demand_sheets(sheets);
    demand_texts();
    demand_files();
    demand_writings();
    demand_lists();
}
