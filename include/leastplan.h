/*
 * leastplan: the least restriction plan of a hall sheet.
 *
 * The functions below are in the archive libexported.a, for Linux on x86-64. docs/LIBRARY.md has how to build and link it, and a
 * whole example. They keep nothing between calls, allocate nothing and may be called from several threads at once.
 *
 * Duties of the caller, for every pointer of every call:
 *   - it is not null, also where the length beside it is 0;
 *   - it is aligned as C aligns its type;
 *   - as many elements as the length beside it says can be read there and, where the pointer is not to const, written; an array
 *     parameter such as numbers[4] has all its elements;
 *   - what it points at overlaps nothing that another pointer of the same call points at, and nothing else reads or writes it
 *     during the call;
 *   - every element that is lent to be written has a value before the call, whichever it is.
 */
#ifndef LEASTPLAN_H
#define LEASTPLAN_H

#include <stddef.h>
#include <stdint.h>

#ifdef __cplusplus
extern "C" {
#endif

/* The first number of an answer, of a reading, of a writing, of a list and of a refusal that is printed. */
enum {
    LEASTPLAN_LEAST = 0,
    LEASTPLAN_NONE = 1,
    LEASTPLAN_SPENT = 2,
    LEASTPLAN_TOO_SHORT = 11,
    LEASTPLAN_BAD_DEVICE_COUNT = 12,
    LEASTPLAN_BAD_COST = 13,
    LEASTPLAN_BAD_ENTRY = 14,
    LEASTPLAN_EXTRA_WORDS = 15,
    LEASTPLAN_SMALL_ROOM = 16,
    LEASTPLAN_TOO_LONG = 17,
    LEASTPLAN_BAD_RULE_COUNT = 18,
    LEASTPLAN_BAD_WIDTH = 19,
    LEASTPLAN_WRONG_BYTE = 21,
    LEASTPLAN_BAD_NUMBER = 22,
    LEASTPLAN_LONG_TEXT = 23,
    LEASTPLAN_NO_ROOM = 24,
    LEASTPLAN_NO_HEADER = 31,
    LEASTPLAN_NOT_CLOSED = 32,
    LEASTPLAN_EXTRA_TOKEN = 33,
    LEASTPLAN_SMALL_TEXT_ROOM = 41,
    LEASTPLAN_TOO_MANY_TIES = 51
};

/*
 * Finds the least plan of the sheet in words[0] to words[words_len - 1], and opens at most budget trial plans for it. A plan meets
 * a rule where it holds a device as an entry of the rule says; a rule with both entries of one device is met by every plan.
 *
 * The answer goes to the front of numbers, code first:
 *
 *   numbers[0]  meaning                                     numbers[1]          numbers[2]    numbers[3]
 *    0          least plan                                  cost                devices held  nodes opened
 *    1          no plan meets every rule                    nodes opened        unchanged     unchanged
 *    2          the budget is spent                         the budget          unchanged     unchanged
 *   11          the sheet ends too soon                     words_len           unchanged     unchanged
 *   12          the device count is outside its range       place of that word  unchanged     unchanged
 *   13          a cost is outside its range                 place of that word  unchanged     unchanged
 *   14          an entry is 0 or beyond the device count    place of that word  unchanged     unchanged
 *   15          words stand after the last rule             place of the first  unchanged     unchanged
 *   16          the room has fewer bytes than there are     the device count    unchanged     unchanged
 *               devices
 *   17          there are more than 16,384 words            16384               unchanged     unchanged
 *   18          the rule count is outside its range         place of that word  unchanged     unchanged
 *   19          the width of a rule is outside its range    place of that word  its rule      unchanged
 *
 * Places are word numbers from 0, rules are numbered from 1. With code 0 the first bytes of room are the plan, one for each device,
 * 0 free, 1 held at position 1, 2 held at position 0, and the rest of room is unchanged. With any other code all of room is
 * unchanged.
 */
void leastplan_search(const int32_t *words, size_t words_len, uint32_t budget, uint8_t *room, size_t room_len, uint64_t numbers[4]);

/*
 * Answers a sheet typed as text, text[0] to text[text_len - 1], as the program leastplan does: under a budget of 1,000,000 trial
 * plans. The bytes that the program prints go to the front of out, with no byte 0 behind them, and how many they are is returned;
 * they always fit, and the rest of out is unchanged. They are the line "least COST HELD OPENED" with the line "hold" and the held
 * devices, or one line "none OPENED", "spent 1000000" or "refused CODE PLACE", each closed by byte 10; with 19 the rule stands
 * behind its place, "refused 19 PLACE RULE". CODE is one of the codes 11 to 15, 18 and 19 above with its place in words, or
 *
 *   21          a wrong byte in a token, or a minus with    that byte, or where the digit should stand
 *               no digit after it
 *   22          more than 10 digits, or a value that does   the token's first byte
 *               not fit 32 bits
 *   23          more than 60,000 bytes                      60000
 *   24          more than 16,384 tokens                     first byte of the first token beyond
 *
 * with its place in bytes, from 0.
 */
size_t leastplan_answer(const uint8_t *text, size_t text_len, uint8_t out[1024]);

/*
 * Reads a DIMACS CNF file, text[0] to text[text_len - 1], into room as a hall sheet: the variables are the devices, each at cost 1,
 * and the clauses, in their order and with their entries as written, are the rules. leastplan_search accepts the sheet where it is
 * lent a byte for each device.
 *
 * What was read goes to the front of numbers, code first:
 *
 *   numbers[0]  meaning                                     numbers[1]               numbers[2]
 *    0          read                                        the sheet's length       unchanged
 *   12          the number of variables is outside 0 to     first byte of the token  unchanged
 *               200
 *   14          an entry is beyond the number of variables  first byte of the token  unchanged
 *   18          the number of clauses is outside 0 to       first byte of the token  unchanged
 *               2,000
 *   19          a clause has a 33rd entry                   first byte of the token  its clause
 *   21          a wrong byte in a number, or a minus with   that byte, or where the  unchanged
 *               no digit after it                           digit should stand
 *   22          more than 10 digits, or a value that does   first byte of the token  unchanged
 *               not fit 32 bits
 *   23          more than 60,000 bytes                      60000                    unchanged
 *   24          the sheet up to this token needs more       first byte of the token  unchanged
 *               words than room_len, or than 16,384
 *   31          something else stands in the place of "p"   first byte of the token  unchanged
 *               or "cnf"; or the text ends before them, or  or text_len
 *               before a number of the header
 *   32          the text ends before the last clause is     text_len                 unchanged
 *               closed by 0
 *   33          a number stands behind the last clause      first byte of the token  unchanged
 *
 * numbers[3] is unchanged. Places are bytes from 0, clauses are numbered from 1. With code 0 the first numbers[1] words of room are
 * the sheet, and the rest of room is unchanged. With any other code all of room is unchanged.
 */
void leastplan_cnf_read(const uint8_t *text, size_t text_len, int32_t *room, size_t room_len, uint64_t numbers[4]);

/*
 * Answers a DIMACS CNF file, text[0] to text[text_len - 1], as the program cnfplan does: with 16,384 words of room and a budget
 * of 1,000,000 trial plans. The bytes that the program prints go to the front of out in the form of leastplan_answer, and how many
 * they are is returned; CODE is one of the codes of leastplan_cnf_read with its place in bytes, and with 19 the clause stands behind
 * its place, "refused 19 PLACE CLAUSE".
 */
size_t leastplan_cnf_answer(const uint8_t *text, size_t text_len, uint8_t out[1024]);

/*
 * Writes the sheet in words[0] to words[words_len - 1] as WCNF text, which MaxSAT solvers read, to the front of text: the edition from
 * 2022 where edition is 0, the edition before 2022 where it is any other number.
 *
 * Device i has two variables, 2i-1 for held at 1 and 2i for held at 0. Hard clauses are the rules, in their order and with their
 * entries as written, without those that have both entries of one device; then for each device "-(2i-1) -2i 0". Soft clauses, for
 * each device with a cost above 0, are "-(2i-1) 0" and "-2i 0", each behind the cost. From 2022 on a hard clause starts with "h".
 * Before, it starts with the top weight, twice the sum of all costs plus 1, and the text starts with the line "p wcnf", the number of
 * variables, the number of clauses written and the top weight. One blank stands between tokens, byte 10 ends each line, and no byte 0
 * is put behind the last one. The least weight of soft clauses that are broken where all hard clauses are met is the cost of the least
 * plan; where there is no plan, the hard clauses cannot all be met.
 *
 * What was written goes to the front of numbers, code first:
 *
 *   numbers[0]  meaning                                     numbers[1]          numbers[2]
 *    0          written                                     the text's length   unchanged
 *   11          the sheet ends too soon                     words_len           unchanged
 *   12          the device count is outside its range       place of that word  unchanged
 *   13          a cost is outside its range                 place of that word  unchanged
 *   14          an entry is 0 or beyond the device count    place of that word  unchanged
 *   15          words stand after the last rule             place of the first  unchanged
 *   17          there are more than 16,384 words            16384               unchanged
 *   18          the rule count is outside its range         place of that word  unchanged
 *   19          the width of a rule is outside its range    place of that word  its rule
 *   41          text has fewer bytes than are needed        the bytes needed    unchanged
 *
 * numbers[3] is unchanged. Places are word numbers from 0, rules are numbered from 1; 41 is told of good sheets alone. 98,957 bytes
 * are enough for every sheet. With code 0 the first numbers[1] bytes of text are the text, and the rest is unchanged. With any other
 * code all of text is unchanged.
 */
void leastplan_wcnf_write(const int32_t *words, size_t words_len, uint32_t edition, uint8_t *text, size_t text_len, uint64_t numbers[4]);

/*
 * Lists the ties of the sheet in words[0] to words[words_len - 1]: all plans that meet every rule at the cost of the least plan and with as
 * many devices held, itself the first of them. It opens the same trial plans as leastplan_search does, at most budget.
 *
 * The answer goes to the front of numbers, code first:
 *
 *   numbers[0]  meaning                                     numbers[1]          numbers[2]    numbers[3]       numbers[4]
 *    0          the ties are listed                         cost                devices held  number of plans  nodes opened
 *    1          no plan meets every rule                    nodes opened        unchanged     unchanged        unchanged
 *    2          the budget is spent                         the budget          unchanged     unchanged        unchanged
 *   11          the sheet ends too soon                     words_len           unchanged     unchanged        unchanged
 *   12          the device count is outside its range       place of that word  unchanged     unchanged        unchanged
 *   13          a cost is outside its range                 place of that word  unchanged     unchanged        unchanged
 *   14          an entry is 0 or beyond the device count    place of that word  unchanged     unchanged        unchanged
 *   15          words stand after the last rule             place of the first  unchanged     unchanged        unchanged
 *   17          there are more than 16,384 words            16384               unchanged     unchanged        unchanged
 *   18          the rule count is outside its range         place of that word  unchanged     unchanged        unchanged
 *   19          the width of a rule is outside its range    place of that word  its rule      unchanged        unchanged
 *   51          the ties need more bytes than room_len, or  room_len            unchanged     unchanged        unchanged
 *               are more than 256
 *
 * Places are word numbers from 0, rules are numbered from 1; 51 is told only of a walk that came to its end. With code 0 the first bytes of
 * room are the plans, one behind another, each as leastplan_search gives one: a byte for each device, 0 free, 1 held at position 1, 2 held
 * at position 0. Each stands there once; at the first device where two plans differ, the one in front has the lower byte. The rest of room
 * is unchanged. With any other code all of room is unchanged. 51,200 bytes are enough for every list of at most 256 plans.
 */
void leastplan_ties(const int32_t *words, size_t words_len, uint32_t budget, uint8_t *room, size_t room_len, uint64_t numbers[5]);

#ifdef __cplusplus
}
#endif

#endif
