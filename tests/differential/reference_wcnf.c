/*
 * A reference for the writer of WCNF text, request 4 of document 02, written to be held against the request sentence by sentence. The
 * text is gone through twice: once to know its length, and where the room has as many bytes once more to write it.
 */
#include "reference.h"
#include "reference_sheet.h"

/* What is written, in which edition, and how much of it so far. */
struct writer {
    const struct hall *hall;
    bool from_2022;
    uint64_t top;
    unsigned char *text; /* NULL where the bytes are only counted */
    size_t bytes;
};

static void put_byte(struct writer *w, char byte)
{
    if (w->text != NULL)
        w->text[w->bytes] = (unsigned char)byte;
    w->bytes++;
}

static void put_number(struct writer *w, uint64_t number)
{
    if (number >= 10)
        put_number(w, number / 10);
    put_byte(w, (char)('0' + number % 10));
}

static void put_name(struct writer *w, const char *name)
{
    while (*name != 0)
        put_byte(w, *name++);
}

/* ---- variables and weights */

/* "device i becomes variables 2i-1 (held at 1) and 2i (held at 0)" */
static uint64_t held_at_1(int device)
{
    return 2 * (uint64_t)device - 1;
}

static uint64_t held_at_0(int device)
{
    return 2 * (uint64_t)device;
}

/* "the top weight, the sum of soft weights plus 1"; "soft clauses deny each variable at the device's cost": each cost is the weight of two. */
static uint64_t top_weight(const struct hall *s)
{
    uint64_t sum = 0;
    for (int v = 1; v <= s->devices; v++)
        sum += 2 * (uint64_t)s->cost[v];
    return sum + 1;
}

/* "A cost of 0 gives no soft clause, and a rule met by every plan is left out." */
static uint64_t number_of_clauses(const struct hall *s)
{
    uint64_t clauses = 0;
    for (int i = 0; i < s->rules; i++)
        if (!s->has_both[i])
            clauses++;
    for (int v = 1; v <= s->devices; v++)
        clauses += s->cost[v] > 0 ? 3 : 1;
    return clauses;
}

/* ---- clauses: "One blank separates tokens, 0 ends a clause, byte 10 every line" */

static void put_variable(struct writer *w, uint64_t variable)
{
    put_byte(w, ' ');
    put_number(w, variable);
}

static void put_denied(struct writer *w, uint64_t variable)
{
    put_byte(w, ' ');
    put_byte(w, '-');
    put_number(w, variable);
}

static void end_clause(struct writer *w)
{
    put_name(w, " 0\n");
}

/* "the top weight .. also starts each hard clause"; "from 2022 .. each hard clause starting with `h`" */
static void start_hard(struct writer *w)
{
    if (w->from_2022)
        put_byte(w, 'h');
    else
        put_number(w, w->top);
}

/* "the rules in those variables", "entries as written" */
static void put_rule(struct writer *w, const int32_t *rule)
{
    start_hard(w);
    for (int e = 1; e <= rule[0]; e++)
        put_variable(w, rule[e] > 0 ? held_at_1(rule[e]) : held_at_0(-rule[e]));
    end_clause(w);
}

/* "per device, that not both are true" */
static void put_not_both(struct writer *w, int device)
{
    start_hard(w);
    put_denied(w, held_at_1(device));
    put_denied(w, held_at_0(device));
    end_clause(w);
}

/* "A soft clause starts with its weight." */
static void put_soft(struct writer *w, int device, uint64_t variable)
{
    put_number(w, (uint64_t)w->hall->cost[device]);
    put_denied(w, variable);
    end_clause(w);
}

/* ---- the text */

/* "a line `p wcnf`, 2n, the number of clauses and the top weight" */
static void put_header(struct writer *w)
{
    put_name(w, "p wcnf ");
    put_number(w, 2 * (uint64_t)w->hall->devices);
    put_byte(w, ' ');
    put_number(w, number_of_clauses(w->hall));
    put_byte(w, ' ');
    put_number(w, w->top);
    put_byte(w, '\n');
}

/* "clauses stand in the order named, variables and rules rising" */
static size_t put_text(const struct hall *s, bool from_2022, unsigned char *text)
{
    struct writer w = {.hall = s, .from_2022 = from_2022, .top = top_weight(s), .text = text};
    if (!from_2022)
        put_header(&w);
    for (int i = 0; i < s->rules; i++)
        if (!s->has_both[i])
            put_rule(&w, s->rule[i]);
    for (int v = 1; v <= s->devices; v++)
        put_not_both(&w, v);
    for (int v = 1; v <= s->devices; v++)
        if (s->cost[v] > 0) {
            put_soft(&w, v, held_at_1(v));
            put_soft(&w, v, held_at_0(v));
        }
    return w.bytes;
}

/* "The length is returned .. Refusals: the sheet's but 16, then 41 for a text room too short, its place the length needed." */
struct reference_wcnf reference_wcnf_write(const int32_t *word, size_t words, uint32_t edition, unsigned char *text, size_t room)
{
    struct reader r = {.word = word, .words = words};
    struct hall s = {.both_rules = 0};
    struct reference_wcnf said = {.numbers = 2};
    if (!read_sheet(&r, &s)) {
        said.numbers = refusal_numbers(&r, said.number);
        return said;
    }
    said.number[1] = put_text(&s, edition == 0, NULL);
    if (said.number[1] > room)
        said.number[0] = 41;
    else
        put_text(&s, edition == 0, text);
    said.both_rules = s.both_rules;
    return said;
}
