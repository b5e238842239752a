/*
 * DIMACS CNF files made from a seed, in the ways in which such files are written: comments and blank lines in front, a clause on each
 * line, over several lines or several on a line, blanks or tabs, line ends with or without byte 13, a line end at the end or none;
 * numbers with leading zeros, and -0 or 00 at the end of a clause. And damaged ones, for each refusal of request 2 of document 02:
 * some in the sheet before it is written, some in its header, some in the written file.
 */
#include "files.h"

#include "draw.h"

#include <string.h>

/* ---- a way to write a file */

struct layout {
    const char *line_end;
    char blank;
    int loose; /* line ends stand anywhere */
};

static struct layout some_layout(void)
{
    return (struct layout){one_in(4) ? "\r\n" : "\n", one_in(5) ? 9 : 32, one_in(3)};
}

static void put_bytes(struct text *t, const char *bytes)
{
    insert(t, t->bytes, bytes, strlen(bytes));
}

static void put_line_ends(struct text *t, const struct layout *l)
{
    do
        put_bytes(t, l->line_end);
    while (one_in(10));
}

static void put_between(struct text *t, const struct layout *l)
{
    if (l->loose && one_in(4))
        put_separators(t, 1);
    else
        t->byte[t->bytes++] = (unsigned char)l->blank;
}

/* A comment may hold any byte but 10. */
static void put_comment(struct text *t, const struct layout *l)
{
    static const char *const comments[] = {"c", "c interlocks of the west hall", "c p cnf 3 2", "cnf 1 1", "c\t1 -2 0", "c %", "c \r c"};
    put_bytes(t, comments[below((int)(sizeof comments / sizeof comments[0]))]);
    for (int i = one_in(3) ? below(30) : 0; i > 0; i--) {
        int byte = below(256);
        t->byte[t->bytes++] = (unsigned char)(byte == 10 ? 0 : byte);
    }
    put_bytes(t, l->line_end);
}

static void put_header(struct text *t, const struct layout *l)
{
    while (one_in(2))
        put_comment(t, l);
    while (one_in(8))
        put_bytes(t, l->line_end);
    put_bytes(t, "p");
    put_between(t, l);
    put_bytes(t, "cnf");
    put_between(t, l);
}

/* The words from the device count on, without costs and widths; 0 stands behind the entries of each rule. */
static void put_numbers(const struct sheet *s, struct text *t, const struct layout *l)
{
    int rules = 0;
    for (size_t i = 0; i <= s->words; i++) {
        char is = i < s->words ? s->is[i] : 'w';
        if (is == 'w' && rules++ > 0) {
            put_word(t, 0);
            if (l->loose)
                put_between(t, l);
            else
                put_line_ends(t, l);
        }
        if (is == 'n' || is == 'm' || is == 'e') {
            put_word(t, s->word[i]);
            if (is == 'm' && !l->loose)
                put_line_ends(t, l);
            else
                put_between(t, l);
        }
    }
    if (one_in(4)) /* nothing behind the last number */
        while (t->byte[t->bytes - 1] <= 32)
            t->bytes--;
}

void file_of(const struct sheet *s, struct text *t)
{
    struct layout l = some_layout();
    t->bytes = 0;
    put_header(t, &l);
    put_numbers(s, t, &l);
}

/* ---- damage to the sheet */

static void change_count(struct sheet *s, char is, int32_t to)
{
    size_t at = place_of(s, is);
    if (at < s->words)
        s->word[at] = to;
}

/* More rules are said to be there than there are, or fewer. */
static void miscount(struct sheet *s)
{
    size_t at = place_of(s, 'm');
    if (at < s->words)
        s->word[at] += s->word[at] > 0 && one_in(2) ? -1 : from_to(1, 3);
}

static void change_entry(struct sheet *s)
{
    size_t at = place_of(s, 'e');
    int size = s->devices + from_to(1, 2);
    if (at < s->words)
        s->word[at] = one_in(8) ? 0 : one_in(8) ? INT32_MIN : one_in(2) ? size : -size;
}

/* One entry of a rule is written so often that the rule has more than 32. */
static void widen(struct sheet *s)
{
    size_t at = place_of(s, 'e'), more = (size_t)from_to(32, 36);
    if (at == s->words || s->words + more > WORDS)
        return;
    memmove(s->word + at + more, s->word + at, (s->words - at) * sizeof s->word[0]);
    memmove(s->is + at + more, s->is + at, s->words - at);
    for (size_t i = 0; i < more; i++) {
        s->word[at + i] = s->word[at + more];
        s->is[at + i] = 'e';
    }
    s->words += more;
}

static void damage_rules(struct sheet *s)
{
    switch (below(5)) {
    case 0: change_count(s, 'n', outside(200)); break;
    case 1: change_count(s, 'm', outside(2000)); break;
    case 2: miscount(s); break;
    case 3: change_entry(s); break;
    default: widen(s); break;
    }
}

/* ---- damage to the file */

static void put_in_front(struct text *t)
{
    static const char *const wrong[] = {"P cnf ", "p CNF ", "p wcnf ", "pcnf ", "p cnf: ", "p\nc late\ncnf ", " c behind a blank\n", "\tc\n", "p p cnf ",
                                        "p cn f ", "1 2 0\n", "%\n", "-", "p c cnf ", "p cnfc ", "p\r", "\rc\n", "C\n", "p %"};
    const char *w = wrong[below((int)(sizeof wrong / sizeof wrong[0]))];
    insert(t, 0, w, strlen(w));
}

static void put_behind(struct text *t)
{
    static const char *const late[] = {" 0", "\n0\n", " 1", "\n-1 0", "\n%\n0\n", "%", " -", " c", "\nc late\n", " 00000000000", " 201", " p cnf 1 1"};
    put_bytes(t, late[below((int)(sizeof late / sizeof late[0]))]);
}

/* A comment that makes the file about as long as a file may be. */
static void lengthen(struct text *t)
{
    size_t bytes = (size_t)(one_in(4) ? from_to(MOST_BYTES - 2, MOST_BYTES) : from_to(MOST_BYTES + 1, MOST_BYTES + 3));
    if (t->bytes + 2 > bytes)
        return;
    size_t more = bytes - t->bytes;
    memmove(t->byte + more, t->byte, t->bytes);
    memset(t->byte, 'c', more - 1);
    t->byte[more - 1] = 10;
    t->bytes = bytes;
}

static void damage_file(struct text *t)
{
    switch (below(7)) {
    case 0: put_odd_byte(t); break;
    case 1: put_edge(t); break;
    case 2: put_in_front(t); break;
    case 3: put_behind(t); break;
    case 4: lengthen(t); break;
    default: t->bytes = (size_t)below((int)t->bytes + 1); break;
    }
}

/* ---- any file */

static void all_costs_1(struct sheet *s)
{
    for (size_t i = 0; i < s->words; i++)
        if (s->is[i] == 'c')
            s->word[i] = 1;
}

int any_file(struct sheet *s, struct text *t)
{
    int to_rules = one_in(4), to_file = one_in(3);
    if (one_in(24))
        crowded_sheet(s, (size_t)(one_in(4) ? from_to(MOST_WORDS - 2, MOST_WORDS) : from_to(MOST_WORDS + 1, MOST_WORDS + 3)));
    else
        any_sheet(s);
    all_costs_1(s);
    if (to_rules)
        damage_rules(s);
    file_of(s, t);
    if (to_file)
        do
            damage_file(t);
        while (one_in(4));
    return !to_rules && !to_file;
}
