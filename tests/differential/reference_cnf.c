/*
 * A reference for the reader of DIMACS CNF files, request 2 of document 02, written to be held against the request sentence by
 * sentence: the tokens from left to right, for each what may be wrong with it in the request's order, and at once the words that the
 * sheet needs for it. The sheet is made aside and copied into the room where nothing was wrong.
 */
#include "reference.h"
#include "reference_token.h"

#include <string.h>

enum { MOST_BYTES = 60000, MOST_WORDS = 16384, MOST_VARIABLES = 200, MOST_CLAUSES = 2000, WIDEST = 32 };

/* How far the file has been read, the sheet so far, and what is said of it. */
struct file {
    const unsigned char *text;
    size_t length, room;
    struct token token; /* the last one read */
    int32_t *sheet;
    size_t needed; /* words of the sheet so far */
    int32_t variables, clauses;
    int32_t closed; /* clauses closed so far */
    int32_t width;  /* entries of the clause at hand; where there are any, the sheet ends in them and their number stands before */
    struct reference_cnf said;
};

static bool refuse(struct file *f, int code, size_t place)
{
    f->said = (struct reference_cnf){{(uint64_t)code, place}, 2};
    return false;
}

/* "24 where the sheet so far needs more words than the room has or than 16,384" */
static bool need(struct file *f, size_t words)
{
    f->needed += words;
    if (f->needed > f->room || f->needed > MOST_WORDS)
        return refuse(f, 24, f->token.first);
    return true;
}

/* "21 and 22 for any later token" */
static bool check_number(struct file *f)
{
    struct token_fault fault = check_token(f->text, f->token);
    return fault.code == 0 || refuse(f, fault.code, fault.place);
}

/* ---- the header */

/* Where the first token stands: "lines (to byte 10) starting with `c` before the header are comments". */
static size_t behind_comments(const unsigned char *text, size_t length)
{
    size_t at = 0;
    while (at < length) {
        if (text[at] == 'c' && (at == 0 || text[at - 1] == 10))
            while (at < length && text[at] != 10)
                at++;
        else if (is_separator(text[at]))
            at++;
        else
            break;
    }
    return at;
}

/* "31 where `p` or `cnf` should stand and doesn't, or the text ends before a count" */
static bool read_header_token(struct file *f)
{
    return next_token(f->text, f->length, f->token.end, &f->token) || refuse(f, 31, f->length);
}

static bool read_name(struct file *f, const char *name)
{
    if (!read_header_token(f))
        return false;
    if (f->token.end - f->token.first != strlen(name) || memcmp(f->text + f->token.first, name, strlen(name)) != 0)
        return refuse(f, 31, f->token.first);
    return true;
}

/* "12 and 18 for the counts" */
static bool read_count(struct file *f, int32_t most, int code, int32_t *count)
{
    if (!read_header_token(f) || !check_number(f))
        return false;
    *count = (int32_t)token_value(f->text, f->token);
    return (*count >= 0 && *count <= most) || refuse(f, code, f->token.first);
}

/* "the header is `p cnf` and the numbers of variables and clauses"; "the variable count needs 1 + n"; "every cost is 1". */
static bool read_header(struct file *f)
{
    f->token.end = behind_comments(f->text, f->length);
    if (!read_name(f, "p") || !read_name(f, "cnf"))
        return false;
    if (!read_count(f, MOST_VARIABLES, 12, &f->variables) || !need(f, 1 + (size_t)f->variables))
        return false;
    f->sheet[0] = f->variables;
    for (int v = 1; v <= f->variables; v++)
        f->sheet[v] = 1;
    if (!read_count(f, MOST_CLAUSES, 18, &f->clauses) || !need(f, 1))
        return false;
    f->sheet[f->needed - 1] = f->clauses;
    return true;
}

/* ---- the clauses */

/* "an empty clause's 0 one" */
static bool close_clause(struct file *f)
{
    if (f->width == 0) {
        if (!need(f, 1))
            return false;
        f->sheet[f->needed - 1] = 0;
    }
    f->closed++;
    f->width = 0;
    return true;
}

/* "14, then 19 at an entry too many, with the clause's number; 24"; "a clause's first entry two" */
static bool put_entry(struct file *f, int32_t entry)
{
    if (entry < -f->variables || entry > f->variables)
        return refuse(f, 14, f->token.first);
    if (f->width == WIDEST) {
        f->said = (struct reference_cnf){{19, f->token.first, (uint64_t)f->closed + 1}, 3};
        return false;
    }
    if (!need(f, f->width == 0 ? 2 : 1))
        return false;
    f->width++;
    f->sheet[f->needed - 1] = entry;
    f->sheet[f->needed - 1 - (size_t)f->width] = f->width;
    return true;
}

/* "then numbers as in 01, each clause closed by 0, line ends without meaning"; "33 after the last clause declared"; "at the end 32". */
static bool read_clauses(struct file *f)
{
    while (next_token(f->text, f->length, f->token.end, &f->token)) {
        if (!check_number(f))
            return false;
        if (f->closed == f->clauses)
            return refuse(f, 33, f->token.first);
        int32_t number = (int32_t)token_value(f->text, f->token);
        if (!(number == 0 ? close_clause(f) : put_entry(f, number)))
            return false;
    }
    return f->closed == f->clauses || refuse(f, 32, f->length);
}

/* "The reader writes a hall sheet into a lent room of words .. and returns its length; the rest, and all on a refusal, is unchanged." */
struct reference_cnf reference_cnf_read(const unsigned char *text, size_t length, int32_t *word, size_t room)
{
    int32_t sheet[MOST_WORDS];
    struct file f = {.text = text, .length = length, .room = room, .sheet = sheet};
    if (length > MOST_BYTES)
        refuse(&f, 23, MOST_BYTES);
    else if (read_header(&f) && read_clauses(&f)) {
        memcpy(word, sheet, f.needed * sizeof sheet[0]);
        f.said = (struct reference_cnf){{0, f.needed}, 2};
    }
    return f.said;
}
