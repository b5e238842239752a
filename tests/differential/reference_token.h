/* The tokens of document 01, "Sheets typed as text", which both readers of the reference take. */
#ifndef REFERENCE_TOKEN_H
#define REFERENCE_TOKEN_H

#include <stdbool.h>
#include <stddef.h>
#include <stdint.h>

/* The place of a token's first byte, and the place behind its last byte. */
struct token {
    size_t first, end;
};

/* What is wrong with a token that should be a number: 0, 21 or 22, and the place. */
struct token_fault {
    int code;
    size_t place;
};

bool is_separator(unsigned char byte);

/* The whole extent of the next token from a place on; false where there is none. */
bool next_token(const unsigned char *text, size_t length, size_t from, struct token *t);

/* The order: 21 over the token's whole length, then 22. */
struct token_fault check_token(const unsigned char *text, struct token t);

/* The value of a token of at most 10 digits. */
int64_t token_value(const unsigned char *text, struct token t);

#endif
