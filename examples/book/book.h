/* What the programs over a book share. */
#ifndef BOOK_H
#define BOOK_H

#include <stdio.h>
#include <stdlib.h>

#include "hejmirov.h"

/* Numbers a frame of the book's stream. */
enum { V = 40 };

static inline _Noreturn void fail(const char *what, const char *why) {
    fprintf(stderr, "book: %s: %s\n", what, why);
    exit(1);
}

/* Ends the program where a call refused. */
static inline void check(const char *call, uint32_t refusal) {
    if (refusal != HEJMIROV_ACCEPTED) fail(call, hejmirov_refusal_text(refusal));
}

#endif
