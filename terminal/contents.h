/* A record's contents, read from words: samples/README.md describes them. */
#ifndef CONTENTS_H
#define CONTENTS_H

#include <stdint.h>

#include "input.h"

enum { CARDS = 52, NO_HAND = 4 /* a holder of a card that no hand has */ };

struct contents {
    uint32_t board, table;
    uint8_t holders[CARDS];
    struct bytes calls, cards; /* as the writer takes them, exposures and choices among the cards; the caller frees both */
    uint32_t marked, claim;
};

/* What is wrong with a text: in which line, 0 where it is none of them, at which word, which may be missing, of what line; and what is wrong. */
struct fault {
    unsigned long line;
    const char *keyword, *word; /* parts of the text, or null */
    const char *what;           /* null where nothing is wrong */
};

/* Reads the contents from a text, which is changed: it is cut into words. */
struct fault read_contents(struct bytes *text, struct contents *contents);

#endif
