#include "contents.h"

#include <string.h>

#include "judge.h"
#include "letters.h"

static const char BLANKS[] = " \t\r";
static const char DIGITS[] = "0123456789";
static const char TOO_MANY_WORDS[] = "a word too many";

/* What was read so far: the contents, and which lines were met that may stand once. */
struct reading {
    struct contents *to;
    int board, table, claim, hands[4];
};

/* The next word of a line, cut off from the rest; empty at the line's end. */
static char *word(char **rest) {
    char *start = *rest + strspn(*rest, BLANKS);
    char *end = start + strcspn(start, BLANKS);
    *rest = *end ? end + 1 : end;
    *end = '\0';
    return start;
}

static struct fault at_word(const char *word, const char *what) {
    struct fault fault = {0, NULL, *word ? word : NULL, what};
    return fault;
}

static struct fault none(void) { return at_word("", NULL); }

/* Nothing may follow. */
static struct fault ended(char *rest) {
    const char *more = word(&rest);
    return *more ? at_word(more, TOO_MANY_WORDS) : none();
}

/* A number, the greatest one for any that is greater; `given` says whether one was read before, which may not be. */
static struct fault number(char *rest, uint32_t *value, int *given) {
    const char *digits = word(&rest);
    uint64_t sum = 0;
    if (*given) return at_word(digits, "said twice");
    if (!*digits) return at_word(digits, "a number is missing");
    if (digits[strspn(digits, DIGITS)]) return at_word(digits, "not a number");
    for (const char *at = digits; *at; at++) {
        sum = 10 * sum + (uint64_t)(*at - '0');
        if (sum > UINT32_MAX) sum = UINT32_MAX;
    }
    *value = (uint32_t)sum;
    *given = 1;
    return ended(rest);
}

/* The cards of a seat, spades first, a dot between two suits. */
static struct fault cards_of_hand(uint8_t holders[CARDS], const char *cards, unsigned seat) {
    unsigned suit = 3;
    for (const char *at = cards; *at; at++) {
        int rank = number_of(RANKS, *at);
        if (*at == '.') {
            if (suit-- == 0) return at_word(cards, "a hand has four suits");
            continue;
        }
        if (rank < 0) return at_word(cards, "no such card");
        uint8_t *holder = &holders[judge_card(suit, (unsigned)rank)];
        if (*holder != NO_HAND) return at_word(cards, "a card is in two hands");
        *holder = (uint8_t)seat;
    }
    return suit == 0 ? none() : at_word(cards, "a suit is missing");
}

/* `N AKQ.876.543.JT92`: a seat, and its spades, hearts, diamonds and clubs. */
static struct fault hand(struct reading *reading, char *rest) {
    const char *name = word(&rest), *cards = word(&rest);
    int seat = name[0] && !name[1] ? number_of(SEATS, name[0]) : -1;
    if (seat < 0) return at_word(name, "no such seat");
    if (reading->hands[seat]++) return at_word(name, "said twice");
    if (!*cards) return at_word(name, "the cards are missing");
    struct fault fault = cards_of_hand(reading->to->holders, cards, (unsigned)seat);
    return fault.what ? fault : ended(rest);
}

/* The code of `P`, `X`, `XX`, a bid such as `3NT` or `M`, the mark of an insufficient bid that was accepted; -1 for any other word. */
static int call(const char *name) {
    static const char *const NAMES[] = {"P", "X", "XX"};
    for (int code = 0; code < 3; code++)
        if (strcmp(name, NAMES[code]) == 0) return code;
    if (strcmp(name, "M") == 0) return JUDGE_MARK;
    int level = number_of("1234567", name[0]) + 1;
    for (unsigned strain = 0; level > 0 && strain < STRAINS; strain++)
        if (strcmp(name + 1, STRAIN_WORDS[strain]) == 0) return (int)judge_call((unsigned)level, strain);
    return -1;
}

/* The number of a suit, `S` for spades; -1 for any other word. */
static int suit(const char *name) { return name[0] && !name[1] ? number_of(SUITS, name[0]) : -1; }

/* The code of a card, `SA` for the ace of spades; -1 for any other word. */
static int card(const char *name) {
    int of_suit = number_of(SUITS, name[0]), rank = of_suit < 0 ? -1 : number_of(RANKS, name[1]);
    return rank < 0 || name[2] ? -1 : (int)judge_card((unsigned)of_suit, (unsigned)rank);
}

static const char *put_code(struct bytes *list, int code, const char *what) {
    if (code < 0) return what;
    return put_byte(list, code) ? NULL : NO_MEMORY;
}

static const char *put_call(struct bytes *list, const char *name) { return put_code(list, call(name), "no such call"); }

static const char *put_card(struct bytes *list, const char *name) { return put_code(list, card(name), "no such card"); }

/* An exposure: its code, the card, and 1 where it was deliberate. */
static const char *put_exposure(struct bytes *list, const char *name, int deliberate) {
    if (!put_byte(list, JUDGE_EXPOSED)) return NO_MEMORY;
    const char *fault = put_card(list, name);
    if (fault) return fault;
    return put_byte(list, deliberate) ? NULL : NO_MEMORY;
}

/* A choice for a lead: its code, 1 where the suit is forbidden, and the suit. */
static const char *put_choice(struct bytes *list, const char *name, int forbidden) {
    if (!put_byte(list, JUDGE_CHOICE) || !put_byte(list, forbidden)) return NO_MEMORY;
    return put_code(list, suit(name), "no such suit");
}

/* A card; `?SA`, it was exposed by accident; `!SA`, deliberately; `+S`, spades are required of the lead; `-S`, they are forbidden. */
static const char *put_play(struct bytes *list, const char *name) {
    switch (name[0]) {
    case '?': return put_exposure(list, name + 1, 0);
    case '!': return put_exposure(list, name + 1, 1);
    case '+': return put_choice(list, name + 1, 0);
    case '-': return put_choice(list, name + 1, 1);
    default: return put_card(list, name);
    }
}

/* Puts what each word of a line says at the end of a list. */
static struct fault put_each(struct bytes *list, char *rest, const char *(*put)(struct bytes *, const char *)) {
    for (const char *name = word(&rest); *name; name = word(&rest)) {
        const char *what = put(list, name);
        if (what) return at_word(name, what);
    }
    return none();
}

/* What a line says, behind its first word. */
static struct fault read_rest(struct reading *reading, const char *keyword, char *rest) {
    struct contents *to = reading->to;
    if (strcmp(keyword, "board") == 0) return number(rest, &to->board, &reading->board);
    if (strcmp(keyword, "table") == 0) return number(rest, &to->table, &reading->table);
    if (strcmp(keyword, "hand") == 0) return hand(reading, rest);
    if (strcmp(keyword, "calls") == 0) return put_each(&to->calls, rest, put_call);
    if (strcmp(keyword, "trick") == 0) return put_each(&to->cards, rest, put_play);
    if (strcmp(keyword, "missing") == 0) return at_word("", "a record is written whole");
    if (strcmp(keyword, "claim") != 0) return at_word("", "this says nothing of a record");
    to->marked = 1;
    return number(rest, &to->claim, &reading->claim);
}

static struct fault read_line(struct reading *reading, char *rest) {
    if (*rest == '#') return none();
    const char *keyword = word(&rest);
    if (!*keyword) return none();
    struct fault fault = read_rest(reading, keyword, rest);
    fault.keyword = keyword;
    return fault;
}

struct fault read_contents(struct bytes *text, struct contents *contents) {
    struct reading reading = {contents, 0, 0, 0, {0}};
    memset(contents, 0, sizeof *contents);
    memset(contents->holders, NO_HAND, sizeof contents->holders);
    if (!put_byte(text, '\0')) return at_word("", NO_MEMORY);
    if (strlen((char *)text->at) + 1 != text->length) return at_word("", "is no text");
    unsigned long line = 1;
    for (char *at = (char *)text->at; *at; line++) {
        char *end = at + strcspn(at, "\n"), *next = *end ? end + 1 : end;
        *end = '\0';
        struct fault fault = read_line(&reading, at);
        fault.line = line;
        if (fault.what) return fault;
        at = next;
    }
    return none();
}
