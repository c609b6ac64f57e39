#include "letters.h"

#include <stddef.h>
#include <string.h>

const char SEATS[] = "NESW";
const char SUITS[] = "CDHS";
const char RANKS[] = "23456789TJQKA";
const char *const STRAIN_WORDS[STRAINS] = {"C", "D", "H", "S", "NT"};

int number_of(const char *letters, char letter) {
    const char *at = letter ? strchr(letters, letter) : NULL;
    return at ? (int)(at - letters) : -1;
}
