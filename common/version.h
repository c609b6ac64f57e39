/* The versions of the interfaces as a program prints them. */
#ifndef VERSION_H
#define VERSION_H

#include "judge.h"
#include "tally.h"

#define WORDS_OF(number) #number
#define VERSION_WORDS(major, minor) WORDS_OF(major) "." WORDS_OF(minor)
#define JUDGE_VERSION_WORDS "judge " VERSION_WORDS(JUDGE_VERSION_MAJOR, JUDGE_VERSION_MINOR)
#define TALLY_VERSION_WORDS "tally " VERSION_WORDS(TALLY_VERSION_MAJOR, TALLY_VERSION_MINOR)

#endif
