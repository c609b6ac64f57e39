/* A refusal in the words that people read, for C99 and C++.
 *
 * The words stand in the archive libjudge_words.a, and in the shared libraries of judge.h and tally.h. The programs of this project print them, so that
 * every terminal can say the same. They are plain C, tried by tests. */
#ifndef JUDGE_WORDS_H
#define JUDGE_WORDS_H

#include <stddef.h>
#include <stdint.h>

#ifdef __cplusplus
extern "C" {
#endif

/* No words have more bytes, the zero behind them included. */
enum { JUDGE_WORDS_MOST = 96 };

/* The words of a refusal, 1 to 33, and its place: `call 7: bid not above the last bid`.
 *
 * Returns how many bytes they have, without the zero behind them. Where `length` is more than that they are written to `buffer`, with the zero; otherwise no
 * byte is written, so that a null pointer beside the length 0 asks for the number of bytes alone. Returns 0, and writes nothing, for what is no refusal and
 * for what is no place: one over 1023, and over 3 of refusal 1, which is said of the four buffers of judge_record. */
size_t judge_words(uint32_t refusal, uint32_t place, char *buffer, size_t length);

#ifdef __cplusplus
}
#endif

#endif
