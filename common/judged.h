/* A table record judged, with the judge's buffers. */
#ifndef JUDGED_H
#define JUDGED_H

#include <stddef.h>
#include <stdint.h>

#include "judge.h"

struct judged {
    uint32_t number; /* what judge_record returned; all below are its answer only where this is 0 */
    struct judge_judgement judgement;
    uint8_t revokes[JUDGE_REVOKE_BYTES], failures[JUDGE_FAILURE_BYTES], winners[JUDGE_WINNER_BYTES];
};

struct judged judge_bytes(const uint8_t *record, size_t length);

#endif
