#include "judged.h"

struct judged judge_bytes(const uint8_t *record, size_t length) {
    struct judged judged;
    uint8_t answer[JUDGE_ANSWER_BYTES] = {0};
    judged.number = judge_record(record, length, answer, sizeof answer, judged.revokes, sizeof judged.revokes, judged.failures,
                                 sizeof judged.failures, judged.winners, sizeof judged.winners);
    judged.judgement = judge_unpack(answer);
    return judged;
}
