#include <judge.h>
#include <stdio.h>

int main(void) {
    uint8_t record[512], answer[JUDGE_ANSWER_BYTES], revokes[JUDGE_REVOKE_BYTES], failures[JUDGE_FAILURE_BYTES];
    uint8_t winners[JUDGE_WINNER_BYTES];
    size_t length = fread(record, 1, sizeof record, stdin);
    uint32_t number = judge_record(record, length, answer, sizeof answer, revokes, sizeof revokes, failures, sizeof failures,
                                   winners, sizeof winners);
    if (number != 0) {
        printf("refused: number %d, place %u\n", judge_refusal_of(number), judge_place_of(number));
        return 1;
    }
    struct judge_judgement j = judge_unpack(answer);
    printf("board %u: NS %d, %u revokes\n", j.board, j.score, j.revokes);
    return 0;
}
