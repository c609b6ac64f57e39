/* Judges the records of a file that the program blocks writes, each record and each buffer in a heap block of exactly its length and
 * the buffers' bytes undefined, for valgrind to watch. The file has for each record five lengths of two bytes (record, answer, list,
 * failures, winners), the number due in four bytes, the record, and where it is accepted the seven bytes due, the number of revokes and
 * their bytes, the 52 bytes due of plays against Laws 50C and 50D1, and the number of bytes due of winners and they themselves. */
#include "blocks.h"
#include "judge.h"

static int one(FILE *file, size_t record_len) {
    size_t answer_len = number(file, 2), list_len = number(file, 2), failures_len = number(file, 2), winners_len = number(file, 2);
    uint32_t due = number(file, 4);
    uint8_t *record = block(record_len), *answer = block(answer_len), *list = block(list_len), *failures = block(failures_len);
    uint8_t *winners = block(winners_len);
    int equal = fread(record, 1, record_len, file) == record_len;
    uint32_t returned =
        judge_record(record, record_len, answer, answer_len, list, list_len, failures, failures_len, winners, winners_len);
    if (returned != due) equal = 0;
    if (equal && due == 0) {
        equal = same(file, answer, JUDGE_ANSWER_BYTES);
        size_t revokes = number(file, 1);
        equal = same(file, list, revokes) && equal;
        equal = same(file, failures, JUDGE_FAILURE_BYTES) && equal;
        size_t told = number(file, 1);
        equal = same(file, winners, told) && equal;
    }
    free(record);
    free(answer);
    free(list);
    free(failures);
    free(winners);
    return equal;
}

int main(int count, char **words) { return each(count, words, "records", one); }
