/* Writes the contents of a file that the program write_blocks writes, each list and each buffer in a heap block of exactly its length and
 * the buffer's bytes undefined, for valgrind to watch. The file has for each case four lengths of two bytes (holders, calls, cards,
 * buffer), five numbers of four bytes (board, table, mark, claim, the number due), the three lists, and the bytes due where the record
 * is written. */
#include "blocks.h"
#include "judge.h"

static uint8_t *list(FILE *file, size_t length, int *whole) {
    uint8_t *at = block(length);
    if (fread(at, 1, length, file) != length) *whole = 0;
    return at;
}

static int one(FILE *file, size_t holders_len) {
    size_t calls_len = number(file, 2), cards_len = number(file, 2), room = number(file, 2);
    uint32_t board = number(file, 4), table = number(file, 4), marked = number(file, 4), claim = number(file, 4), due = number(file, 4);
    int equal = 1;
    uint8_t *holders = list(file, holders_len, &equal), *calls = list(file, calls_len, &equal);
    uint8_t *cards = list(file, cards_len, &equal), *record = block(room);
    uint32_t returned = judge_write_record(board, table, holders, holders_len, calls, calls_len, cards, cards_len, marked, claim, record, room);
    if (returned != due) equal = 0;
    if (equal && !judge_is_refusal(due)) equal = same(file, record, due);
    free(holders);
    free(calls);
    free(cards);
    free(record);
    return equal;
}

int main(int count, char **words) { return each(count, words, "contents", one); }
