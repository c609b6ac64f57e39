/* Reads the texts of a file that the program pbn_blocks writes, each text and each buffer in a heap block of exactly its length and the
 * buffer's bytes undefined, for valgrind to watch. The file has for each case two lengths of two bytes (text, buffer), two numbers of
 * four bytes (table, the number due), the text, and the bytes due where a record is written. */
#include "blocks.h"
#include "judge.h"

static int one(FILE *file, size_t text_len) {
    size_t room = number(file, 2);
    uint32_t table = number(file, 4), due = number(file, 4);
    uint8_t *text = block(text_len), *record = block(room);
    int equal = fread(text, 1, text_len, file) == text_len;
    if (judge_read_pbn(text, text_len, table, record, room) != due) equal = 0;
    if (equal && !judge_is_refusal(due)) equal = same(file, record, due);
    free(text);
    free(record);
    return equal;
}

int main(int count, char **words) { return each(count, words, "texts", one); }
