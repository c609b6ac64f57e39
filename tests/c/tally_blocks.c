/* Makes the calls of a file that the program tally_blocks writes, each slice and each buffer in a heap block of exactly its length and the
 * buffer's bytes undefined, for valgrind to watch. The file has for each call its kind and three lengths of two bytes (the two slices, the
 * buffer), the number among its arguments and the number due in four bytes each, the two slices, and the bytes due where it is accepted. */
#include "blocks.h"
#include "tally.h"

static uint32_t make(size_t kind, uint32_t argument, const uint8_t *a, size_t a_len, const uint8_t *b, size_t b_len, uint8_t *out, size_t room) {
    int32_t score = (int32_t)((int64_t)argument - (argument >= 0x80000000u ? 0x100000000 : 0));
    switch (kind) {
    case 0: return tally_fresh(argument, out, room);
    case 1: return tally_add(a, a_len, score, b, b_len, out, room);
    case 2: return tally_merge(a, a_len, b, b_len, out, room);
    case 3: return tally_matchpoints(a, a_len, score, b, b_len, out, room);
    case 4: return tally_award(argument, out, room);
    case 5: return tally_cell(a, a_len, score, b, b_len, out, room);
    default: return tally_hundredths(a, a_len, score, b, b_len, out, room);
    }
}

static const size_t NEEDED[] = {TALLY_BYTES,      TALLY_BYTES,      TALLY_BYTES,       TALLY_POINTS_BYTES,
                                TALLY_CELL_BYTES, TALLY_CELL_BYTES, TALLY_SHARES_BYTES};

static int one(FILE *file, size_t kind) {
    size_t a_len = number(file, 2), b_len = number(file, 2), room = number(file, 2);
    uint32_t argument = number(file, 4), due = number(file, 4);
    uint8_t *a = block(a_len), *b = block(b_len), *out = block(room);
    int equal = kind < sizeof NEEDED / sizeof NEEDED[0] && fread(a, 1, a_len, file) == a_len && fread(b, 1, b_len, file) == b_len;
    if (make(kind, argument, a, a_len, b, b_len, out, room) != due) equal = 0;
    if (equal && due == 0) equal = same(file, out, NEEDED[kind]);
    free(a);
    free(b);
    free(out);
    return equal;
}

int main(int count, char **words) { return each(count, words, "calls on tallies", one); }
