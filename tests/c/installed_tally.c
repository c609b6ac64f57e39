#include <stdio.h>
#include <tally.h>

int main(int count, char **names) {
    uint8_t merged[TALLY_BYTES] = {0}, block[TALLY_BYTES];
    for (int k = 1; k < count; k++) {
        FILE *file = fopen(names[k], "rb");
        if (!file || fread(block, 1, sizeof block, file) != sizeof block) return 2;
        fclose(file);
        if (k == 1) tally_fresh(tally_board(block), merged, sizeof merged);
        tally_reduce(block, merged);
    }
    printf("board %u: %u results of %d\n", tally_board(merged), tally_count_at(merged, 0), tally_score_at(merged, 0));
    return tally_board(merged) == 0;
}
