/* What the programs over files of cases share: numbers of so many bytes, heap blocks of exactly a length, and a run over a file. */
#ifndef BLOCKS_H
#define BLOCKS_H

#include <stdint.h>
#include <stdio.h>
#include <stdlib.h>

static uint32_t number(FILE *file, int bytes) {
    uint32_t value = 0;
    while (bytes-- > 0) value = value << 8 | (uint32_t)(getc(file) & 255);
    return value;
}

static uint8_t *block(size_t length) {
    uint8_t *at = malloc(length);
    if (!at) {
        fputs("no memory\n", stderr);
        exit(2);
    }
    return at;
}

/* Whether the next bytes of the file are those of a block. */
static int same(FILE *file, const uint8_t *at, size_t length) {
    int equal = 1;
    for (size_t k = 0; k < length; k++)
        if (getc(file) != at[k]) equal = 0;
    return equal;
}

/* Tries each case of a file, given the two bytes that it begins with; the exit status. */
static int each(int count, char **words, const char *what, int (*one)(FILE *file, size_t first)) {
    FILE *file = count == 2 ? fopen(words[1], "rb") : NULL;
    unsigned long cases = 0;
    if (!file) {
        fputs("give the file of cases\n", stderr);
        return 2;
    }
    for (int first = getc(file); first != EOF; first = getc(file), cases++) {
        if (!one(file, (size_t)first << 8 | number(file, 1))) {
            printf("a difference in case %lu\n", cases);
            fclose(file);
            return 1;
        }
    }
    fclose(file);
    printf("%lu %s, each in blocks of exactly their length, no difference\n", cases, what);
    return 0;
}

#endif
