/* Loaded before the proved program that AGAIN_PROGRAM names, runs its main once for each run of the file that AGAIN_RUNS names, kept by
 * tests/src/kept.rs: reading gives the run's input, in pieces that are sometimes short, and what is written has to be the run's output.
 * In the end main is run with an input, and once more with an output, that fails at once: what it says of that goes to standard error, and
 * is not compared, and it ends with another status than 0. The programs keep nothing between two calls of main. Other programs that this is loaded before, as valgrind's, run as they are. Numbers of the file have four bytes, least
 * significant first. */
#define _GNU_SOURCE
#include <dlfcn.h>
#include <errno.h>
#include <stdint.h>
#include <stdio.h>
#include <stdlib.h>
#include <string.h>
#include <sys/syscall.h>
#include <unistd.h>

typedef int main_type(int, char **, char **);

static struct {
    uint8_t *bytes;
    size_t length, at;
} in, out;
static unsigned long runs, reads, writes;
static main_type *proved;
static enum { NOTHING, INPUT, OUTPUT } fails;

static void stop(const char *why) {
    fprintf(stderr, "run %lu: %s\n", runs, why);
    _exit(1);
}

/* Two of three are given whole, the others are cut to half and at the least one byte. */
static size_t piece(unsigned long k, size_t length) { return k % 3 != 2 || length < 2 ? length : length / 2; }

ssize_t read(int from, void *to, size_t room) {
    if (!proved) return syscall(SYS_read, from, to, room);
    if (from != 0) stop("reads from another file");
    if (fails == INPUT) {
        errno = EIO;
        return -1;
    }
    size_t left = in.length - in.at, given = piece(reads++, left < room ? left : room);
    memcpy(to, in.bytes + in.at, given);
    in.at += given;
    return (ssize_t)given;
}

ssize_t write(int to, const void *from, size_t length) {
    if (!proved) return syscall(SYS_write, to, from, length);
    if (to == 2 && fails != NOTHING) return (ssize_t)length;
    if (to != 1) stop("writes to another file");
    if (fails != NOTHING) {
        errno = EIO;
        return -1;
    }
    size_t taken = piece(writes++, length);
    if (taken > out.length - out.at || memcmp(out.bytes + out.at, from, taken) != 0) stop("writes other bytes");
    out.at += taken;
    return (ssize_t)taken;
}

static int number(FILE *file, size_t *value) {
    uint8_t b[4];
    if (fread(b, 1, sizeof b, file) != sizeof b) return 0;
    *value = (size_t)b[0] | (size_t)b[1] << 8 | (size_t)b[2] << 16 | (size_t)b[3] << 24;
    return 1;
}

static uint8_t *taken(FILE *file, size_t length) {
    uint8_t *at = malloc(length + 1);
    if (!at || fread(at, 1, length, file) != length) stop("the file ends inside a run");
    return at;
}

static int each(int count, char **words, char **environment) {
    const char *path = getenv("AGAIN_RUNS");
    FILE *file = path ? fopen(path, "rb") : NULL;
    if (!file) stop("the file that AGAIN_RUNS names cannot be read");
    for (; number(file, &in.length); runs++) {
        in.bytes = taken(file, in.length);
        if (!number(file, &out.length)) stop("the file ends inside a run");
        out.bytes = taken(file, out.length);
        in.at = out.at = 0;
        proved(count, words, environment);
        if (out.at != out.length) stop("writes less");
        free(in.bytes);
        free(out.bytes);
    }
    fclose(file);
    in.length = 0;
    for (fails = INPUT; fails <= OUTPUT; fails++)
        if (proved(count, words, environment) == 0) stop("a failed read or write is passed over");
    fprintf(stderr, "%lu runs made again, no difference\n", runs);
    return 0;
}

int __libc_start_main(main_type *entry, int count, char **words, void (*init)(void), void (*fini)(void), void (*ends)(void), void *stack) {
    int (*start)(main_type *, int, char **, void (*)(void), void (*)(void), void (*)(void), void *);
    *(void **)&start = dlsym(RTLD_NEXT, "__libc_start_main");
    const char *program = getenv("AGAIN_PROGRAM");
    if (program && strcmp(program, words[0]) == 0) proved = entry;
    return start(proved ? each : entry, count, words, init, fini, ends, stack);
}
