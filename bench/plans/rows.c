// Makes one 4096 by 4096 array of 64 by 64 tiles and tiles of it again, row by row with memcpy, each into memory of its own.
// Prints the nanoseconds of the best round.
#include <stdint.h>
#include <stdio.h>
#include <stdlib.h>
#include <string.h>
#include <time.h>

enum { N = 4096, PARTS = 64, SIDE = N / PARTS, ROUNDS = 5 };

static int64_t now(void) {
    struct timespec t;
    clock_gettime(CLOCK_MONOTONIC, &t);
    return (int64_t)t.tv_sec * 1000000000 + t.tv_nsec;
}

static int64_t *room(size_t elements) {
    int64_t *p = calloc(elements, sizeof *p);
    if (!p) exit(1);
    return p;
}

int main(void) {
    static int64_t *tiles[PARTS * PARTS], *again[PARTS * PARTS];
    int64_t best = INT64_MAX, last = 0;
    for (int t = 0; t < PARTS * PARTS; t++) {
        tiles[t] = room((size_t)SIDE * SIDE);
        for (int k = 0; k < SIDE * SIDE; k++) tiles[t][k] = (int64_t)t * k;
    }
    for (int round = 0; round < ROUNDS; round++) {
        int64_t start = now();
        int64_t *whole = room((size_t)N * N);
        for (int t = 0; t < PARTS * PARTS; t++)
            for (int row = 0; row < SIDE; row++)
                memcpy(whole + ((size_t)(t / PARTS) * SIDE + row) * N + (size_t)(t % PARTS) * SIDE, tiles[t] + (size_t)row * SIDE, SIDE * 8);
        for (int t = 0; t < PARTS * PARTS; t++) {
            again[t] = room((size_t)SIDE * SIDE);
            for (int row = 0; row < SIDE; row++)
                memcpy(again[t] + (size_t)row * SIDE, whole + ((size_t)(t / PARTS) * SIDE + row) * N + (size_t)(t % PARTS) * SIDE, SIDE * 8);
        }
        int64_t taken = now() - start;
        if (taken < best) best = taken;
        last = again[PARTS * PARTS - 1][SIDE * SIDE - 1];
        for (int t = 0; t < PARTS * PARTS; t++) free(again[t]);
        free(whole);
    }
    printf("%lld %lld\n", (long long)best, (long long)last);
    return 0;
}
