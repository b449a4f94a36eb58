// Splits a 4096 by 4096 array of 64-bit integers into 8 by 8 children and gathers them into another,
// row by row with memcpy. Prints the milliseconds of each round.
#include <stdint.h>
#include <stdio.h>
#include <stdlib.h>
#include <string.h>
#include <time.h>

enum { N = 4096, PARTS = 8, SIDE = N / PARTS, ROUNDS = 10 };

static double now(void) {
    struct timespec t;
    clock_gettime(CLOCK_MONOTONIC, &t);
    return t.tv_sec * 1e3 + t.tv_nsec / 1e6;
}

int main(void) {
    int64_t *from = calloc((size_t)N * N, sizeof *from), *into = calloc((size_t)N * N, sizeof *into);
    if (!from || !into) return 1;
    for (size_t k = 0; k < (size_t)N * N; k++) { from[k] = (int64_t)k; into[k] = 1; }
    for (int round = 0; round < ROUNDS; round++) {
        double start = now();
        for (int i = 0; i < PARTS; i++)
            for (int j = 0; j < PARTS; j++) {
                int64_t *child = malloc(sizeof *child * SIDE * SIDE);
                if (!child) return 1;
                size_t corner = (size_t)i * SIDE * N + (size_t)j * SIDE;
                for (int row = 0; row < SIDE; row++)
                    memcpy(child + (size_t)row * SIDE, from + corner + (size_t)row * N, SIDE * sizeof *child);
                for (int row = 0; row < SIDE; row++)
                    memcpy(into + corner + (size_t)row * N, child + (size_t)row * SIDE, SIDE * sizeof *child);
                free(child);
            }
        printf("%.2f\n", now() - start);
    }
    return into[(size_t)N * N - 1] == (int64_t)N * N - 1 ? 0 : 1;
}
