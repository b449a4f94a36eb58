// What the programs that time the loops of loops.h have in common: the clock, and what arrays hold.
#include "loops.h"

static int64_t now(void) {
    struct timespec t;
    clock_gettime(CLOCK_MONOTONIC, &t);
    return t.tv_sec * INT64_C(1000000000) + t.tv_nsec;
}

static int64_t *numbers(size_t count, uint64_t seed) {
    int64_t *made = grab(count);
    for (size_t k = 0; k < count; k++) {
        seed = seed * UINT64_C(6364136223846793005) + UINT64_C(1442695040888963407);
        made[k] = (int64_t)seed;
    }
    return made;
}

// Lengths from 0 to 4094, and every sixteenth or so is INF.
static int64_t *lengths(size_t count, uint64_t seed) {
    int64_t *made = numbers(count, seed);
    for (size_t k = 0; k < count; k++) {
        uint64_t high = (uint64_t)made[k] >> 52;
        made[k] = high % 16 == 15 ? INF : (int64_t)high;
    }
    return made;
}
