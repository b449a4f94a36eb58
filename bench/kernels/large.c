// Times the plain loops of loops.h on one row and one column of 1,048,576 elements, and on 4096 by 4096. A program of its
// own, so that loops.c is built as it would be without it. Prints for each sample the kernel, the sides of the tile, the
// calls, the nanoseconds, and a sum over what was written.
#include "samples.h"

enum { SAMPLES = 5 };

static void say(const char *name, size_t m, size_t n, int calls, int64_t taken, const int64_t *written, size_t count) {
    uint64_t sum = 0;
    for (size_t k = 0; k < count; k++) sum = sum * 31 + (uint64_t)written[k];
    printf("%s %zux%zu %d %lld %lld\n", name, m, n, calls, (long long)taken, (long long)(int64_t)sum);
}

// The cubic kernels on the square take long, and have one sample.
#define TIMED(NAME, SAMPLES, BEFORE, CALL, WRITTEN, COUNT) \
    for (int sample = 0; sample < SAMPLES; sample++) { \
        int64_t start = now(); \
        for (int call = 0; call < calls; call++) { BEFORE; CALL; } \
        say(NAME, m, n, calls, now() - start, WRITTEN, COUNT); \
    }

// An array that a ring kernel writes, new for each kernel.
#define RING(NAME, SAMPLES, CALL) \
    { \
        int64_t *z = numbers(area, 3); \
        TIMED(NAME, SAMPLES, , CALL, z, area) \
        free(z); \
    }

#define LEAST(NAME, SAMPLES, CALL) TIMED(NAME, SAMPLES, memcpy(z, r, bytes), CALL, z, area)

// The product of m by k and k by n, and the others on m by n. Of the kernels for shortest ways those whose blocks are as
// large, and on the square none of min-plus that is cubic.
static void sides(size_t m, size_t k, size_t n, int calls) {
    size_t area = m * n, bytes = area * sizeof(int64_t);
    int cubic = k > 1 ? 1 : SAMPLES, flat = SAMPLES;
    int64_t *x = numbers(area, 1), *y = numbers(area, 2), s[1];
    RING("gemm", cubic, gemm(x, y, z, m, k, n))
    RING("transpose", flat, transpose(x, z, m, n))
    RING("transpose_by_b", flat, transpose_by_b(x, z, m, n))
    RING("add", flat, add(x, z, area))
    RING("axpy", flat, axpy(call, x, z, area))
    RING("scale", flat, scale(call, z, area))
    s[0] = 0;
    TIMED("dot", flat, x[0] = call, dot(x, y, s, area), s, 1)
    s[0] = 0;
    TIMED("sum", flat, x[0] = call, sum(x, s, area), s, 1)
    int64_t *p = lengths(area, 4), *q = lengths(area, 5), *r = lengths(area, 6), *z = grab(area);
    LEAST("lowest", flat, lowest(p, z, area))
    if (k == 1) {
        LEAST("mingemm", flat, mingemm(p, q, z, m, k, n))
        LEAST("mingemm_chosen", flat, mingemm_chosen(p, q, z, m, k, n))
    }
    if (m == 1) {
        LEAST("fwrow", flat, fwrow(p, z, k, n))
        LEAST("fwrow_chosen", flat, fwrow_chosen(p, z, k, n))
    }
    if (n == 1) {
        LEAST("fwcol", flat, fwcol(p, z, k, m))
        LEAST("fwcol_chosen", flat, fwcol_chosen(p, z, k, m))
    }
    free(x), free(y), free(p), free(q), free(r), free(z);
}

// The numbers of calls are those of the program in run.sh.
int main(void) {
    sides(1, 1, 1 << 20, 2);
    sides(1 << 20, 1, 1, 2);
    sides(4096, 4096, 4096, 1);
    return 0;
}
