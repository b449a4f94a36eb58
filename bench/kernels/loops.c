// Times the plain loops of loops.h. Prints for each sample the kernel, the side of the tile, the calls, the nanoseconds,
// and a sum over what was written.
#include "samples.h"

enum { SAMPLES = 5 };

static void say(const char *name, size_t n, int calls, int64_t taken, const int64_t *written, size_t count) {
    uint64_t sum = 0;
    for (size_t k = 0; k < count; k++) sum = sum * 31 + (uint64_t)written[k];
    printf("%s %zu %d %lld %lld\n", name, n, calls, (long long)taken, (long long)(int64_t)sum);
}

// The cubic kernels on the largest tiles take long, and have one sample a turn; none where only the linear ones are asked.
#define TIMED(NAME, CALLS, BEFORE, CALL, WRITTEN, COUNT) \
    for (int sample = 0; sample < (CALLS == cubic ? cubic_samples : SAMPLES); sample++) { \
        int calls = CALLS; \
        int64_t start = now(); \
        for (int call = 0; call < calls; call++) { BEFORE; CALL; } \
        say(NAME, n, calls, now() - start, WRITTEN, COUNT); \
    }

// An array that a ring kernel writes, new for each kernel.
#define RING(NAME, CALLS, CALL) \
    { \
        int64_t *z = numbers(area, 3); \
        TIMED(NAME, CALLS, , CALL, z, area) \
        free(z); \
    }

#define LEAST(NAME, CALLS, CALL) TIMED(NAME, CALLS, memcpy(z, r, bytes), CALL, z, area)

static void side(size_t n, int cubic, int flat, int linear) {
    int cubic_samples = linear ? 0 : n == 1024 ? 1 : SAMPLES;
    size_t area = n * n, bytes = area * sizeof(int64_t);
    int64_t *x = numbers(area, 1), *y = numbers(area, 2), s[1];
    RING("gemm", cubic, gemm(x, y, z, n, n, n))
    RING("transpose", flat, transpose(x, z, n, n))
    RING("transpose_by_b", flat, transpose_by_b(x, z, n, n))
    RING("add", flat, add(x, z, area))
    RING("axpy", flat, axpy(call, x, z, area))
    RING("scale", flat, scale(call, z, area))
    s[0] = 0;
    TIMED("dot", flat, x[0] = call, dot(x, y, s, area), s, 1)
    s[0] = 0;
    TIMED("sum", flat, x[0] = call, sum(x, s, area), s, 1)
    int64_t *p = lengths(area, 4), *q = lengths(area, 5), *r = lengths(area, 6), *z = grab(area);
    LEAST("lowest", flat, lowest(p, z, area))
    LEAST("mingemm", cubic, mingemm(p, q, z, n, n, n))
    LEAST("mingemm_chosen", cubic, mingemm_chosen(p, q, z, n, n, n))
    LEAST("fwdiag", cubic, fwdiag(z, n))
    LEAST("fwdiag_chosen", cubic, fwdiag_chosen(z, n))
    LEAST("fwrow", cubic, fwrow(p, z, n, n))
    LEAST("fwrow_chosen", cubic, fwrow_chosen(p, z, n, n))
    LEAST("fwcol", cubic, fwcol(p, z, n, n))
    LEAST("fwcol_chosen", cubic, fwcol_chosen(p, z, n, n))
    free(x), free(y), free(p), free(q), free(r), free(z);
}

// The numbers of calls are those of the program in run.sh. With an argument the linear kernels alone.
int main(int argc, char **argv) {
    int linear = argc > 1;
    (void)argv;
    side(8, 4000, 40000, linear);
    side(20, 400, 8000, linear);
    side(64, 16, 800, linear);
    side(128, 2, 160, linear);
    side(256, 1, 32, linear);
    side(1024, 1, 2, linear);
    return 0;
}
