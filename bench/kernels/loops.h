// The plain loops that the kernels are timed against, over tiles of 64-bit integers.
#include <stdint.h>
#include <stdio.h>
#include <stdlib.h>
#include <string.h>
#include <time.h>

#define INF INT64_MAX
#define KERNEL __attribute__((noinline, unused)) static void

KERNEL gemm(const int64_t *restrict a, const int64_t *restrict b, int64_t *restrict c, size_t m, size_t k, size_t n) {
    for (size_t i = 0; i < m; i++)
        for (size_t l = 0; l < k; l++)
            for (size_t j = 0; j < n; j++)
                c[i * n + j] = (int64_t)((uint64_t)c[i * n + j] + (uint64_t)a[i * k + l] * (uint64_t)b[l * n + j]);
}

KERNEL axpy(int64_t a, const int64_t *restrict x, int64_t *restrict y, size_t n) {
    for (size_t i = 0; i < n; i++) y[i] = (int64_t)((uint64_t)y[i] + (uint64_t)a * (uint64_t)x[i]);
}

KERNEL transpose(const int64_t *restrict a, int64_t *restrict b, size_t m, size_t n) {
    for (size_t i = 0; i < m; i++)
        for (size_t j = 0; j < n; j++) b[j * m + i] = a[i * n + j];
}

// The same in the order of the array that is written.
KERNEL transpose_by_b(const int64_t *restrict a, int64_t *restrict b, size_t m, size_t n) {
    for (size_t j = 0; j < n; j++)
        for (size_t i = 0; i < m; i++) b[j * m + i] = a[i * n + j];
}

KERNEL add(const int64_t *restrict x, int64_t *restrict y, size_t n) {
    for (size_t i = 0; i < n; i++) y[i] = (int64_t)((uint64_t)y[i] + (uint64_t)x[i]);
}

KERNEL scale(int64_t a, int64_t *restrict x, size_t n) {
    for (size_t i = 0; i < n; i++) x[i] = (int64_t)((uint64_t)a * (uint64_t)x[i]);
}

KERNEL sum(const int64_t *restrict x, int64_t *restrict s, size_t n) {
    uint64_t total = 0;
    for (size_t i = 0; i < n; i++) total += (uint64_t)x[i];
    s[0] = (int64_t)((uint64_t)s[0] + total);
}

KERNEL lowest(const int64_t *restrict x, int64_t *restrict y, size_t n) {
    for (size_t i = 0; i < n; i++) y[i] = x[i] < y[i] ? x[i] : y[i];
}

KERNEL dot(const int64_t *restrict x, const int64_t *restrict y, int64_t *restrict s, size_t n) {
    uint64_t total = 0;
    for (size_t i = 0; i < n; i++) total += (uint64_t)x[i] * (uint64_t)y[i];
    s[0] = (int64_t)((uint64_t)s[0] + total);
}

// The sum of min-plus as one would write it.
static inline int64_t plus(int64_t a, int64_t b) {
    int64_t sum;
    if (a == INF || b == INF) return INF;
    if (__builtin_add_overflow(a, b, &sum)) return a < 0 ? INT64_MIN : INF - 1;
    return sum == INF ? INF - 1 : sum;
}

// The same in the form of the library: what depends on `a` alone is chosen first, and then nothing branches.
static inline int64_t plus_chosen(int64_t a, int64_t b) {
    int64_t sum;
    if (a == INF) return INF;
    if (a >= 0) sum = (b < INF - 1 - a ? b : INF - 1 - a) + a;
    else sum = (b > INT64_MIN - a ? b : INT64_MIN - a) + a;
    return b == INF ? INF : sum;
}

#define RELAX(NAME, PLUS) \
    static inline void NAME(int64_t *row, int64_t via, const int64_t *other, size_t n) { \
        for (size_t j = 0; j < n; j++) { \
            int64_t sum = PLUS(via, other[j]); \
            row[j] = sum < row[j] ? sum : row[j]; \
        } \
    }

RELAX(relax, plus)
RELAX(relax_chosen, plus_chosen)

#define MINGEMM(NAME, RELAX_ROW) \
    KERNEL NAME(const int64_t *restrict a, const int64_t *restrict b, int64_t *restrict c, size_t m, size_t k, size_t n) { \
        for (size_t i = 0; i < m; i++) \
            for (size_t l = 0; l < k; l++) RELAX_ROW(c + i * n, a[i * k + l], b + l * n, n); \
    }

MINGEMM(mingemm, relax)
MINGEMM(mingemm_chosen, relax_chosen)

// Row k goes last, since all others read it.
#define FWDIAG(NAME, RELAX_ROW) \
    KERNEL NAME(int64_t *a, size_t n) { \
        for (size_t k = 0; k < n; k++) { \
            for (size_t i = 0; i < n; i++) if (i != k) RELAX_ROW(a + i * n, a[i * n + k], a + k * n, n); \
            RELAX_ROW(a + k * n, a[k * n + k], a + k * n, n); \
        } \
    }

FWDIAG(fwdiag, relax)
FWDIAG(fwdiag_chosen, relax_chosen)

// A block in the row of the diagonal block d, and one in its column.
#define FWROW(NAME, RELAX_ROW) \
    KERNEL NAME(const int64_t *restrict d, int64_t *restrict a, size_t n, size_t m) { \
        for (size_t k = 0; k < n; k++) { \
            for (size_t i = 0; i < n; i++) if (i != k) RELAX_ROW(a + i * m, d[i * n + k], a + k * m, m); \
            RELAX_ROW(a + k * m, d[k * n + k], a + k * m, m); \
        } \
    }

FWROW(fwrow, relax)
FWROW(fwrow_chosen, relax_chosen)

#define FWCOL(NAME, RELAX_ROW) \
    KERNEL NAME(const int64_t *restrict d, int64_t *restrict a, size_t n, size_t m) { \
        for (size_t k = 0; k < n; k++) \
            for (size_t i = 0; i < m; i++) RELAX_ROW(a + i * n, a[i * n + k], d + k * n, n); \
    }

FWCOL(fwcol, relax)
FWCOL(fwcol_chosen, relax_chosen)

static void *grab(size_t count) {
    void *made = malloc(count * sizeof(int64_t));
    if (!made) exit(1);
    return made;
}
