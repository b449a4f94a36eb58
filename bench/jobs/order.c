// The kernels' plain loops over tiles, called in the order of a job's tasks: `order product TILE` multiplies two matrices
// of 1024 rows, `order ways TILE` finds the shortest ways between 480 places. Prints the processor time of the calls in
// nanoseconds, and the sum of what was written.
#include "../kernels/loops.h"

static int64_t now(void) {
    struct timespec t;
    clock_gettime(CLOCK_PROCESS_CPUTIME_ID, &t);
    return t.tv_sec * INT64_C(1000000000) + t.tv_nsec;
}

// Tiles whose elements are first + step p.
static int64_t **tiles(size_t count, size_t tile, int64_t step) {
    int64_t **made = malloc(count * count * sizeof(int64_t *));
    if (!made) exit(1);
    for (size_t t = 0; t < count * count; t++) {
        made[t] = grab(tile * tile);
        for (size_t p = 0; p < tile * tile; p++) made[t][p] = (int64_t)(t % 97 + 1) + step * (int64_t)p;
    }
    return made;
}

static void product(int64_t **a, int64_t **b, int64_t **c, size_t count, size_t n) {
    for (size_t i = 0; i < count; i++)
        for (size_t j = 0; j < count; j++)
            for (size_t l = 0; l < count; l++) gemm(a[i * count + l], b[l * count + j], c[i * count + j], n, n, n);
}

static void ways(int64_t **a, size_t count, size_t n) {
    for (size_t k = 0; k < count; k++) {
        int64_t *d = a[k * count + k];
        fwdiag(d, n);
        for (size_t j = 0; j < count; j++) if (j != k) fwrow(d, a[k * count + j], n, n);
        for (size_t i = 0; i < count; i++) if (i != k) fwcol(d, a[i * count + k], n, n);
        for (size_t i = 0; i < count; i++)
            for (size_t j = 0; j < count; j++)
                if (i != k && j != k) mingemm(a[i * count + k], a[k * count + j], a[i * count + j], n, n, n);
    }
}

int main(int argc, char **argv) {
    if (argc != 3) return 1;
    size_t n = strtoul(argv[2], NULL, 10);
    int multiplies = strcmp(argv[1], "product") == 0;
    size_t count = (multiplies ? 1024 : 480) / n;
    int64_t **a = tiles(count, n, 3), **b = tiles(count, n, 5), **c = tiles(count, n, 0);
    int64_t start = now();
    if (multiplies) product(a, b, c, count, n);
    else ways(a, count, n);
    int64_t taken = now() - start;
    uint64_t total = 0;
    for (size_t t = 0; t < count * count; t++)
        for (size_t p = 0; p < n * n; p++) total += (uint64_t)(multiplies ? c : a)[t][p];
    printf("%lld %lld\n", (long long)taken, (long long)(int64_t)total);
    return 0;
}
