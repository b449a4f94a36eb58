/* StarPU's time for a job of i64, tile by tile: from the first submission to the last end, in seconds. The job is `product`, of two matrices,
   or `ways`, the shortest ways between places. The arguments are the job, the rows, the rows of a tile, the number of workers, and, for a run
   out of core, the folder of its swap file; the bytes of main memory that data may take are then those of STARPU_LIMIT_CPU_MEM, in MiB. Tiles
   are filled by tasks, before the time begins. The kernels are the plain loops of bench/kernels. */
#include <starpu.h>
#include "../kernels/loops.h"

static void fill(void *buffers[], void *given)
{
    int64_t first, step, row, column, width;
    starpu_codelet_unpack_args(given, &first, &step, &row, &column, &width);
    int64_t *x = (int64_t *)STARPU_MATRIX_GET_PTR(buffers[0]);
    size_t tile = STARPU_MATRIX_GET_NX(buffers[0]);
    for (size_t j = 0; j < tile; j++)
        for (size_t i = 0; i < tile; i++) x[j * tile + i] = first + step * ((row + (int64_t)j) * width + column + (int64_t)i);
}

/* The array of an operand, whose rows lie one behind the other. */
static int64_t *array(void *buffers[], int k)
{
    if (STARPU_MATRIX_GET_LD(buffers[k]) != STARPU_MATRIX_GET_NX(buffers[k])) abort();
    return (int64_t *)STARPU_MATRIX_GET_PTR(buffers[k]);
}

#define ROWS STARPU_MATRIX_GET_NX(buffers[0])

static void run_gemm(void *buffers[], void *unused) { (void)unused; gemm(array(buffers, 0), array(buffers, 1), array(buffers, 2), ROWS, ROWS, ROWS); }
static void run_mingemm(void *buffers[], void *unused) { (void)unused; mingemm_chosen(array(buffers, 0), array(buffers, 1), array(buffers, 2), ROWS, ROWS, ROWS); }
static void run_diagonal(void *buffers[], void *unused) { (void)unused; fwdiag_chosen(array(buffers, 0), ROWS); }
static void run_row(void *buffers[], void *unused) { (void)unused; fwrow_chosen(array(buffers, 0), array(buffers, 1), ROWS, ROWS); }
static void run_column(void *buffers[], void *unused) { (void)unused; fwcol_chosen(array(buffers, 0), array(buffers, 1), ROWS, ROWS); }

static struct starpu_codelet filling = { .cpu_funcs = { fill }, .nbuffers = 1, .modes = { STARPU_W } };
static struct starpu_codelet multiplying = { .cpu_funcs = { run_gemm }, .nbuffers = 3, .modes = { STARPU_R, STARPU_R, STARPU_RW } };
static struct starpu_codelet relaxing = { .cpu_funcs = { run_mingemm }, .nbuffers = 3, .modes = { STARPU_R, STARPU_R, STARPU_RW } };
static struct starpu_codelet diagonal = { .cpu_funcs = { run_diagonal }, .nbuffers = 1, .modes = { STARPU_RW } };
static struct starpu_codelet rows = { .cpu_funcs = { run_row }, .nbuffers = 2, .modes = { STARPU_R, STARPU_RW } };
static struct starpu_codelet columns = { .cpu_funcs = { run_column }, .nbuffers = 2, .modes = { STARPU_R, STARPU_RW } };

static void want(int is_right)
{
    if (!is_right) exit(1);
}

/* The tiles of a matrix, p by p, whose elements are first + step times their number. */
static starpu_data_handle_t *matrix(int64_t p, int64_t tile, int64_t first, int64_t step)
{
    starpu_data_handle_t *tiles = calloc((size_t)(p * p), sizeof *tiles);
    int64_t width = p * tile;
    want(tiles != NULL);
    for (int64_t i = 0; i < p; i++)
        for (int64_t j = 0; j < p; j++) {
            int64_t row = i * tile, column = j * tile;
            starpu_matrix_data_register(&tiles[i * p + j], -1, 0, (uint32_t)tile, (uint32_t)tile, (uint32_t)tile, sizeof(int64_t));
            want(starpu_task_insert(&filling, STARPU_W, tiles[i * p + j], STARPU_VALUE, &first, sizeof first, STARPU_VALUE, &step, sizeof step,
                     STARPU_VALUE, &row, sizeof row, STARPU_VALUE, &column, sizeof column, STARPU_VALUE, &width, sizeof width, 0) == 0);
        }
    return tiles;
}

static void product(starpu_data_handle_t *a, starpu_data_handle_t *b, starpu_data_handle_t *c, int64_t p)
{
    for (int64_t i = 0; i < p; i++)
        for (int64_t j = 0; j < p; j++)
            for (int64_t k = 0; k < p; k++)
                want(starpu_task_insert(&multiplying, STARPU_R, a[i * p + k], STARPU_R, b[k * p + j], STARPU_RW, c[i * p + j], 0) == 0);
}

static void ways(starpu_data_handle_t *d, int64_t p)
{
    for (int64_t k = 0; k < p; k++) {
        starpu_data_handle_t middle = d[k * p + k];
        want(starpu_task_insert(&diagonal, STARPU_RW, middle, 0) == 0);
        for (int64_t j = 0; j < p; j++)
            if (j != k) want(starpu_task_insert(&rows, STARPU_R, middle, STARPU_RW, d[k * p + j], 0) == 0);
        for (int64_t i = 0; i < p; i++)
            if (i != k) want(starpu_task_insert(&columns, STARPU_R, middle, STARPU_RW, d[i * p + k], 0) == 0);
        for (int64_t i = 0; i < p; i++)
            for (int64_t j = 0; j < p; j++)
                if (i != k && j != k)
                    want(starpu_task_insert(&relaxing, STARPU_R, d[i * p + k], STARPU_R, d[k * p + j], STARPU_RW, d[i * p + j], 0) == 0);
    }
}

int main(int count, char **words)
{
    if (count < 5) return 2;
    int64_t n = atoi(words[2]), tile = atoi(words[3]), p = n / tile;
    int multiplies = strcmp(words[1], "product") == 0;
    struct starpu_conf conf;
    starpu_conf_init(&conf);
    conf.ncpus = atoi(words[4]);
    conf.ncuda = conf.nopencl = 0;
    want(starpu_init(&conf) == 0);
    want(count < 6 || starpu_disk_register(&starpu_disk_unistd_ops, words[5], (starpu_ssize_t)1 << 30) >= 0);
    starpu_data_handle_t *given[3];
    int matrices = multiplies ? 3 : 1;
    for (int m = 0; m < matrices; m++) given[m] = matrix(p, tile, multiplies ? (int64_t[]){ 1, 5, 0 }[m] : 0, multiplies ? (int64_t[]){ 1, -2, 0 }[m] : 7);
    starpu_task_wait_for_all();
    double begun = starpu_timing_now();
    if (multiplies) product(given[0], given[1], given[2], p);
    else ways(given[0], p);
    starpu_task_wait_for_all();
    printf("%.3f\n", (starpu_timing_now() - begun) / 1e6);
    for (int m = 0; m < matrices; m++)
        for (int64_t k = 0; k < p * p; k++) starpu_data_unregister_no_coherency(given[m][k]);
    starpu_shutdown();
    return 0;
}
