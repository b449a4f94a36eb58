/* StarPU's time for an almost empty task: 100,000 tasks over 100 elements, from the first submission to the last end. The argument is
   the number of workers. */
#include <starpu.h>
#include <stdint.h>
#include <stdio.h>
#include <stdlib.h>

enum { TASKS = 100000, CELLS = 100 };

static void scale(void *buffers[], void *unused)
{
    (void)unused;
    int64_t *x = (int64_t *)STARPU_VARIABLE_GET_PTR(buffers[0]);
    *x = (int64_t)((uint64_t)*x * 3);
}

int main(int count, char **words)
{
    static int64_t elements[CELLS];
    static starpu_data_handle_t handles[CELLS];
    static struct starpu_codelet codelet = { .cpu_funcs = { scale }, .nbuffers = 1, .modes = { STARPU_RW } };
    struct starpu_conf conf;
    starpu_conf_init(&conf);
    conf.ncpus = count > 1 ? atoi(words[1]) : 1;
    conf.ncuda = conf.nopencl = 0;
    if (starpu_init(&conf) != 0) return 1;
    for (int k = 0; k < CELLS; k++) {
        elements[k] = k;
        starpu_variable_data_register(&handles[k], STARPU_MAIN_RAM, (uintptr_t)&elements[k], sizeof elements[k]);
    }
    double begun = starpu_timing_now();
    for (int t = 0; t < TASKS; t++)
        if (starpu_task_insert(&codelet, STARPU_RW, handles[t % CELLS], 0) != 0) return 1;
    starpu_task_wait_for_all();
    printf("%.2f\n", (starpu_timing_now() - begun) / TASKS);
    for (int k = 0; k < CELLS; k++) starpu_data_unregister(handles[k]);
    starpu_shutdown();
    return 0;
}
