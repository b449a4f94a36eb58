/* Preloaded before a program: refuses the allocation whose number, from 1, stands in REFUSE; or each from the one whose number stands in
   REFUSE_FROM on; or each with the probability 1/REFUSE_ONE_IN, by chances that SEED begins. It writes how many were asked for into the file
   that COUNT names. */
#include <errno.h>
#include <fcntl.h>
#include <stddef.h>
#include <stdint.h>
#include <stdlib.h>
#include <unistd.h>

extern void *__libc_malloc(size_t);
extern void *__libc_realloc(void *, size_t);
extern void *__libc_calloc(size_t, size_t);
extern void *__libc_memalign(size_t, size_t);

static int is_ready, told = -1;
static uint64_t one, from, one_in, seed, calls;

static uint64_t number(const char *name) {
    const char *text = getenv(name);
    return text ? strtoull(text, NULL, 10) : 0;
}

static void get_ready(void) {
    const char *path = getenv("COUNT");
    one = number("REFUSE"), from = number("REFUSE_FROM"), one_in = number("REFUSE_ONE_IN"), seed = number("SEED");
    told = path ? open(path, O_WRONLY | O_CREAT | O_TRUNC, 0600) : -1;
    is_ready = 1;
}

/* splitmix64 */
static uint64_t chance(uint64_t n) {
    uint64_t x = seed * 0xd1342543de82ef95u + n * 0x9e3779b97f4a7c15u;
    x = (x ^ x >> 30) * 0xbf58476d1ce4e5b9u;
    x = (x ^ x >> 27) * 0x94d049bb133111ebu;
    return x ^ x >> 31;
}

static int is_refused(void) {
    /* the first allocation comes before there is a second thread */
    if (!is_ready) get_ready();
    uint64_t call = __atomic_add_fetch(&calls, 1, __ATOMIC_SEQ_CST);
    /* at each call, since the program ends without what a destructor would wait for */
    if (told >= 0 && pwrite(told, &call, sizeof call, 0) < 0) abort();
    if (call != one && !(from && call >= from) && !(one_in && chance(call) % one_in == 0)) return 0;
    errno = ENOMEM;
    return 1;
}

void *malloc(size_t size) { return is_refused() ? NULL : __libc_malloc(size); }
void *realloc(void *at, size_t size) { return is_refused() ? NULL : __libc_realloc(at, size); }
void *calloc(size_t count, size_t size) { return is_refused() ? NULL : __libc_calloc(count, size); }
void *aligned_alloc(size_t align, size_t size) { return is_refused() ? NULL : __libc_memalign(align, size); }

int posix_memalign(void **at, size_t align, size_t size) {
    if (is_refused()) return ENOMEM;
    *at = __libc_memalign(align, size);
    return *at ? 0 : ENOMEM;
}
