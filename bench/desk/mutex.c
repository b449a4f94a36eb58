// Rounds of lock, move out, change, move in, unlock: a pthread mutex round a struct of eight words. The arguments are
// the threads, the rounds of each, and the samples. Prints the nanoseconds of each sample, the threads' start and end
// included. With 1 the main thread makes the rounds, after another thread was started; with 0 it does so in a process
// that never had another, in which glibc locks without an atomic step.
#include <pthread.h>
#include <stdint.h>
#include <stdio.h>
#include <stdlib.h>
#include <time.h>

enum { WORDS = 8, MOST = 16 };

struct words { uint64_t word[WORDS]; };

static pthread_mutex_t turn = PTHREAD_MUTEX_INITIALIZER;
static struct words kept;
static long rounds;

static void *work(void *unused) {
    for (long round = 0; round < rounds; round++) {
        pthread_mutex_lock(&turn);
        struct words value = kept;
        __asm__ volatile("" : "+m"(value)); // else the value is changed in its place
        for (int k = 0; k < WORDS; k++) value.word[k] += 1;
        __asm__ volatile("" : "+m"(value));
        kept = value;
        pthread_mutex_unlock(&turn);
    }
    return unused;
}

static int64_t now(void) {
    struct timespec t;
    clock_gettime(CLOCK_MONOTONIC, &t);
    return t.tv_sec * INT64_C(1000000000) + t.tv_nsec;
}

int main(int count, char **args) {
    if (count != 4) return 2;
    int threads = atoi(args[1]), samples = atoi(args[3]);
    rounds = atol(args[2]);
    if (threads < 0 || threads > MOST) return 2;
    if (threads == 1) {
        pthread_t other;
        if (pthread_create(&other, NULL, work, NULL)) return 1;
        pthread_join(other, NULL);
    }
    int workers = threads ? threads : 1;
    for (int sample = 0; sample < samples; sample++) {
        pthread_t ids[MOST];
        kept = (struct words){{0}};
        int64_t start = now();
        if (threads < 2) work(NULL);
        else {
            for (int k = 0; k < workers; k++) if (pthread_create(&ids[k], NULL, work, NULL)) return 1;
            for (int k = 0; k < workers; k++) pthread_join(ids[k], NULL);
        }
        printf("%d %ld %lld\n", threads, rounds, (long long)(now() - start));
        if (kept.word[WORDS - 1] != (uint64_t)workers * (uint64_t)rounds) return 1;
    }
    return 0;
}
