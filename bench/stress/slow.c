/* Preloaded before a program: each read and each write at a place of a file takes up to SLOW microseconds longer; and a write that ends
   beyond the file's first ROOM bytes, where that is given, fails as on a file system that is full. */
#include <errno.h>
#include <stdint.h>
#include <stdlib.h>
#include <sys/syscall.h>
#include <sys/types.h>
#include <unistd.h>

static uint64_t number(const char *name)
{
    const char *text = getenv(name);
    return text ? strtoull(text, NULL, 10) : 0;
}

static void take_time(void)
{
    static __thread unsigned chance;
    static uint64_t threads;
    if (chance == 0) chance = (unsigned)__atomic_add_fetch(&threads, 1, __ATOMIC_SEQ_CST) * 2654435761u | 1;
    uint64_t most = number("SLOW");
    if (most) usleep((useconds_t)((uint64_t)rand_r(&chance) % (most + 1)));
}

ssize_t pread64(int file, void *bytes, size_t count, off_t at)
{
    take_time();
    return syscall(SYS_pread64, file, bytes, count, at);
}

ssize_t pwrite64(int file, const void *bytes, size_t count, off_t at)
{
    take_time();
    uint64_t room = number("ROOM");
    if (room && (uint64_t)at + count > room) {
        errno = ENOSPC;
        return -1;
    }
    return syscall(SYS_pwrite64, file, bytes, count, at);
}

ssize_t pread(int file, void *bytes, size_t count, off_t at) { return pread64(file, bytes, count, at); }
ssize_t pwrite(int file, const void *bytes, size_t count, off_t at) { return pwrite64(file, bytes, count, at); }
