/* Preloaded before a program: runs it once for each text that comes on descriptor 3, as its standard input and each time in a process of
   its own, and answers on descriptor 4 with the exit code, or minus the signal that ended it, and with what both its streams took. A run
   that takes longer than ten seconds is ended. So a run costs a fork, and no start of a program. */
#define _GNU_SOURCE
#include <stdint.h>
#include <stdlib.h>
#include <sys/mman.h>
#include <sys/wait.h>
#include <unistd.h>

enum { TEXTS = 3, ANSWERS = 4, LONGEST = 10, ROOM = 1 << 20 };

static char room[ROOM];

static int whole(int from, void *at, size_t size) {
    for (size_t had = 0; had < size;) {
        ssize_t more = read(from, (char *)at + had, size - had);
        if (more <= 0) return 0;
        had += more;
    }
    return 1;
}

static void told(const void *at, size_t size) {
    for (size_t had = 0; had < size;) {
        ssize_t more = write(ANSWERS, (const char *)at + had, size - had);
        if (more <= 0) _exit(2);
        had += more;
    }
}

/* what a stream took, as far as there is room for it */
static void told_stream(int stream) {
    ssize_t size = pread(stream, room, ROOM, 0);
    uint32_t length = size < 0 ? 0 : size;
    told(&length, sizeof length);
    told(room, length);
}

static void empty(int stream) {
    if (ftruncate(stream, 0) || lseek(stream, 0, SEEK_SET)) _exit(2);
}

__attribute__((constructor)) static void serve(void) {
    int streams[3];
    for (int k = 0; k < 3; k++) streams[k] = memfd_create("stream", MFD_CLOEXEC);
    uint32_t length;
    while (whole(TEXTS, &length, sizeof length)) {
        if (length > ROOM || !whole(TEXTS, room, length)) _exit(2);
        for (int k = 0; k < 3; k++) empty(streams[k]);
        if (pwrite(streams[0], room, length, 0) != (ssize_t)length) _exit(2);
        pid_t child = fork();
        if (child == 0) {
            alarm(LONGEST);
            for (int k = 0; k < 3; k++) dup2(streams[k], k);
            close(TEXTS), close(ANSWERS);
            return;
        }
        int status;
        if (child < 0 || waitpid(child, &status, 0) != child) _exit(2);
        int32_t code = WIFEXITED(status) ? WEXITSTATUS(status) : -WTERMSIG(status);
        told(&code, sizeof code);
        told_stream(streams[1]), told_stream(streams[2]);
    }
    _exit(0);
}
