// Reads the text of a trace into an array of events and writes it again, with no check but of its form, and says how many
// milliseconds of the processor each took.
#include <stdio.h>
#include <stdlib.h>
#include <string.h>
#include <time.h>

typedef struct {
    int kind;
    unsigned n[3];
    char place[3];
} event;

static const char *const NAMES[] = {"claim", "run", "end", "move", "moved", "drop"};

static double now(void) { return 1e3 * clock() / CLOCKS_PER_SEC; }

static char *put(char *out, unsigned n) {
    char digits[10];
    int k = 0;
    do digits[k++] = '0' + n % 10; while (n /= 10);
    while (k) *out++ = digits[--k];
    return out;
}

int main(int argc, char **argv) {
    FILE *file = fopen(argv[1], "r");
    fseek(file, 0, SEEK_END);
    size_t size = ftell(file), count = 0, room = 1024;
    rewind(file);
    char *text = malloc(size + 1), *out = malloc(size + 64);
    if (fread(text, 1, size, file) != size) return 2;
    text[size] = 0;
    double start = now();
    event *events = malloc(room * sizeof *events);
    for (char *at = text; *at;) {
        if (count == room) events = realloc(events, (room *= 2) * sizeof *events);
        event *e = &events[count++];
        char *end = at;
        while (*end > ' ') end++;
        for (e->kind = 0; strlen(NAMES[e->kind]) != (size_t)(end - at) || memcmp(NAMES[e->kind], at, end - at); e->kind++) {}
        at = end;
        for (int k = 0; *at == ' '; k++) {
            e->place[k] = at[1];
            unsigned n = 0;
            for (at += 2; *at >= '0' && *at <= '9'; at++) n = 10 * n + (*at - '0');
            e->n[k] = n;
        }
        at++;
    }
    double read = now();
    char *to = out;
    for (size_t i = 0; i < count; i++) {
        const event *e = &events[i];
        size_t length = strlen(NAMES[e->kind]);
        memcpy(to, NAMES[e->kind], length);
        to += length;
        for (int k = 0; k < (e->kind == 3 || e->kind == 4 ? 3 : 2); k++) {
            *to++ = ' ';
            *to++ = e->place[k];
            to = put(to, e->n[k]);
        }
        *to++ = '\n';
    }
    FILE *copy = fopen(argv[2], "w");
    fwrite(out, 1, to - out, copy);
    fclose(copy);
    double written = now();
    if ((size_t)(to - out) != size || memcmp(text, out, size)) return 1;
    printf("%zu %.3f %.3f\n", count, read - start, written - read);
    return 0;
}
