/* Reads a job text of vectors, matrices, `add` tasks and print lines from standard input, runs it, and prints the arrays:
   the same work as starjob does, in plain C without any check. */
#include <stdio.h>
#include <stdlib.h>
#include <string.h>
#include <stdint.h>

struct vector { char name[32]; size_t rows, length; int64_t *items; };
static struct vector vectors[4096];
static size_t count;

static struct vector *find(const char *name, size_t length) {
    for (size_t i = 0; i < count; i++)
        if (strlen(vectors[i].name) == length && !memcmp(vectors[i].name, name, length)) return &vectors[i];
    return NULL;
}

static char *word(char **at, size_t *length) {
    char *p = *at;
    while (*p == ' ' || *p == '\t' || *p == '\r') p++;
    char *begin = p;
    while (*p && *p != ' ' && *p != '\t' && *p != '\r' && *p != '\n') p++;
    *at = p;
    *length = p - begin;
    return begin;
}

int main(void) {
    size_t room = 1 << 16, size = 0;
    char *text = malloc(room + 1);
    for (size_t n; (n = fread(text + size, 1, room - size, stdin)) > 0;) {
        size += n;
        if (size == room) text = realloc(text, (room *= 2) + 1);
    }
    text[size] = 0;
    for (char *p = text; *p;) {
        size_t n;
        char *w = word(&p, &n);
        if (n == 6 && (!memcmp(w, "vector", 6) || !memcmp(w, "matrix", 6))) {
            int is_matrix = *w == 'm';
            struct vector *v = &vectors[count++];
            w = word(&p, &n);
            memcpy(v->name, w, n);
            if (is_matrix) v->rows = strtoull(word(&p, &n), NULL, 10);
            v->length = strtoull(word(&p, &n), NULL, 10) * (is_matrix ? v->rows : 1);
            v->items = malloc(v->length * sizeof *v->items);
            word(&p, &n);
            for (size_t i = 0; i < v->length; i++) v->items[i] = strtoll(p, &p, 10);
        } else if (n == 4 && !memcmp(w, "task", 4)) {
            word(&p, &n);
            w = word(&p, &n);
            struct vector *x = find(w, n - 2);
            w = word(&p, &n);
            struct vector *y = find(w, n - 3);
            for (size_t i = 0; i < x->length; i++) y->items[i] += x->items[i];
        } else if (n == 5 && !memcmp(w, "print", 5)) {
            w = word(&p, &n);
            struct vector *v = find(w, n);
            if (v->rows) {
                size_t cols = v->length / v->rows;
                printf("%s %zu %zu:\n", v->name, v->rows, cols);
                for (size_t i = 0; i < v->length; i++)
                    printf("%lld%c", (long long)v->items[i], (i + 1) % cols ? ' ' : '\n');
            } else {
                printf("%s:", v->name);
                for (size_t i = 0; i < v->length; i++) printf(" %lld", (long long)v->items[i]);
                putchar('\n');
            }
        }
        while (*p && *p != '\n') p++;
        if (*p) p++;
    }
    return 0;
}
