/* The driver of `bench/speed beside`: runs the calls of several libraries in turns, each a tenth of a second or more, so that a busy
 * machine disturbs all alike. It tells the best round, and those that a tenth, a quarter and half of the rounds were better than. */
#include <dlfcn.h>
#include <inttypes.h>

#define PROGRAM "bench/speed"
#include "called.h"

enum { LIBRARIES = 8, ROUNDS = 40, KEYS_ROUNDS_MOST = 20000 };

typedef uint64_t (*run_call)(const uint32_t *, size_t, const uint64_t *, size_t, const uint64_t *, size_t, uint32_t, uint32_t,
                             uint64_t *, size_t);

struct library {
    const char *name;
    run_call run;
    double build[ROUNDS], with[ROUNDS];
};

static run_call opened(const char *name) {
    void *library = dlopen(name, RTLD_NOW | RTLD_LOCAL);
    if (!library) fail(dlerror());
    run_call run = (run_call)dlsym(library, "pipapo_run");
    if (!run) fail("no pipapo_run in the library");
    return run;
}

static int later(const void *a, const void *b) {
    double x = *(const double *)a, y = *(const double *)b;
    return (x > y) - (x < y);
}

struct call {
    const struct workload *w;
    uint64_t *elements, *keys, *answers;
};

static double timed(const struct call *c, run_call run, uint32_t rounds) {
    const struct workload *w = c->w;
    double start = seconds();
    if (!run(w->kinds, w->fields, c->elements, w->element_count * w->fields * 4, c->keys, w->key_count * w->fields * 2, rounds, 0,
             c->answers, w->key_count))
        fail("want of memory");
    return seconds() - start;
}

int main(int argc, char **argv) {
    static struct library libraries[LIBRARIES];
    struct workload w = {0};
    int n = argc - 2;
    if (n < 1 || n > LIBRARIES) fail("usage: beside FILE LIBRARY ..");
    keep_memory();
    read_workload(&w, argv[1]);
    struct call c = {.w = &w};
    c.elements = words_of(w.elements, w.element_count * w.fields * 2);
    c.keys = words_of(w.keys, w.key_count * w.fields);
    c.answers = calloc(w.key_count, 8);
    if (!c.answers) fail("want of memory");
    for (int i = 0; i < n; ++i) {
        const char *folder_end = strrchr(argv[2 + i], '/');
        libraries[i].name = folder_end ? folder_end + 1 : argv[2 + i];
        libraries[i].run = opened(argv[2 + i]);
        timed(&c, libraries[i].run, 1);
    }
    double build = timed(&c, libraries[0].run, 0);
    uint32_t rounds = 1;
    /* The building of a large set is taken off, so the lookups must take longer than what it differs by from round to round. */
    while (timed(&c, libraries[0].run, rounds) < 3 * build + 0.1 && rounds < KEYS_ROUNDS_MOST) rounds *= 2;
    for (int r = 0; r < ROUNDS; ++r)
        for (int i = 0; i < n; ++i) {
            struct library *l = &libraries[(r + i) % n];
            l->build[r] = timed(&c, l->run, 0);
            l->with[r] = timed(&c, l->run, rounds);
        }
    double each = 1e9 / rounds / (double)w.key_count;
    for (int i = 0; i < n; ++i) {
        struct library *l = &libraries[i];
        qsort(l->build, ROUNDS, sizeof(double), later);
        qsort(l->with, ROUNDS, sizeof(double), later);
        printf("%s lookup_ns", l->name);
        for (int part = 0; part < 4; ++part) {
            int at = (const int[]){0, ROUNDS / 10, ROUNDS / 4, ROUNDS / 2}[part];
            printf(" %.1f", (l->with[at] - l->build[at]) * each);
        }
        printf(" inserts_per_s=%.0f\n", w.element_count / l->build[0]);
    }
    return 0;
}
