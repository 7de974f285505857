/* The sets through libpipapo, as a program in C uses them:
 *
 *     library_bench bench held|many FILE    a call a key between enter and leave, or 64 keys a call
 *     library_bench verdict held|many FILE
 */
#define PROGRAM "library_bench"
#include "packed.h"
#include "pipapo.h"

enum { BATCH = 64, LATER_MOST = 20 };

struct library {
    struct workload w;
    size_t key_bytes;
    uint8_t *bounds, *keys; /* two keys an element, and keys, both without padding */
    pipapo_control control;
    pipapo_reader reader;
    uint64_t found; /* so that no lookup is left out */
};

static void must(uint32_t error, const char *what) {
    if (error == PIPAPO_OK) return;
    fprintf(stderr, PROGRAM ": %s: %s\n", what, pipapo_strerror(error));
    exit(1);
}

static void read_library(struct library *l, const char *name) {
    struct workload *w = &l->w;
    read_workload(w, name);
    for (size_t f = 0; f < w->fields; ++f) l->key_bytes += kind_bits[w->kinds[f]] / 8;
    l->bounds = malloc(w->element_count * 2 * l->key_bytes);
    l->keys = malloc(w->key_count * l->key_bytes);
    if (!l->bounds || !l->keys) fail("want of memory");
    uint8_t *bounds = l->bounds, *key = l->keys;
    for (size_t e = 0; e < w->element_count; ++e)
        for (size_t end = 0; end < 2; ++end)
            for (size_t f = 0; f < w->fields; bounds += kind_bits[w->kinds[f++]] / 8)
                pack(bounds, w->elements[(e * w->fields + f) * 2 + end], kind_bits[w->kinds[f]] / 8);
    for (size_t k = 0; k < w->key_count; ++k)
        for (size_t f = 0; f < w->fields; key += kind_bits[w->kinds[f++]] / 8)
            pack(key, w->keys[k * w->fields + f], kind_bits[w->kinds[f]] / 8);
}

static void start(struct library *l) {
    pipapo_set set = {.fields = (uint32_t)l->w.fields};
    memcpy(set.kinds, l->w.kinds, sizeof set.kinds);
    must(pipapo_start(&set, 1, &l->control, &l->reader, 1), "start");
}

static void stop(struct library *l) {
    pipapo_free(&l->reader);
    pipapo_free(&l->control);
}

static void insert(struct library *l, size_t e) {
    pipapo_answer answer;
    must(pipapo_insert(&l->control, 0, l->bounds + e * 2 * l->key_bytes, 2 * l->key_bytes, PIPAPO_NEVER, "", 0, 0, &answer),
         "insert");
}

static void commit(struct library *l) {
    uint64_t generation, purged;
    must(pipapo_commit(&l->control, 0, &generation, &purged), "commit");
}

static void look_up_held(void *at, size_t n) {
    struct library *l = at;
    uint64_t generation, id;
    must(pipapo_enter(&l->reader, &generation), "enter");
    for (size_t i = 0, k = 0; i < n; ++i, k = k + 1 == l->w.key_count ? 0 : k + 1) {
        must(pipapo_lookup(&l->reader, 0, l->keys + k * l->key_bytes, l->key_bytes, 0, &id), "lookup");
        l->found += id != PIPAPO_NONE;
    }
    must(pipapo_leave(&l->reader), "leave");
}

static void look_up_many(void *at, size_t n) {
    struct library *l = at;
    uint64_t generation, ids[BATCH];
    for (size_t k = 0; n > 0;) {
        size_t count = n < BATCH ? n : BATCH;
        if (l->w.key_count - k < count) count = l->w.key_count - k;
        must(pipapo_lookup_many(&l->reader, 0, l->keys + k * l->key_bytes, count * l->key_bytes, 0, ids, count, &generation),
             "lookup_many");
        for (size_t i = 0; i < count; ++i) l->found += ids[i] != PIPAPO_NONE;
        k = k + count == l->w.key_count ? 0 : k + count;
        n -= count;
    }
}

static void bench(struct library *l, void (*look_up)(void *, size_t)) {
    size_t count = l->w.element_count, later = count >= 200 ? LATER_MOST : count / 2;
    double inserts = 0, commit_time = 1e9, spent = 0;
    for (int i = 0;; ++i) {
        start(l);
        double began = seconds();
        for (size_t e = 0; e < count - later; ++e) insert(l, e);
        commit(l);
        double time = seconds() - began;
        spent += time;
        if ((double)(count - later) / time > inserts) inserts = (double)(count - later) / time;
        if (i == 6 || spent > 0.7) break;
        stop(l);
    }
    for (size_t e = count - later; e < count; ++e) {
        double began = seconds();
        insert(l, e);
        commit(l);
        double time = seconds() - began;
        if (time < commit_time) commit_time = time;
    }
    double lookups = best_rate(look_up, l);
    printf("lookups_per_s=%.0f inserts_per_s=%.0f commit_ms=%.4f\n", lookups, inserts, commit_time * 1e3);
    stop(l);
}

static void print_id(uint64_t id) {
    if (id == PIPAPO_NONE) puts("-");
    else printf("%llu\n", (unsigned long long)id);
}

static void tell_verdicts(struct library *l, int many) {
    uint64_t generation, *ids = malloc(l->w.key_count * sizeof *ids);
    if (!ids) fail("want of memory");
    start(l);
    for (size_t e = 0; e < l->w.element_count; ++e) insert(l, e);
    commit(l);
    if (many)
        must(pipapo_lookup_many(&l->reader, 0, l->keys, l->w.key_count * l->key_bytes, 0, ids, l->w.key_count, &generation),
             "lookup_many");
    else
        for (size_t k = 0; k < l->w.key_count; ++k)
            must(pipapo_lookup(&l->reader, 0, l->keys + k * l->key_bytes, l->key_bytes, 0, &ids[k]), "lookup");
    for (size_t k = 0; k < l->w.key_count; ++k) print_id(ids[k]);
    stop(l);
    free(ids);
}

int main(int argc, char **argv) {
    struct library l = {.control = PIPAPO_EMPTY, .reader = PIPAPO_EMPTY};
    int many = argc == 4 && !strcmp(argv[2], "many");
    if (argc != 4 || (!many && strcmp(argv[2], "held"))) fail("usage: bench held|many FILE | verdict held|many FILE");
    read_library(&l, argv[3]);
    if (!strcmp(argv[1], "verdict")) tell_verdicts(&l, many);
    else if (!strcmp(argv[1], "bench")) bench(&l, many ? look_up_many : look_up_held);
    else fail("usage: bench held|many FILE | verdict held|many FILE");
    free(l.bounds);
    free(l.keys);
    return 0;
}
