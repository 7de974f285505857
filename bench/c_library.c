/* Lookups a second through the library for C, and by the set alone. The driver of bench/c_library. */
#define _GNU_SOURCE
#include <dlfcn.h>
#include <inttypes.h>

#define PROGRAM "bench/c_library"
#include "called.h"
#include "pipapo.h"

enum { ROUNDS = 25, PASSES = 8 };

static const size_t widths[6] = {4, 16, 6, 1, 2, 4};
static struct workload work;
static uint8_t *keys;
static size_t key_bytes;
static pipapo_control control = PIPAPO_EMPTY;
static pipapo_reader reader = PIPAPO_EMPTY;

static double cpu_seconds(void) {
    struct timespec now;
    clock_gettime(CLOCK_THREAD_CPUTIME_ID, &now);
    return (double)now.tv_sec + (double)now.tv_nsec * 1e-9;
}

static void must(uint32_t error, const char *what) {
    if (error != PIPAPO_OK) {
        fprintf(stderr, PROGRAM ": %s: %s\n", what, pipapo_strerror(error));
        exit(1);
    }
}

/* Writes a value in network byte order, and gives the place after it. */
static uint8_t *packed(uint8_t *at, value_t value, size_t width) {
    for (size_t i = 0; i < width; ++i) at[i] = (uint8_t)(value >> 8 * (width - 1 - i));
    return at + width;
}

static void build(void) {
    pipapo_set set = {.fields = (uint32_t)work.fields};
    pipapo_answer answer;
    uint64_t generation, purged;
    memcpy(set.kinds, work.kinds, sizeof set.kinds);
    must(pipapo_start(&set, 1, &control, &reader, 1), "start");
    for (size_t f = 0; f < work.fields; ++f) key_bytes += widths[work.kinds[f]];
    for (size_t e = 0; e < work.element_count; ++e) {
        uint8_t bounds[512], *at = bounds;
        for (int end = 0; end < 2; ++end)
            for (size_t f = 0; f < work.fields; ++f)
                at = packed(at, work.elements[(e * work.fields + f) * 2 + (size_t)end], widths[work.kinds[f]]);
        must(pipapo_insert(&control, 0, bounds, 2 * key_bytes, PIPAPO_NEVER, "", 0, 0, &answer), "insert");
    }
    must(pipapo_commit(&control, 0, &generation, &purged), "commit");
    keys = malloc(work.key_count * key_bytes);
    if (!keys) fail("out of memory");
    uint8_t *at = keys;
    for (size_t k = 0; k < work.key_count; ++k)
        for (size_t f = 0; f < work.fields; ++f) at = packed(at, work.keys[k * work.fields + f], widths[work.kinds[f]]);
}

/* Nanoseconds of a lookup: by a call of its own each (0), between enter and leave (1), or so many by a call. */
static double one_round(size_t way, uint64_t *hits) {
    uint64_t id, generation, *ids = malloc(work.key_count * sizeof *ids);
    if (!ids) fail("out of memory");
    double start = cpu_seconds();
    *hits = 0;
    if (way <= 1) {
        if (way == 1) must(pipapo_enter(&reader, &generation), "enter");
        for (size_t k = 0; k < work.key_count; ++k) {
            must(pipapo_lookup(&reader, 0, keys + k * key_bytes, key_bytes, 0, &id), "lookup");
            *hits += id != PIPAPO_NONE;
        }
        if (way == 1) must(pipapo_leave(&reader), "leave");
    } else {
        for (size_t k = 0; k < work.key_count; k += way) {
            size_t count = work.key_count - k < way ? work.key_count - k : way;
            must(pipapo_lookup_many(&reader, 0, keys + k * key_bytes, count * key_bytes, 0, ids, count, &generation), "lookup_many");
            for (size_t i = 0; i < count; ++i) *hits += ids[i] != PIPAPO_NONE;
        }
    }
    double time = cpu_seconds() - start;
    free(ids);
    return time * 1e9 / (double)work.key_count;
}

/* The set alone, as bench/speed.c calls it: it is built anew in each call, so the time of a call without lookups is taken off. */
static struct {
    uint64_t (*run)(const uint32_t *, size_t, const uint64_t *, size_t, const uint64_t *, size_t, uint32_t, uint32_t, uint64_t *,
                    size_t);
    uint64_t *elements, *keys, *answers;
} alone;

static void open_alone(const char *name) {
    void *library = dlopen(name, RTLD_NOW | RTLD_LOCAL);
    if (!library) fail(dlerror());
    *(void **)&alone.run = dlsym(library, "pipapo_run");
    alone.elements = words_of(work.elements, work.element_count * work.fields * 2);
    alone.keys = words_of(work.keys, work.key_count * work.fields);
    alone.answers = calloc(work.key_count, sizeof *alone.answers);
    if (!alone.run || !alone.answers) fail("the set alone can't be run");
}

static double run_alone(uint32_t passes) {
    double start = cpu_seconds();
    if (!alone.run(work.kinds, work.fields, alone.elements, work.element_count * work.fields * 4, alone.keys,
                   work.key_count * work.fields * 2, passes, 0, alone.answers, work.key_count))
        fail("out of memory");
    return cpu_seconds() - start;
}

int main(int argc, char **argv) {
    static const size_t ways[] = {0, 1, 8, 64, 4096};
    static const char *const names[] = {"a call a key", "held", "8 keys a call", "64 keys a call", "4096 keys a call"};
    double best[5] = {1e9, 1e9, 1e9, 1e9, 1e9};
    uint64_t hits[5];
    double building = 1e9, looking = 1e9;
    uint64_t hits_alone = 0;
    if (argc != 3) fail("usage: c_library FILE LIBRARY");
    keep_memory();
    read_workload(&work, argv[1]);
    build();
    open_alone(argv[2]);
    for (int round = 0; round < ROUNDS; ++round) {
        double without = run_alone(0), with = run_alone(PASSES);
        if (without < building) building = without;
        if (with < looking) looking = with;
        for (size_t i = 0; i < 5; ++i) {
            double time = one_round(ways[i], &hits[i]);
            if (time < best[i]) best[i] = time;
        }
    }
    for (size_t k = 0; k < work.key_count; ++k) hits_alone += alone.answers[k] != 0;
    printf("%-17s %6.1f ns a lookup, %" PRIu64 " of %zu found\n", "the set alone",
           (looking - building) * 1e9 / PASSES / (double)work.key_count, hits_alone, work.key_count);
    for (size_t i = 0; i < 5; ++i) printf("%-17s %6.1f ns a lookup, %" PRIu64 " of %zu found\n", names[i], best[i], hits[i], work.key_count);
    pipapo_free(&reader);
    pipapo_free(&control);
    return 0;
}
