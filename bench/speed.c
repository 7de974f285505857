/* The driver of bench/speed: reads a workload, and calls the library or its own textbook loop. */
#include <inttypes.h>

#define PROGRAM "bench/speed"
#include "called.h"

/* crates/pipapo_speed: a slice crosses as a pointer and a count. */
extern uint64_t pipapo_run(const uint32_t *kinds, size_t kind_count, const uint64_t *elements,
                           size_t element_words, const uint64_t *keys, size_t key_words, uint32_t rounds,
                           uint32_t lookups, uint64_t *answers, size_t answer_count);

extern uint64_t pipapo_change(const uint32_t *kinds, size_t kind_count, const uint64_t *elements,
                              size_t element_words, uint32_t rounds, uint32_t change);

extern uint64_t pipapo_disjoint(const uint32_t *kinds, size_t kind_count, const uint64_t *elements,
                                size_t element_words, uint32_t count);

/* ---- the textbook in C: one flat table a field, groups of eight bits or of four */

struct block {
    value_t base;
    unsigned free_bits;
};

struct field {
    unsigned bits, width, groups;
    size_t rules, words;       /* words of one bucket */
    uint64_t *buckets;         /* (group << width) + value, each `words` long */
    uint32_t *first, *count;   /* the span of each rule, or its element in the last field */
};

struct table {
    size_t fields;
    struct field field[16];
    uint64_t *row, *next;
};

static size_t split(value_t low, value_t high, unsigned bits, struct block *out) {
    size_t n = 0;
    for (;;) {
        unsigned k = 0;
        while (k < bits && !(low >> k & 1) && (high - low) >> k >> 1) {
            value_t size = (value_t)1 << (k + 1);
            if (low % size || size - 1 > high - low) break;
            ++k;
        }
        if (k == 127 && bits == 128 && low == 0 && high == ~(value_t)0) k = 128;
        out[n].base = low;
        out[n++].free_bits = k;
        if (k == 128) return n;
        value_t last = low + (((value_t)1 << k) - 1);
        if (last >= high) return n;
        low = last + 1;
    }
}

static unsigned group_at(const struct field *f, value_t value, unsigned g) {
    return (unsigned)(value >> (f->bits - f->width * (g + 1))) & ((1u << f->width) - 1);
}

static void mark_block(struct field *f, size_t rule, struct block b) {
    for (unsigned g = 0; g < f->groups; ++g) {
        unsigned shift = f->bits - f->width * (g + 1);
        unsigned free_bits = b.free_bits > shift ? b.free_bits - shift : 0;
        if (free_bits > f->width) free_bits = f->width;
        unsigned mask = (1u << f->width) - (1u << free_bits);
        unsigned from = group_at(f, b.base, g) & mask;
        for (unsigned v = from; v < from + (1u << free_bits); ++v)
            f->buckets[(((size_t)g << f->width) + v) * f->words + rule / 64] |= (uint64_t)1 << rule % 64;
    }
}

static void build_table(struct table *t, const struct workload *w) {
    struct block blocks[256];
    t->fields = w->fields;
    size_t most = 1;
    for (size_t f = 0; f < w->fields; ++f) {
        struct field *field = &t->field[f];
        field->bits = kind_bits[w->kinds[f]];
        field->rules = 0;
        for (size_t e = 0; e < w->element_count; ++e) {
            const value_t *pair = w->elements + (e * w->fields + f) * 2;
            field->rules += split(pair[0], pair[1], field->bits, blocks);
        }
        field->words = (field->rules + 63) / 64;
        field->width = (size_t)field->bits / 8 * 256 * 8 * field->words <= 2097152 ? 8 : 4;
        field->groups = field->bits / field->width;
        field->buckets = calloc(((size_t)field->groups << field->width) * field->words, 8);
        field->first = calloc(field->rules, 4);
        field->count = calloc(field->rules, 4);
        if (!field->buckets || !field->first || !field->count) fail("want of memory");
        if (field->words > most) most = field->words;
    }
    size_t from[17] = {0};
    for (size_t e = 0; e < w->element_count; ++e) {
        size_t counts[17];
        for (size_t f = 0; f < w->fields; ++f) {
            const value_t *pair = w->elements + (e * w->fields + f) * 2;
            counts[f] = split(pair[0], pair[1], t->field[f].bits, blocks);
            for (size_t i = 0; i < counts[f]; ++i) mark_block(&t->field[f], from[f] + i, blocks[i]);
        }
        for (size_t f = 0; f < w->fields; ++f)
            for (size_t i = 0; i < counts[f]; ++i) {
                int last = f + 1 == w->fields;
                t->field[f].first[from[f] + i] = last ? e : from[f + 1];
                t->field[f].count[from[f] + i] = last ? 1 : counts[f + 1];
            }
        for (size_t f = 0; f < w->fields; ++f) from[f] += counts[f];
    }
    t->row = calloc(most, 8);
    t->next = calloc(most, 8);
    if (!t->row || !t->next) fail("want of memory");
}

static void set_run(uint64_t *row, size_t from, size_t n) {
    for (size_t i = from; i < from + n; ++i) row[i / 64] |= (uint64_t)1 << i % 64;
}

static uint64_t find_plain(struct table *t, const value_t *key) {
    uint64_t *row = t->row, *next = t->next;
    memset(row, 0xFF, t->field[0].words * 8);
    for (size_t f = 0;; ++f) {
        const struct field *field = &t->field[f];
        for (unsigned g = 0; g < field->groups; ++g) {
            const uint64_t *bucket = field->buckets + (((size_t)g << field->width) + group_at(field, key[f], g)) * field->words;
            for (size_t i = 0; i < field->words; ++i) row[i] &= bucket[i];
        }
        if (f + 1 == t->fields) {
            for (size_t i = 0; i < field->words; ++i)
                if (row[i]) return field->first[i * 64 + __builtin_ctzll(row[i])] + 1;
            return 0;
        }
        memset(next, 0, t->field[f + 1].words * 8);
        for (size_t i = 0; i < field->words; ++i)
            for (uint64_t left = row[i]; left; left &= left - 1) {
                size_t rule = i * 64 + __builtin_ctzll(left);
                set_run(next, field->first[rule], field->count[rule]);
            }
        uint64_t *other = row;
        row = next;
        next = other;
    }
}

/* ---- what is measured */

enum { FUSED = 0, TEXTBOOK = 1, EXPIRED = 2 };

struct call {
    const struct workload *w;
    uint64_t *elements, *keys, *answers;
    uint32_t lookups; /* FUSED, TEXTBOOK or EXPIRED */
    uint64_t bytes;
};

static double timed_run(struct call *c, uint32_t rounds) {
    const struct workload *w = c->w;
    memset(c->answers, 0, w->key_count * 8);
    double start = seconds();
    c->bytes = pipapo_run(w->kinds, w->fields, c->elements, w->element_count * w->fields * 4, c->keys,
                          w->key_count * w->fields * 2, rounds, c->lookups, c->answers, w->key_count);
    double time = seconds() - start;
    if (!c->bytes) fail("want of memory");
    return time;
}

/* ---- changes of copies */

enum { COPY = 0, COMMIT = 1, DELETE = 2, PURGE = 3 };

static double timed_change(const struct call *c, uint32_t rounds, uint32_t change) {
    const struct workload *w = c->w;
    double start = seconds();
    uint64_t left = pipapo_change(w->kinds, w->fields, c->elements, w->element_count * w->fields * 4, rounds, change);
    double time = seconds() - start;
    if (!left) fail("want of memory, or no element is left");
    return time;
}

/* The milliseconds of a copy with its change. The time of a call that makes none is taken off. */
static double change_ms(const struct call *c, uint32_t change) {
    double build = 1e9, with = 1e9;
    for (int i = 0; i < 5; ++i) {
        double time = timed_change(c, 0, change);
        if (time < build) build = time;
    }
    uint32_t rounds = 1;
    while (timed_change(c, rounds, change) < 2 * build + 0.05 && rounds < 1u << 20) rounds *= 2;
    for (int i = 0; i < 5; ++i) {
        double time = timed_change(c, rounds, change);
        if (time < with) with = time;
    }
    return (with - build) * 1e3 / rounds;
}

static void changes(const struct call *c) {
    double copy = change_ms(c, COPY);
    printf("copy_ms=%.3f commit_ms=%.3f", copy, change_ms(c, COMMIT));
    printf(" delete_ms=%.3f purge_ms=%.3f\n", change_ms(c, DELETE) - copy, change_ms(c, PURGE) - copy);
}

/* ---- additions to a disjoint set */

enum { KEPT_BACK = 1000 };

static double timed_disjoint(const struct call *c, uint32_t count) {
    const struct workload *w = c->w;
    double start = seconds();
    uint64_t left = pipapo_disjoint(w->kinds, w->fields, c->elements, w->element_count * w->fields * 4, count);
    double time = seconds() - start;
    if (!left) fail("want of memory");
    return time;
}

/* The time of a call that adds nothing to the disjoint set is taken off. */
static void disjoint(const struct call *c) {
    double build = 1e9, with = 1e9;
    for (int i = 0; i < 5; ++i) {
        double time = timed_disjoint(c, 0);
        if (time < build) build = time;
        time = timed_disjoint(c, KEPT_BACK);
        if (time < with) with = time;
    }
    printf("disjoint_inserts_per_s=%.0f\n", KEPT_BACK / (with - build));
}

/* One call builds the set and looks the keys up; the time of a call without lookups is taken off. */
static void bench(struct call *c) {
    double build = 1e9, with = 1e9;
    for (int i = 0; i < 5; ++i) {
        double time = timed_run(c, 0);
        if (time < build) build = time;
    }
    uint32_t rounds = 1;
    while (timed_run(c, rounds) < 3 * build + 0.05 && rounds < 1u << 24) rounds *= 2;
    for (int i = 0; i < 9; ++i) {
        double time = timed_run(c, rounds);
        if (time < with) with = time;
    }
    printf("lookups_per_s=%.0f inserts_per_s=%.0f table_bytes=%" PRIu64,
           rounds * (double)c->w->key_count / (with - build), c->w->element_count / build, c->bytes);
    printf(" commit_ms=%.3f\n", change_ms(c, COMMIT));
}

static void bench_plain(const struct workload *w) {
    struct table t = {0};
    double start = seconds();
    build_table(&t, w);
    double build = seconds() - start, best = 1e9;
    uint64_t sum = 0;
    for (int i = 0; i < 50; ++i) {
        start = seconds();
        for (size_t k = 0; k < w->key_count; ++k) sum += find_plain(&t, w->keys + k * w->fields);
        double time = seconds() - start;
        if (time < best) best = time;
    }
    size_t bytes = 0;
    for (size_t f = 0; f < t.fields; ++f)
        bytes += ((size_t)t.field[f].groups << t.field[f].width) * t.field[f].words * 8 + t.field[f].rules * 8;
    printf("lookups_per_s=%.0f inserts_per_s=%.0f table_bytes=%zu\n", w->key_count / best,
           w->element_count / build, bytes);
    if (sum == 1) fail("a sum that is there to be used");
}

int main(int argc, char **argv) {
    struct workload w = {0};
    keep_memory();
    if (argc != 3) fail("usage: verdict FILE | bench FILE | textbook FILE | expired FILE | plain FILE | changes FILE | disjoint FILE");
    read_workload(&w, argv[2]);
    struct call c = {.w = &w};
    c.elements = words_of(w.elements, w.element_count * w.fields * 2);
    c.keys = words_of(w.keys, w.key_count * w.fields);
    c.answers = calloc(w.key_count, 8);
    if (!c.answers) fail("want of memory");
    if (!strcmp(argv[1], "verdict")) {
        timed_run(&c, 1);
        for (size_t k = 0; k < w.key_count; ++k)
            if (c.answers[k]) printf("%" PRIu64 "\n", c.answers[k] - 1);
            else printf("-\n");
    } else if (!strcmp(argv[1], "bench")) {
        bench(&c);
    } else if (!strcmp(argv[1], "textbook")) {
        c.lookups = TEXTBOOK;
        bench(&c);
    } else if (!strcmp(argv[1], "expired")) {
        c.lookups = EXPIRED;
        bench(&c);
    } else if (!strcmp(argv[1], "changes")) {
        changes(&c);
    } else if (!strcmp(argv[1], "disjoint")) {
        disjoint(&c);
    } else if (!strcmp(argv[1], "plain")) {
        bench_plain(&w);
    } else {
        fail("usage: verdict FILE | bench FILE | textbook FILE | expired FILE | plain FILE | changes FILE | disjoint FILE");
    }
    return 0;
}
