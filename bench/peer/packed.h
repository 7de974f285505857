/* A workload's values as the peers want them: each field in network order, padded to four bytes; and the time of lookups. */
#ifndef PACKED_H
#define PACKED_H

#include "../workload.h"

struct packed {
    struct workload w;
    size_t bytes[16], offset[16], key_bytes;
    uint8_t *lows, *highs, *keys; /* key_bytes each */
};

static void pack(uint8_t *to, value_t value, size_t bytes) {
    while (bytes--) {
        to[bytes] = (uint8_t)value;
        value >>= 8;
    }
}

static void read_packed(struct packed *p, const char *name) {
    struct workload *w = &p->w;
    read_workload(w, name);
    for (size_t f = 0; f < w->fields; ++f) {
        p->bytes[f] = kind_bits[w->kinds[f]] / 8;
        p->offset[f] = p->key_bytes;
        p->key_bytes += (p->bytes[f] + 3) / 4 * 4;
    }
    p->lows = calloc(w->element_count, p->key_bytes);
    p->highs = calloc(w->element_count, p->key_bytes);
    p->keys = calloc(w->key_count, p->key_bytes);
    if (!p->lows || !p->highs || !p->keys) fail("want of memory");
    for (size_t e = 0; e < w->element_count; ++e)
        for (size_t f = 0; f < w->fields; ++f) {
            const value_t *pair = w->elements + (e * w->fields + f) * 2;
            size_t at = e * p->key_bytes + p->offset[f];
            pack(p->lows + at, pair[0], p->bytes[f]);
            pack(p->highs + at, pair[1], p->bytes[f]);
        }
    for (size_t k = 0; k < w->key_count; ++k)
        for (size_t f = 0; f < w->fields; ++f)
            pack(p->keys + k * p->key_bytes + p->offset[f], w->keys[k * w->fields + f], p->bytes[f]);
}

/* How many calls a second `many(arg, n)` makes: the best of fifty runs of a fiftieth of a second. */
static double best_rate(void (*many)(void *, size_t), void *arg) {
    size_t n = 64;
    double best = 0, time;
    for (;; n *= 2) {
        double start = seconds();
        many(arg, n);
        time = seconds() - start;
        if (time > 0.02) break;
    }
    for (int i = 0; i < 50; ++i) {
        double start = seconds();
        many(arg, n);
        time = seconds() - start;
        if (n / time > best) best = n / time;
    }
    return best;
}

#endif
