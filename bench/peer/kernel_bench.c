/* The kernel's own pipapo sets in a plain program, over the stand-ins of kernel_shim.h.
 *
 *     kernel_bench verdict scalar|avx2 FILE    for each key the number of the element that it matched, or -
 *     kernel_bench bench scalar|avx2 FILE      lookups and insertions a second, and the time of a commit
 */
#include <malloc.h>

#include "kernel_shim.h"
#include "nft_set_pipapo.h"
#include "nft_set_pipapo_avx2.h"

#define PROGRAM "kernel_bench"
#include "packed.h"

static struct net net;

struct kernel_set {
    struct nft_set set;
    const struct packed *p;
    void **elements; /* those that were accepted */
    size_t at, hits; /* of the lookups that are timed */
};

static void open_set(struct kernel_set *s, const struct packed *p, bool avx2) {
    struct nft_set_desc desc = {.klen = p->key_bytes, .size = p->w.element_count, .field_count = p->w.fields};
    memset(s, 0, sizeof(*s));
    s->p = p;
    s->elements = calloc(p->w.element_count, sizeof(void *));
    s->set.ops = avx2 ? &nft_set_pipapo_avx2_type.ops : &nft_set_pipapo_type.ops;
    s->set.net = &net;
    s->set.klen = p->key_bytes;
    for (size_t f = 0; f < p->w.fields; ++f) desc.field_len[f] = p->bytes[f];
    if (!s->elements || s->set.ops->privsize(NULL, &desc) > sizeof(s->set.priv)) fail("no room for a set");
    if (s->set.ops->init(&s->set, &desc, NULL)) fail("the kernel makes no set");
    s->set.ops->gc_init(&s->set);
}

static void close_set(struct kernel_set *s) {
    s->set.ops->destroy(NULL, &s->set);
    free(s->elements);
}

/* An element with its start and end key and its number, as nft_add_set_elem() makes it. */
static struct nft_set_ext *make_element(const struct packed *p, size_t e) {
    size_t room = (p->key_bytes + 7) / 8 * 8;
    struct nft_set_ext *ext = calloc(1, sizeof(*ext) + 2 * room + 8);
    if (!ext) fail("want of memory");
    ext->genmask = nft_genmask_cur(&net);
    ext->offset[NFT_SET_EXT_KEY] = sizeof(*ext);
    ext->offset[NFT_SET_EXT_KEY_END] = sizeof(*ext) + room;
    ext->offset[NFT_SET_EXT_USERDATA] = sizeof(*ext) + 2 * room;
    memcpy(nft_set_ext_at(ext, NFT_SET_EXT_KEY), p->lows + e * p->key_bytes, p->key_bytes);
    memcpy(nft_set_ext_at(ext, NFT_SET_EXT_KEY_END), p->highs + e * p->key_bytes, p->key_bytes);
    *(u32 *)nft_set_ext_at(ext, NFT_SET_EXT_USERDATA) = e;
    return ext;
}

static void insert(struct kernel_set *s, size_t e) {
    struct nft_set_elem element = {.priv = make_element(s->p, e)};
    void *held;
    memcpy(element.key.buf, s->p->lows + e * s->p->key_bytes, s->p->key_bytes);
    memcpy(element.key_end.buf, s->p->highs + e * s->p->key_bytes, s->p->key_bytes);
    if (s->set.ops->insert(&net, &s->set, &element, &held)) free(element.priv);
    else s->elements[e] = element.priv;
}

/* A new generation: the elements from `from` to `to` are active, and the changed tables are swapped in. */
static void commit(struct kernel_set *s, size_t from, size_t to) {
    net.nft.gencursor = !net.nft.gencursor;
    for (size_t e = from; e < to; ++e) {
        struct nft_set_elem element = {.priv = s->elements[e]};
        if (element.priv) s->set.ops->activate(&net, &s->set, &element);
    }
    s->set.ops->commit(&s->set);
}

static long lookup(const struct kernel_set *s, const uint8_t *key) {
    const struct nft_set_ext *ext;
    if (!s->set.ops->lookup(&net, &s->set, (const u32 *)key, &ext)) return -1;
    return *(u32 *)nft_set_ext_at(ext, NFT_SET_EXT_USERDATA);
}

static void look_up_many(void *arg, size_t n) {
    struct kernel_set *s = arg;
    while (n--) {
        s->hits += lookup(s, s->p->keys + s->at * s->p->key_bytes) >= 0;
        if (++s->at == s->p->w.key_count) s->at = 0;
    }
}

/* All elements but a few in one transaction, the best of up to seven; then each of those in one of its own. */
static void bench(const struct packed *p, bool avx2) {
    size_t count = p->w.element_count, later = count >= 200 ? 20 : count / 2;
    double inserts = 0, commit_time = 1e9, spent = 0;
    struct kernel_set s;
    for (int i = 0;; ++i) {
        open_set(&s, p, avx2);
        double start = seconds();
        for (size_t e = 0; e < count - later; ++e) insert(&s, e);
        commit(&s, 0, count - later);
        double time = seconds() - start;
        spent += time;
        if ((count - later) / time > inserts) inserts = (count - later) / time;
        run_after_grace();
        if (i == 6 || spent > 0.7) break;
        close_set(&s);
    }
    for (size_t e = count - later; e < count; ++e) {
        double start = seconds();
        insert(&s, e);
        commit(&s, e, e + 1);
        double time = seconds() - start;
        if (time < commit_time) commit_time = time;
        run_after_grace();
    }
    double lookups = best_rate(look_up_many, &s);
    printf("lookups_per_s=%.0f inserts_per_s=%.0f commit_ms=%.4f\n", lookups, inserts, commit_time * 1e3);
    close_set(&s);
}

static void verdicts(const struct packed *p, bool avx2) {
    struct kernel_set s;
    open_set(&s, p, avx2);
    for (size_t e = 0; e < p->w.element_count; ++e) insert(&s, e);
    commit(&s, 0, p->w.element_count);
    run_after_grace();
    for (size_t k = 0; k < p->w.key_count; ++k) {
        long found = lookup(&s, p->keys + k * p->key_bytes);
        if (found < 0) puts("-");
        else printf("%ld\n", found);
    }
    close_set(&s);
}

int main(int argc, char **argv) {
    struct packed p = {0};
    if (argc != 4) fail("usage: verdict scalar|avx2 FILE | bench scalar|avx2 FILE");
    bool avx2 = !strcmp(argv[2], "avx2");
    if (avx2 && !boot_cpu_has(X86_FEATURE_AVX2)) fail("there is no AVX2 here");
    read_packed(&p, argv[3]);
    /* Tables that were given back stay in the heap: page faults are not what is measured. */
    mallopt(M_MMAP_THRESHOLD, 32 << 20);
    mallopt(M_TRIM_THRESHOLD, 1 << 30);
    mallopt(M_TOP_PAD, 16 << 20);
    if (!strcmp(argv[1], "bench")) bench(&p, avx2);
    else verdicts(&p, avx2);
    return 0;
}
