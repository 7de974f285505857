/* Out-of-line parts of the userspace stand-ins, see kernel_shim.h */
#include <stdio.h>
#include "kernel_shim.h"

volatile unsigned long jiffies = 1000;

void shim_warn(const char *what) {
    static bool once;

    if (!once)
        fprintf(stderr, "kernel warning: %s\n", what);
    once = true;
}

void *shim_alloc(size_t size, bool zero) {
    void *p;

    if (posix_memalign(&p, 64, size ? size : 1))
        return NULL;
    if (zero)
        memset(p, 0, size);
    return p;
}

static struct rcu_head *rcu_queue;

void call_rcu(struct rcu_head *head, void (*func)(struct rcu_head *)) {
    head->func = func;
    head->next = rcu_queue;
    rcu_queue = head;
}

void run_after_grace(void) {
    while (rcu_queue) {
        struct rcu_head *h = rcu_queue;

        rcu_queue = h->next;
        h->func(h);
    }
}

void nf_tables_set_elem_destroy(const struct nft_ctx *ctx, const struct nft_set *set, void *elem) {
    (void)ctx;
    (void)set;
    free(elem);
}

struct nft_trans_gc *nft_trans_gc_alloc(struct nft_set *set, unsigned int seq, gfp_t gfp) {
    (void)set;
    (void)seq;
    (void)gfp;
    return calloc(1, sizeof(struct nft_trans_gc));
}

void nft_trans_gc_queue_sync_done(struct nft_trans_gc *gc) { free(gc); }
