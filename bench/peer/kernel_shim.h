/* Userspace stand-ins for the kernel interfaces used by nft_set_pipapo*.c.
 *
 * Written for this benchmark from the interfaces those two files call; no
 * kernel code is copied here. build.sh takes the kernel files themselves from
 * the installed linux-source package into a build directory elsewhere.
 *
 * What is stubbed, and how:
 *   RCU          pointer swap is a plain store; call_rcu() queues, and
 *                run_after_grace() runs the queue (so that a commit can be timed
 *                with or without the freeing of the old copy)
 *   per-CPU      one CPU (SHIM_NR_CPUS), "percpu" pointers are arrays
 *   kmalloc etc. 64-byte aligned libc memory: the AVX2 code loads from f->lt
 *                without rounding up, counting on kmalloc's natural alignment
 *   FPU          kernel_fpu_begin_mask()/end are no-ops, FPU always usable
 *   jiffies      stands still unless the driver moves it: no GC during commits
 *   bottom halves, locks, lockdep: compiler barriers or nothing
 */
#ifndef KERNEL_SHIM_H
#define KERNEL_SHIM_H

#include <stdbool.h>
#include <stddef.h>
#include <stdint.h>
#include <stdlib.h>
#include <string.h>
#include <errno.h>
#include <limits.h>
#include <sys/types.h>

/* ---- basic types and attributes ---- */
typedef uint8_t u8;
typedef uint16_t u16;
typedef uint32_t u32;
typedef uint64_t u64;
typedef int64_t s64;
typedef unsigned int gfp_t;

#define __rcu
#define __percpu
#define __aligned(x) __attribute__((aligned(x)))
#undef __always_inline
#define __always_inline  inline __attribute__((always_inline))
#define noinline         __attribute__((noinline))
#define likely(x)        __builtin_expect(!!(x), 1)
#define unlikely(x)      __builtin_expect(!!(x), 0)
#define barrier()        asm volatile("" ::: "memory")
#define READ_ONCE(x)     (*(const volatile __typeof__(x) *)&(x))
#define WRITE_ONCE(x, v) (*(volatile __typeof__(x) *)&(x) = (v))
#ifndef static_assert
#define static_assert _Static_assert
#endif
#define BUILD_BUG_ON(c) static_assert(!(c), #c)
#define BUG()           abort()
#define WARN_ON_ONCE(c)                                                                                              \
    ({                                                                                                               \
        bool w_ = !!(c);                                                                                             \
        if (w_)                                                                                                      \
            shim_warn(#c);                                                                                           \
        w_;                                                                                                          \
    })
#define DEBUG_NET_WARN_ON_ONCE(c) WARN_ON_ONCE(c)
void shim_warn(const char *what);

#define BITS_PER_BYTE      8
#define BITS_PER_LONG      64
#define U8_MAX             255
#define BIT(n)             (1UL << (n))
#define GENMASK(h, l)      ((~0UL << (l)) & (~0UL >> (BITS_PER_LONG - 1 - (h))))
#define DIV_ROUND_UP(n, d) (((n) + (d)-1) / (d))
#define roundup(x, y)      ((((x) + (y)-1) / (y)) * (y))
#define round_up(x, y)     ((((x)-1) | ((__typeof__(x))(y)-1)) + 1)
#define PTR_ALIGN(p, a)    ((__typeof__(p))(((uintptr_t)(p) + (a)-1) & ~((uintptr_t)(a)-1)))
#define min(a, b)                                                                                                    \
    ({                                                                                                               \
        __typeof__(a) a_ = (a);                                                                                      \
        __typeof__(b) b_ = (b);                                                                                      \
        a_ < b_ ? a_ : b_;                                                                                           \
    })
#define max(a, b)                                                                                                    \
    ({                                                                                                               \
        __typeof__(a) a_ = (a);                                                                                      \
        __typeof__(b) b_ = (b);                                                                                      \
        a_ > b_ ? a_ : b_;                                                                                           \
    })
#define swap(a, b)                                                                                                   \
    do {                                                                                                             \
        __typeof__(a) t_ = (a);                                                                                      \
        (a) = (b);                                                                                                   \
        (b) = t_;                                                                                                    \
    } while (0)
#define container_of(p, t, m)       ((t *)((char *)(p)-offsetof(t, m)))
#define struct_size(p, m, n)        (sizeof(*(p)) + sizeof((p)->m[0]) * (size_t)(n))
#define const_ilog2(n)              (63 - __builtin_clzl(n))
#define ilog2(n)                    const_ilog2((unsigned long)(n))
#define div_u64(a, b)               ((u64)(a) / (u32)(b))
#define check_mul_overflow(a, b, d) __builtin_mul_overflow(a, b, d)
#define check_add_overflow(a, b, d) __builtin_add_overflow(a, b, d)

#define MAX_ERRNO                   4095
#define ERR_PTR(e)                  ((void *)(long)(e))
#define PTR_ERR(p)                  ((long)(p))
#define IS_ERR(p)                   ((unsigned long)(p) >= (unsigned long)-MAX_ERRNO)

/* ---- no vector registers behind the back of the AVX2 code ----
 * The kernel's memset() and memcpy() use string instructions or plain words,
 * libc's would use (and possibly clobber) YMM registers in between the inline
 * assembly of the lookup functions.
 */
#ifdef SHIM_PLAIN_MEMSET
static inline void *shim_memset(void *d, int c, size_t n) {
    void *r = d;

    asm volatile("rep stosb" : "+D"(d), "+c"(n) : "a"(c) : "memory");
    return r;
}
#define memset(d, c, n) shim_memset(d, c, n)
#endif

/* ---- bitmaps: bodies are compiled from the kernel's lib/bitmap.c ---- */
#define BIT_WORD(n)               ((n) / BITS_PER_LONG)
#define BITS_TO_LONGS(n)          DIV_ROUND_UP(n, BITS_PER_LONG)
#define BITMAP_FIRST_WORD_MASK(s) (~0UL << ((s) & (BITS_PER_LONG - 1)))
#define BITMAP_LAST_WORD_MASK(n)  (~0UL >> (-(n) & (BITS_PER_LONG - 1)))
#define EXPORT_SYMBOL(x)

bool __bitmap_and(unsigned long *dst, const unsigned long *a, const unsigned long *b, unsigned int bits);
void __bitmap_set(unsigned long *map, unsigned int start, int len);
void __bitmap_clear(unsigned long *map, unsigned int start, int len);
void bitmap_cut(unsigned long *dst, const unsigned long *src, unsigned int first, unsigned int cut,
                unsigned int nbits);

/* the kernel has compile-time shortcuts for constant arguments; of those, the
 * only one which pipapo hits is the single bit clear
 */
#define bitmap_set(map, start, len) __bitmap_set(map, start, len)
static __always_inline void bitmap_clear(unsigned long *map, unsigned int start, unsigned int len) {
    if (__builtin_constant_p(len) && len == 1)
        map[BIT_WORD(start)] &= ~BIT(start % BITS_PER_LONG);
    else
        __bitmap_clear(map, start, len);
}

static inline void __set_bit(long n, unsigned long *p) { p[BIT_WORD(n)] |= BIT(n % BITS_PER_LONG); }

static inline bool test_bit(long n, const unsigned long *p) { return p[BIT_WORD(n)] >> (n % BITS_PER_LONG) & 1; }

/* ---- memory ---- */
#define GFP_KERNEL            0u
#define GFP_KERNEL_ACCOUNT    0u
#define GFP_ATOMIC            0u
#define ARCH_KMALLOC_MINALIGN 8
void *shim_alloc(size_t size, bool zero);
#define kmalloc(s, g)            shim_alloc(s, ((void)(g), false))
#define kzalloc(s, g)            shim_alloc(s, ((void)(g), true))
#define kcalloc(n, s, g)         shim_alloc((size_t)(n) * (s), ((void)(g), true))
#define kmalloc_array(n, s, g)   shim_alloc((size_t)(n) * (s), ((void)(g), false))
#define kzalloc_node(s, g, node) shim_alloc(s, ((void)(g), (void)(node), true))
#define kvmalloc(s, g)           shim_alloc(s, ((void)(g), false))
#define kvzalloc(s, g)           shim_alloc(s, ((void)(g), true))
#define kvmalloc_array(n, s, g)  shim_alloc((size_t)(n) * (s), ((void)(g), false))
#define kfree(p)                 free((void *)(p))
#define kvfree(p)                free((void *)(p))

/* ---- per-CPU data: one CPU ---- */
#ifndef SHIM_NR_CPUS
#define SHIM_NR_CPUS 1
#endif
#define for_each_possible_cpu(i) for ((i) = 0; (i) < SHIM_NR_CPUS; (i)++)
#define cpu_to_node(i)           0
#define alloc_percpu(type)       ((__typeof__(type) *)shim_alloc(sizeof(type) * SHIM_NR_CPUS, true))
#define free_percpu(p)           free((void *)(p))
#define per_cpu_ptr(p, cpu)      (&(p)[cpu])
#define raw_cpu_ptr(p)           (&(p)[0])
#define get_cpu_ptr(p)                                                                                               \
    ({                                                                                                               \
        barrier();                                                                                                   \
        &(p)[0];                                                                                                     \
    })
#define put_cpu_ptr(p)                                                                                               \
    do {                                                                                                             \
        (void)(p);                                                                                                   \
        barrier();                                                                                                   \
    } while (0)

/* ---- RCU and bottom halves ---- */
struct rcu_head {
    struct rcu_head *next;
    void (*func)(struct rcu_head *);
};
void run_after_grace(void);
void call_rcu(struct rcu_head *head, void (*func)(struct rcu_head *));
#define rcu_head_init(h)                ((h)->func = NULL)
#define rcu_dereference(p)              READ_ONCE(p)
#define rcu_dereference_protected(p, c) ((void)(c), (p))
#define rcu_assign_pointer(p, v)                                                                                     \
    do {                                                                                                             \
        barrier();                                                                                                   \
        WRITE_ONCE(p, v);                                                                                            \
    } while (0)
#define rcu_replace_pointer(p, v, c)                                                                                 \
    ({                                                                                                               \
        __typeof__(p) o_ = (p);                                                                                      \
        (void)(c);                                                                                                   \
        rcu_assign_pointer(p, v);                                                                                    \
        o_;                                                                                                          \
    })
#define rcu_read_lock()    barrier()
#define rcu_read_unlock()  barrier()
#define rcu_barrier()      run_after_grace()
#define local_bh_disable() barrier()
#define local_bh_enable()  barrier()

/* ---- time: frozen unless the driver advances it ---- */
#define HZ 250
extern volatile unsigned long jiffies;
static inline u64 get_jiffies_64(void) { return jiffies; }
#define time_after_eq(a, b)   ((long)((a) - (b)) >= 0)
#define time_after_eq64(a, b) ((s64)((a) - (b)) >= 0)

/* ---- FPU, CPU features ---- */
#define CONFIG_X86_64            1
#define XSAVE_YMM_SIZE           256
#define X86_FEATURE_AVX          0
#define X86_FEATURE_AVX2         1
#define boot_cpu_has(f)          ((f) == X86_FEATURE_AVX ? __builtin_cpu_supports("avx") : __builtin_cpu_supports("avx2"))
#define irq_fpu_usable()         true
#define kernel_fpu_begin_mask(m) barrier()
#define kernel_fpu_end()         barrier()

/* ---- lists ---- */
struct list_head {
    struct list_head *next, *prev;
};
#define INIT_LIST_HEAD(h) ((h)->next = (h)->prev = (h))
#define list_empty(h)     ((h)->next == (h))
static inline void list_add(struct list_head *n, struct list_head *h) {
    n->next = h->next;
    n->prev = h;
    h->next->prev = n;
    h->next = n;
}
static inline void list_del(struct list_head *n) {
    n->prev->next = n->next;
    n->next->prev = n->prev;
}
#define list_for_each_entry_safe(p, n, h, m)                                                                         \
    for (p = container_of((h)->next, __typeof__(*p), m), n = container_of(p->m.next, __typeof__(*p), m);             \
         &p->m != (h); p = n, n = container_of(n->m.next, __typeof__(*n), m))

/* ---- nftables API, reduced to what pipapo touches ---- */
struct in6_addr {
    u8 s6_addr[16];
};
#define NFT_REG32_COUNT       16
#define NFT_DATA_VALUE_MAXLEN 64
#define NFT_SET_INTERVAL      0x4
#define NFT_SET_MAP           0x8
#define NFT_SET_TIMEOUT       0x10
#define NFT_SET_OBJECT        0x40

struct nft_data {
    u32 data[4];
} __aligned(8);

enum {
    NFT_SET_EXT_KEY,
    NFT_SET_EXT_KEY_END,
    NFT_SET_EXT_DATA,
    NFT_SET_EXT_FLAGS,
    NFT_SET_EXT_TIMEOUT,
    NFT_SET_EXT_EXPIRATION,
    NFT_SET_EXT_USERDATA,
    NFT_SET_EXT_EXPRESSIONS,
    NFT_SET_EXT_OBJREF,
    NFT_SET_EXT_NUM
};

struct nft_set_ext {
    u8 genmask;
    u8 offset[NFT_SET_EXT_NUM];
    char data[];
} __aligned(8);

struct net {
    struct {
        unsigned int gencursor;
        u64 tstamp;
    } nft;
};
struct nlattr;
struct nft_ctx;
struct nft_set;

struct nft_set_elem {
    union {
        u32 buf[NFT_DATA_VALUE_MAXLEN / 4];
        struct nft_data val;
    } key;
    union {
        u32 buf[NFT_DATA_VALUE_MAXLEN / 4];
        struct nft_data val;
    } key_end;
    union {
        u32 buf[NFT_DATA_VALUE_MAXLEN / 4];
        struct nft_data val;
    } data;
    void *priv;
};

struct nft_set_desc {
    unsigned int klen;
    unsigned int size;
    u8 field_len[NFT_REG32_COUNT];
    u8 field_count;
};

enum nft_set_class { NFT_SET_CLASS_O_1, NFT_SET_CLASS_O_LOG_N, NFT_SET_CLASS_O_N };
struct nft_set_estimate {
    u64 size;
    enum nft_set_class lookup;
    enum nft_set_class space;
};

enum nft_iter_type { NFT_ITER_UNSPEC, NFT_ITER_READ, NFT_ITER_UPDATE, NFT_ITER_UPDATE_CLONE };
struct nft_set_iter {
    enum nft_iter_type type;
    unsigned int count;
    unsigned int skip;
    int err;
    int (*fn)(const struct nft_ctx *, struct nft_set *, const struct nft_set_iter *, struct nft_set_elem *);
};

struct nft_set_ops {
    bool (*lookup)(const struct net *, const struct nft_set *, const u32 *key, const struct nft_set_ext **ext);
    int (*insert)(const struct net *, const struct nft_set *, const struct nft_set_elem *, void **priv);
    void (*activate)(const struct net *, const struct nft_set *, const struct nft_set_elem *);
    void *(*deactivate)(const struct net *, const struct nft_set *, const struct nft_set_elem *);
    bool (*flush)(const struct net *, const struct nft_set *, void *priv);
    void (*remove)(const struct net *, const struct nft_set *, const struct nft_set_elem *);
    void (*walk)(const struct nft_ctx *, struct nft_set *, struct nft_set_iter *);
    void *(*get)(const struct net *, const struct nft_set *, const struct nft_set_elem *, unsigned int flags);
    void (*commit)(struct nft_set *);
    void (*abort)(const struct nft_set *);
    u64 (*privsize)(const struct nlattr *const nla[], const struct nft_set_desc *);
    bool (*estimate)(const struct nft_set_desc *, u32 features, struct nft_set_estimate *);
    int (*init)(const struct nft_set *, const struct nft_set_desc *, const struct nlattr *const nla[]);
    void (*destroy)(const struct nft_ctx *, const struct nft_set *);
    void (*gc_init)(const struct nft_set *);
    unsigned int elemsize;
};

struct nft_set_type {
    const struct nft_set_ops ops;
    u32 features;
};

struct nft_set {
    const struct nft_set_ops *ops;
    struct net *net;
    u32 klen;
    u32 gc_int;
    u64 priv[16];
};

#define read_pnet(p)           (*(p))
#define nft_set_priv(s)        ((void *)(s)->priv)
#define nft_set_gc_interval(s) ((unsigned long)((s)->gc_int ? (s)->gc_int : HZ))
#define nft_genmask_cur(n)     ((u8)(1 << READ_ONCE((n)->nft.gencursor)))
#define nft_genmask_next(n)    ((u8)(1 << !READ_ONCE((n)->nft.gencursor)))
#define nft_net_tstamp(n)      ((n)->nft.tstamp)
#define nft_clear(n, o)        ((o)->genmask &= ~nft_genmask_next(n))

static inline bool nft_set_elem_active(const struct nft_set_ext *ext, u8 genmask) {
    return !(ext->genmask & genmask);
}
static inline void nft_set_elem_change_active(const struct net *net, const struct nft_set *set,
                                              struct nft_set_ext *ext) {
    (void)set;
    ext->genmask ^= nft_genmask_next(net);
}
static inline bool nft_set_ext_exists(const struct nft_set_ext *ext, u8 id) { return ext && ext->offset[id]; }
#define nft_set_ext_at(ext, id)  ((void *)((char *)(ext) + (ext)->offset[id]))
#define nft_set_ext_key(ext)     ((struct nft_data *)nft_set_ext_at(ext, NFT_SET_EXT_KEY))
#define nft_set_ext_key_end(ext) ((struct nft_data *)nft_set_ext_at(ext, NFT_SET_EXT_KEY_END))
#define nft_set_elem_ext(set, e) ((struct nft_set_ext *)((char *)(e) + (set)->ops->elemsize))

static inline bool __nft_set_elem_expired(const struct nft_set_ext *ext, u64 tstamp) {
    return nft_set_ext_exists(ext, NFT_SET_EXT_EXPIRATION) &&
           time_after_eq64(tstamp, *(u64 *)nft_set_ext_at(ext, NFT_SET_EXT_EXPIRATION));
}
static inline bool nft_set_elem_expired(const struct nft_set_ext *ext) {
    return __nft_set_elem_expired(ext, get_jiffies_64());
}

void nf_tables_set_elem_destroy(const struct nft_ctx *ctx, const struct nft_set *set, void *elem);
static inline void nft_setelem_data_deactivate(const struct net *net, const struct nft_set *set,
                                               struct nft_set_elem *elem) {
    (void)net;
    (void)set;
    (void)elem;
}

/* garbage collection transactions: nothing ever expires here */
struct nft_trans_gc {
    struct list_head list;
    unsigned int count;
};
struct nft_trans_gc *nft_trans_gc_alloc(struct nft_set *set, unsigned int seq, gfp_t gfp);
void nft_trans_gc_queue_sync_done(struct nft_trans_gc *gc);
#define nft_trans_gc_catchall_sync(gc) (gc)
#define nft_trans_gc_space(gc)         1
#define nft_trans_gc_elem_add(gc, e)   ((void)(e), (gc)->count++)

bool nft_pipapo_lookup(const struct net *net, const struct nft_set *set, const u32 *key,
                       const struct nft_set_ext **ext);
bool nft_pipapo_avx2_lookup(const struct net *net, const struct nft_set *set, const u32 *key,
                            const struct nft_set_ext **ext);
extern const struct nft_set_type nft_set_pipapo_type;
extern const struct nft_set_type nft_set_pipapo_avx2_type;

#endif /* KERNEL_SHIM_H */
