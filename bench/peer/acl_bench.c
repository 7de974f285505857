/* The same lookups by DPDK's ACL library.
 *
 *     acl_bench verdict FILE    for each key the number of the element that it matched, or -
 *     acl_bench bench FILE      lookups a second, one key a call, by the library's best way here; the time of a build
 *
 * The library wants a field of one byte first (the protocol, or one that is free), and then groups of four bytes.
 * Addresses are masks: a range that is no block becomes several rules. Earlier elements have a higher priority.
 */
#define _GNU_SOURCE
#include <sched.h>

#include <rte_acl.h>
#include <rte_eal.h>

#define PROGRAM "acl_bench"
#include "packed.h"

#define MOST_PIECES 32
#define MOST_BLOCKS 512

RTE_ACL_RULE_DEF(acl_rule, MOST_PIECES);

/* A field of the library: so many bytes of the workload's field from a byte on, or of none. */
struct piece {
    int field;
    unsigned from, bytes, offset;
};

struct layout {
    struct piece pieces[MOST_PIECES];
    struct rte_acl_field_def fields[MOST_PIECES];
    unsigned count, key_bytes;
};

static void add_piece(struct layout *l, int field, unsigned from, unsigned bytes, uint8_t type, unsigned group) {
    if (l->count == MOST_PIECES) fail("too many fields");
    l->pieces[l->count] = (struct piece){field, from, bytes, l->key_bytes};
    l->fields[l->count] = (struct rte_acl_field_def){
        .type = type, .size = bytes, .field_index = l->count, .input_index = group, .offset = l->key_bytes};
    ++l->count;
    l->key_bytes += bytes;
}

static void lay_out(struct layout *l, const struct packed *p) {
    int protocol = -1;
    unsigned group = 1;
    bool half = false;
    for (size_t f = p->w.fields; f--;)
        if (p->bytes[f] == 1) protocol = f;
    add_piece(l, protocol, 0, 1, RTE_ACL_FIELD_TYPE_RANGE, 0);
    for (size_t f = 0; f < p->w.fields; ++f)
        for (unsigned from = 0; from + 4 <= p->bytes[f]; from += 4)
            add_piece(l, f, from, 4, RTE_ACL_FIELD_TYPE_MASK, group++);
    for (size_t f = 0; f < p->w.fields; ++f) {
        if ((int)f == protocol || p->bytes[f] % 4 == 0) continue;
        if (p->bytes[f] == 1) fail("two fields of one byte");
        uint8_t type = p->bytes[f] == 2 ? RTE_ACL_FIELD_TYPE_RANGE : RTE_ACL_FIELD_TYPE_MASK;
        add_piece(l, f, p->bytes[f] - 2, 2, type, group);
        half = !half;
        group += !half;
    }
    if (half) add_piece(l, -1, 0, 2, RTE_ACL_FIELD_TYPE_RANGE, group);
}

struct block {
    value_t base;
    unsigned fixed;
};

static size_t split(value_t low, value_t high, unsigned bits, struct block *out) {
    size_t n = 0;
    for (;;) {
        unsigned k = 0;
        while (k < bits && !(low >> k & 1)) {
            value_t last = low | ((((value_t)1 << k) << 1) - 1);
            if (k == 127 ? low != 0 || high != ~(value_t)0 : last > high) break;
            ++k;
        }
        if (n == MOST_BLOCKS) fail("too many blocks");
        out[n++] = (struct block){low, bits - k};
        if (k == bits) return n;
        low += (value_t)1 << k;
        if (!low || low > high) return n;
    }
}

struct rules {
    struct acl_rule *items;
    size_t count, room;
};

static void set_piece(struct rte_acl_field *field, unsigned bytes, uint32_t value, uint32_t range) {
    if (bytes == 1) {
        field->value.u8 = value;
        field->mask_range.u8 = range;
    } else if (bytes == 2) {
        field->value.u16 = value;
        field->mask_range.u16 = range;
    } else {
        field->value.u32 = value;
        field->mask_range.u32 = range;
    }
}

/* One rule for each choice of a block in each field. */
static void add_element(struct rules *rules, const struct layout *l, const struct packed *p, size_t e) {
    static struct block blocks[16][MOST_BLOCKS];
    size_t counts[16], chosen[16] = {0}, f;
    const value_t *pairs = p->w.elements + e * p->w.fields * 2;
    for (f = 0; f < p->w.fields; ++f)
        counts[f] = p->bytes[f] <= 2 ? 1 : split(pairs[2 * f], pairs[2 * f + 1], p->bytes[f] * 8, blocks[f]);
    do {
        rules->items = grown(rules->items, &rules->room, rules->count + 1, sizeof(struct acl_rule));
        struct acl_rule *rule = &rules->items[rules->count++];
        memset(rule, 0, sizeof(*rule));
        rule->data.category_mask = 1;
        rule->data.priority = RTE_ACL_MAX_PRIORITY - e;
        rule->data.userdata = e + 1;
        for (unsigned i = 0; i < l->count; ++i) {
            const struct piece *piece = &l->pieces[i];
            if (piece->field < 0) {
                set_piece(&rule->field[i], piece->bytes, 0, piece->bytes == 1 ? 0xff : 0xffff);
            } else if (l->fields[i].type == RTE_ACL_FIELD_TYPE_RANGE) {
                set_piece(&rule->field[i], piece->bytes, pairs[2 * piece->field], pairs[2 * piece->field + 1]);
            } else {
                struct block b = blocks[piece->field][chosen[piece->field]];
                int fixed = (int)b.fixed - 8 * (int)piece->from, most = 8 * piece->bytes;
                unsigned behind = p->bytes[piece->field] - piece->from - piece->bytes;
                set_piece(&rule->field[i], piece->bytes, (uint32_t)(b.base >> 8 * behind),
                          fixed < 0 ? 0 : fixed > most ? most : fixed);
            }
        }
        for (f = 0; f < p->w.fields; ++f) {
            if (++chosen[f] < counts[f]) break;
            chosen[f] = 0;
        }
    } while (f < p->w.fields);
}

static const enum rte_acl_classify_alg ways[] = {RTE_ACL_CLASSIFY_SCALAR, RTE_ACL_CLASSIFY_SSE, RTE_ACL_CLASSIFY_AVX2,
                                                 RTE_ACL_CLASSIFY_AVX512X16, RTE_ACL_CLASSIFY_AVX512X32};

struct lookups {
    struct rte_acl_ctx *context;
    const uint8_t **keys;
    size_t at, count, hits;
};

static void look_up_many(void *arg, size_t n) {
    struct lookups *l = arg;
    uint32_t found;
    while (n--) {
        rte_acl_classify(l->context, l->keys + l->at, &found, 1, 1);
        l->hits += found > 0;
        if (++l->at == l->count) l->at = 0;
    }
}

/* The library runs on the processor on which this program was put, with memory of its own. */
static void start_library(char *program) {
    char processor[16] = "0";
    cpu_set_t set;
    if (!sched_getaffinity(0, sizeof(set), &set))
        for (int i = CPU_SETSIZE; i--;)
            if (CPU_ISSET(i, &set)) snprintf(processor, sizeof(processor), "%d", i);
    char *words[] = {program, "--no-huge", "--no-pci", "--no-shconf", "--no-telemetry", "-m", "8192", "-l", processor,
                     "--force-max-simd-bitwidth=512", "--log-level=lib.*:error", NULL};
    if (rte_eal_init(sizeof(words) / sizeof(words[0]) - 1, words) < 0) fail("the library doesn't start");
}

int main(int argc, char **argv) {
    struct packed p = {0};
    struct layout l = {0};
    struct rules rules = {0};
    struct rte_acl_config config = {.num_categories = 1};
    if (argc != 3) fail("usage: verdict FILE | bench FILE");
    start_library(argv[0]);
    read_packed(&p, argv[2]);
    lay_out(&l, &p);
    for (size_t e = 0; e < p.w.element_count; ++e) add_element(&rules, &l, &p, e);
    struct rte_acl_param param = {.name = "bench",
                                  .socket_id = SOCKET_ID_ANY,
                                  .rule_size = RTE_ACL_RULE_SZ(l.count),
                                  .max_rule_num = rules.count};
    struct lookups lookups = {.context = rte_acl_create(&param), .count = p.w.key_count};
    if (!lookups.context) fail("the library makes no context");
    config.num_fields = l.count;
    memcpy(config.defs, l.fields, sizeof(l.fields[0]) * l.count);
    double start = seconds();
    for (size_t i = 0; i < rules.count; ++i)
        if (rte_acl_add_rules(lookups.context, (struct rte_acl_rule *)&rules.items[i], 1)) fail("a rule is refused");
    if (rte_acl_build(lookups.context, &config)) fail("the build is refused");
    double build = seconds() - start;

    uint8_t *keys = calloc(p.w.key_count + 1, l.key_bytes); /* the library may read ahead */
    lookups.keys = malloc(p.w.key_count * sizeof(*lookups.keys));
    if (!keys || !lookups.keys) fail("want of memory");
    for (size_t k = 0; k < p.w.key_count; ++k) {
        lookups.keys[k] = keys + k * l.key_bytes;
        for (unsigned i = 0; i < l.count; ++i)
            if (l.pieces[i].field >= 0)
                memcpy(keys + k * l.key_bytes + l.pieces[i].offset,
                       p.keys + k * p.key_bytes + p.offset[l.pieces[i].field] + l.pieces[i].from, l.pieces[i].bytes);
    }
    if (!strcmp(argv[1], "verdict")) {
        uint32_t found;
        for (size_t k = 0; k < p.w.key_count; ++k) {
            if (rte_acl_classify(lookups.context, lookups.keys + k, &found, 1, 1)) fail("a lookup is refused");
            if (found) printf("%u\n", found - 1);
            else puts("-");
        }
        return 0;
    }
    double best = 0;
    for (size_t i = 0; i < sizeof(ways) / sizeof(ways[0]); ++i) {
        if (rte_acl_set_ctx_classify(lookups.context, ways[i])) continue;
        double rate = best_rate(look_up_many, &lookups);
        if (rate > best) best = rate;
    }
    printf("lookups_per_s=%.0f inserts_per_s=%.0f commit_ms=%.4f\n", best, p.w.element_count / build, build * 1e3);
    return 0;
}
