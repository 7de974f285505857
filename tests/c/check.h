/* What the C tests share. */
#ifndef CHECK_H
#define CHECK_H

#include <stdint.h>
#include <stdio.h>
#include <stdlib.h>
#include <string.h>

#include "pipapo.h"

__attribute__((unused)) static int failures;

#define CHECK(what) \
    do { \
        if (!(what)) { \
            fprintf(stderr, "%s:%d: %s\n", __FILE__, __LINE__, #what); \
            ++failures; \
        } \
    } while (0)

/* A key of an IPv4 address and a port, as a packet has them. */
typedef struct {
    uint8_t address[4];
    uint8_t port[2];
} flow;

static inline flow flow_of(uint32_t address, uint16_t port) {
    flow key = {{(uint8_t)(address >> 24), (uint8_t)(address >> 16), (uint8_t)(address >> 8), (uint8_t)address},
                {(uint8_t)(port >> 8), (uint8_t)port}};
    return key;
}

/* An element's bounds. */
typedef struct {
    flow low, high;
} flows;

static inline flows flows_of(uint32_t low_address, uint32_t high_address, uint16_t low_port, uint16_t high_port) {
    flows bounds = {flow_of(low_address, low_port), flow_of(high_address, high_port)};
    return bounds;
}

_Static_assert(sizeof(flow) == 6 && sizeof(flows) == 12, "keys are packed");

static inline uint32_t insert_flows(pipapo_control *control, uint32_t set, flows bounds, uint64_t expiry, uint64_t now,
                                    pipapo_answer *answer) {
    return pipapo_insert(control, set, &bounds, sizeof bounds, expiry, "", 0, now, answer);
}

static inline uint32_t lookup_flow(pipapo_reader *reader, uint32_t set, flow key, uint64_t now, uint64_t *id) {
    return pipapo_lookup(reader, set, &key, sizeof key, now, id);
}

#endif
