/* Four threads classify the packets of a capture, while the control commits changes.
 *
 *     classify RULES CAPTURE [MILLISECONDS]    (500)
 *
 * RULES is a script of nft(8) whose first set has the type `ipv4_addr . inet_service`. CAPTURE is a file of libpcap with
 * Ethernet frames. The key of a packet is the destination's address and port, of TCP and UDP over IPv4; other packets have
 * none. Meanwhile the control inserts and deletes 203.0.113.0/24 at all ports, and commits each change.
 *
 *     cc -std=c11 -O2 -pthread classify.c -lpipapo -o classify
 *
 * As C++17 it builds too. The handles of pipapo.hpp move and free themselves.
 */
#define _POSIX_C_SOURCE 200809L
#include <pipapo.h>
#include <pthread.h>
#include <stdint.h>
#include <stdio.h>
#include <stdlib.h>
#include <string.h>
#include <time.h>

enum { THREADS = 4, SET = 0, BATCH = 64, FILE_HEADER = 24, RECORD_HEADER = 16, ETHERNET = 14 };

/* A key of the set: 6 bytes, as a packet has them. */
typedef struct {
    uint8_t address[4], port[2];
} flow;

typedef struct {
    pthread_t thread;
    pipapo_reader reader;
    uint64_t lookups, found, generations, last;
} worker;

static flow *keys;
static size_t key_count;
static int ended; /* by __atomic */

static void fail(const char *what, const char *why) {
    fprintf(stderr, "classify: %s: %s\n", what, why);
    exit(1);
}

static void must(uint32_t error, const char *call) {
    if (error != PIPAPO_OK) fail(call, pipapo_strerror(error));
}

static uint8_t *read_file(const char *name, size_t *length) {
    FILE *file = fopen(name, "rb");
    if (!file || fseek(file, 0, SEEK_END) != 0) fail(name, "can't be read");
    long size = ftell(file);
    uint8_t *bytes = size < 0 ? NULL : (uint8_t *)malloc((size_t)size + 1);
    rewind(file);
    if (!bytes || fread(bytes, 1, (size_t)size, file) != (size_t)size) fail(name, "can't be read");
    fclose(file);
    *length = (size_t)size;
    return bytes;
}

static uint32_t word_at(const uint8_t *at, int little) {
    uint32_t big = (uint32_t)at[0] << 24 | (uint32_t)at[1] << 16 | (uint32_t)at[2] << 8 | at[3];
    return little ? (uint32_t)at[3] << 24 | (uint32_t)at[2] << 16 | (uint32_t)at[1] << 8 | at[0] : big;
}

/* Whether a frame has a key: the destination of an unfragmented TCP or UDP packet over IPv4. */
static int key_of(const uint8_t *frame, size_t length, flow *key) {
    if (length < ETHERNET + 20 || frame[12] != 0x08 || frame[13] != 0x00) return 0;
    const uint8_t *packet = frame + ETHERNET;
    size_t header = (size_t)(packet[0] & 15) * 4;
    int is_first = (packet[6] & 0x1f) == 0 && packet[7] == 0;
    if (packet[0] >> 4 != 4 || header < 20 || !is_first || (packet[9] != 6 && packet[9] != 17)) return 0;
    if (length < ETHERNET + header + 4) return 0;
    memcpy(key->address, packet + 16, 4);
    memcpy(key->port, packet + header + 2, 2);
    return 1;
}

static void read_capture(const char *name) {
    size_t length, at = FILE_HEADER;
    uint8_t *bytes = read_file(name, &length);
    if (length < FILE_HEADER) fail(name, "is no capture");
    int little = bytes[0] != 0xa1;
    uint32_t magic = word_at(bytes, little);
    if ((magic != 0xa1b2c3d4 && magic != 0xa1b23c4d) || word_at(bytes + 20, little) != 1) fail(name, "is no capture of Ethernet");
    keys = (flow *)malloc((length / RECORD_HEADER + 1) * sizeof *keys);
    if (!keys) fail(name, "out of memory");
    while (length - at >= RECORD_HEADER) {
        size_t size = word_at(bytes + at + 8, little);
        at += RECORD_HEADER;
        if (length - at < size) fail(name, "ends early");
        key_count += (size_t)key_of(bytes + at, size, &keys[key_count]);
        at += size;
    }
    free(bytes);
    if (key_count == 0) fail(name, "has no packet with a key");
}

static void *classify(void *at) {
    worker *self = (worker *)at;
    uint64_t answers[BATCH], generation;
    size_t next = 0;
    while (!__atomic_load_n(&ended, __ATOMIC_SEQ_CST)) {
        size_t count = key_count - next < BATCH ? key_count - next : (size_t)BATCH;
        must(pipapo_lookup_many(&self->reader, SET, keys + next, count * sizeof *keys, 0, answers, count, &generation),
             "pipapo_lookup_many");
        for (size_t i = 0; i < count; ++i) self->found += answers[i] != PIPAPO_NONE;
        self->lookups += count;
        self->generations += self->lookups == count || generation != self->last;
        self->last = generation;
        next = next + count == key_count ? 0 : next + count;
    }
    return NULL;
}

static double seconds(void) {
    struct timespec now;
    clock_gettime(CLOCK_MONOTONIC, &now);
    return (double)now.tv_sec + (double)now.tv_nsec * 1e-9;
}

/* Ends the program if the script's first set has other fields than a flow. */
static void check_set(const char *name, pipapo_control *control) {
    pipapo_declared set;
    must(pipapo_describe(control, SET, &set), "pipapo_describe");
    if (set.fields != 2 || set.kinds[0] != PIPAPO_IPV4 || set.kinds[1] != PIPAPO_SERVICE)
        fail(name, "the first set isn't of the type ipv4_addr . inet_service");
}

/* Starts from the script, or prints where it is wrong. */
static void start(const char *name, pipapo_control *control, pipapo_reader *readers) {
    size_t length;
    pipapo_script_fault fault;
    char *rules = (char *)read_file(name, &length);
    uint32_t error = pipapo_start_script(rules, length, control, readers, THREADS, &fault);
    free(rules);
    if (error == PIPAPO_OK) return;
    unsigned long long line = fault.line, column = fault.column;
    if (error == PIPAPO_SCRIPT) fprintf(stderr, "%s:%llu:%llu: %s\n", name, line, column, pipapo_strreason(fault.reason));
    else if (error == PIPAPO_CHANGE) fprintf(stderr, "%s:%llu: %s\n", name, line, pipapo_strerror(fault.cause));
    else fail(name, pipapo_strerror(error));
    exit(1);
}

int main(int argc, char **argv) {
    if (argc < 3 || argc > 4) fail("usage", "classify RULES CAPTURE [MILLISECONDS]");
    double wanted = argc == 4 ? atof(argv[3]) / 1000 : 0.5;
    pipapo_control control = PIPAPO_EMPTY;
    pipapo_reader readers[THREADS] = {PIPAPO_EMPTY};
    static worker workers[THREADS];
    read_capture(argv[2]);
    start(argv[1], &control, readers);
    check_set(argv[1], &control);

    for (int i = 0; i < THREADS; ++i) {
        workers[i].reader = readers[i]; /* the copy is the handle from now on */
        if (pthread_create(&workers[i].thread, NULL, classify, &workers[i])) fail("pthread_create", "no thread");
    }
    const flow test_net[2] = {{{203, 0, 113, 0}, {0, 0}}, {{203, 0, 113, 255}, {255, 255}}};
    uint64_t commits = 0, generation = 0, purged;
    pipapo_answer answer;
    for (double end = seconds() + wanted; seconds() < end; ++commits) {
        if (commits % 2 == 0) must(pipapo_insert(&control, SET, test_net, sizeof test_net, PIPAPO_NEVER, "test", 4, 0, &answer), "pipapo_insert");
        else must(pipapo_delete(&control, SET, test_net, sizeof test_net, 0, &answer), "pipapo_delete");
        must(pipapo_commit(&control, 0, &generation, &purged), "pipapo_commit");
    }
    __atomic_store_n(&ended, 1, __ATOMIC_SEQ_CST);
    for (int i = 0; i < THREADS; ++i) {
        pthread_join(workers[i].thread, NULL);
        pipapo_free(&workers[i].reader);
        printf("thread %d: %llu lookups, %llu found, in %llu generations\n", i, (unsigned long long)workers[i].lookups,
               (unsigned long long)workers[i].found, (unsigned long long)workers[i].generations);
    }
    pipapo_free(&control);
    printf("control: %llu commits, the last of generation %llu\n", (unsigned long long)commits, (unsigned long long)generation);
    free(keys);
    return 0;
}
