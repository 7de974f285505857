/* Sixteen readers in threads beside a committing control: each answer is that of the generation that its reader holds. In
 * generation n of set 0 the port n modulo 65536 alone is found, and its element has the id n - 1.
 *     threads [SECONDS]    (1) */
#define _POSIX_C_SOURCE 200809L
#include <pthread.h>
#include <time.h>

#include "check.h"

enum { READERS = 16 };

static pipapo_control control = PIPAPO_EMPTY;
static double seconds_wanted = 1;
static int ended; /* by __atomic */
static uint64_t note; /* the number of the last generation, by __atomic */
static uint64_t changes; /* how often a reader met another generation than before, by __atomic */

static double seconds(void) {
    struct timespec now;
    clock_gettime(CLOCK_MONOTONIC, &now);
    return (double)now.tv_sec + (double)now.tv_nsec * 1e-9;
}

typedef struct {
    pthread_t thread;
    pipapo_reader reader;
    unsigned long lookups, failures;
} seat;

#define EXPECT(what) \
    do { \
        if (!(what)) { \
            fprintf(stderr, "threads: %s\n", #what); \
            ++seat_at->failures; \
        } \
    } while (0)

static void *read_on(void *at) {
    seat *seat_at = at;
    pipapo_elements elements = PIPAPO_EMPTY;
    pipapo_element element;
    flows bounds;
    char none;
    uint64_t seen = 0, former, generation, id, count, ids[3];
    while (!__atomic_load_n(&ended, __ATOMIC_SEQ_CST)) {
        uint64_t met = __atomic_load_n(&note, __ATOMIC_SEQ_CST);
        former = seen;
        EXPECT(pipapo_meet(&seat_at->reader, met) == PIPAPO_OK);
        seen = met > seen ? met : seen;
        EXPECT(pipapo_enter(&seat_at->reader, &generation) == PIPAPO_OK);
        EXPECT(generation >= seen);
        seen = generation;
        flow keys[3];
        for (uint64_t i = 0; i < 3; ++i) {
            keys[i] = flow_of(7, (uint16_t)(seen + i - 1));
            EXPECT(lookup_flow(&seat_at->reader, 0, keys[i], 0, &id) == PIPAPO_OK);
            EXPECT(id == (i == 1 && seen ? seen - 1 : PIPAPO_NONE));
        }
        EXPECT(pipapo_lookup_many(&seat_at->reader, 0, keys, sizeof keys, 0, ids, 3, &generation) == PIPAPO_OK);
        EXPECT(generation == seen && ids[0] == PIPAPO_NONE && ids[2] == PIPAPO_NONE);
        EXPECT(ids[1] == (seen ? seen - 1 : PIPAPO_NONE));
        EXPECT(pipapo_elements_of(&seat_at->reader, 0, &elements, &count) == PIPAPO_OK && count == (seen ? 1 : 0));
        EXPECT(pipapo_leave(&seat_at->reader) == PIPAPO_OK);
        uint32_t error = pipapo_element_at(&elements, 0, &bounds, sizeof bounds, &none, 0, &element);
        EXPECT(error == (seen ? PIPAPO_OK : PIPAPO_PLACE) && (!seen || element.id == seen - 1));
        /* without a generation held, all keys of a call are of one */
        EXPECT(pipapo_lookup_many(&seat_at->reader, 0, keys, sizeof keys, 0, ids, 3, &generation) == PIPAPO_OK);
        EXPECT(generation >= seen);
        for (uint64_t i = 0; i < 3; ++i)
            EXPECT(ids[i] == (generation && (uint16_t)generation == (uint16_t)(seen + i - 1) ? generation - 1 : PIPAPO_NONE));
        seen = generation;
        if (seen != former) __atomic_fetch_add(&changes, 1, __ATOMIC_SEQ_CST);
        seat_at->lookups += 9;
    }
    pipapo_free(&elements);
    return NULL;
}

/* The elements of a generation, which another thread walks while the control goes on. */
typedef struct {
    pthread_t thread;
    pipapo_elements elements;
    uint64_t generation, failures;
} walk;

static void *walk_on(void *at) {
    walk *seat_at = at;
    pipapo_element element;
    flows bounds;
    char none;
    for (int i = 0; i < 1000; ++i) {
        EXPECT(pipapo_element_at(&seat_at->elements, 0, &bounds, sizeof bounds, &none, 0, &element) == PIPAPO_OK);
        flow low = flow_of(0, (uint16_t)seat_at->generation);
        EXPECT(element.id == seat_at->generation - 1 && memcmp(&bounds.low, &low, sizeof low) == 0);
        EXPECT(pipapo_element_at(&seat_at->elements, 1, &bounds, sizeof bounds, &none, 0, &element) == PIPAPO_PLACE);
    }
    return NULL;
}

int main(int argc, char **argv) {
    pipapo_set set = {.kinds = {PIPAPO_IPV4, PIPAPO_SERVICE}, .fields = 2};
    pipapo_reader readers[READERS] = {PIPAPO_EMPTY};
    static seat seats[READERS];
    pipapo_answer answer;
    uint64_t generation = 0, purged;
    if (argc > 1) seconds_wanted = atof(argv[1]);
    CHECK(pipapo_start(&set, 1, &control, readers, READERS) == PIPAPO_OK);
    for (int i = 0; i < READERS; ++i) {
        seats[i].reader = readers[i];
        readers[i].at = NULL; /* it has moved */
        if (pthread_create(&seats[i].thread, NULL, read_on, &seats[i])) return 2;
    }
    double end = seconds() + seconds_wanted;
    uint64_t commits = 0, count;
    walk walker = {.generation = 0};
    /* On a busy machine the readers may not have run yet at the end, so it goes on until one has seen a change. */
    for (; (seconds() < end || !__atomic_load_n(&changes, __ATOMIC_SEQ_CST)) && !failures; ++commits) {
        uint16_t old_port = (uint16_t)commits, new_port = (uint16_t)(commits + 1);
        flows old_bounds = flows_of(0, 0xffffffff, old_port, old_port);
        if (commits) CHECK(pipapo_delete(&control, 0, &old_bounds, sizeof old_bounds, 0, &answer) == PIPAPO_OK);
        CHECK(insert_flows(&control, 0, flows_of(0, 0xffffffff, new_port, new_port), PIPAPO_NEVER, 0, &answer) == PIPAPO_OK);
        CHECK(answer.id == commits);
        CHECK(pipapo_commit(&control, 0, &generation, &purged) == PIPAPO_OK && generation == commits + 1);
        __atomic_store_n(&note, generation, __ATOMIC_SEQ_CST);
        if (commits % 256) continue;
        if (commits) pthread_join(walker.thread, NULL);
        walker.generation = generation;
        CHECK(pipapo_elements_of(&control, 0, &walker.elements, &count) == PIPAPO_OK && count == 1);
        if (pthread_create(&walker.thread, NULL, walk_on, &walker)) return 2;
    }
    __atomic_store_n(&ended, 1, __ATOMIC_SEQ_CST);
    if (commits) pthread_join(walker.thread, NULL);
    pipapo_free(&walker.elements);
    failures += (int)walker.failures;
    unsigned long lookups = 0;
    for (int i = 0; i < READERS; ++i) {
        pthread_join(seats[i].thread, NULL);
        pipapo_free(&seats[i].reader);
        lookups += seats[i].lookups;
        failures += (int)seats[i].failures;
    }
    pipapo_free(&control);
    CHECK(commits > 0 && changes > 0);
    printf("threads: %llu commits, %lu lookups, %llu changes of generation seen, %d failures\n", (unsigned long long)commits,
           lookups, (unsigned long long)changes, failures);
    return failures != 0;
}
