/* Each allocation of a scenario fails in turn. A call that reports PIPAPO_MEMORY has changed nothing, and works if it is made
 * again. A lookup allocates nothing. Linked with --wrap=malloc,--wrap=realloc,--wrap=free. */
#include "check.h"

static long left = -1; /* allocations that still succeed; -1: all */
static long blocks;    /* that aren't freed yet */

void *__real_malloc(size_t size);
void *__real_realloc(void *at, size_t size);
void __real_free(void *at);
void *__wrap_malloc(size_t size);
void *__wrap_realloc(void *at, size_t size);
void __wrap_free(void *at);

static int may(void) {
    return left < 0 || left-- > 0;
}

void *__wrap_malloc(size_t size) {
    void *at = may() ? __real_malloc(size) : NULL;
    blocks += at != NULL;
    return at;
}

void *__wrap_realloc(void *at, size_t size) {
    return may() ? __real_realloc(at, size) : NULL;
}

void __wrap_free(void *at) {
    blocks -= at != NULL;
    __real_free(at);
}

static unsigned long refusals;

/* A call that wants memory is made once more, with memory. */
#define TRY(call) \
    do { \
        uint32_t got = call; \
        if (got == PIPAPO_MEMORY) { \
            ++refusals; \
            left = -1; \
            got = call; \
        } \
        if (got != PIPAPO_OK) { \
            fprintf(stderr, "failing: %s: %s\n", #call, pipapo_strerror(got)); \
            exit(1); \
        } \
    } while (0)

static void expect(int holds, const char *what) {
    if (!holds) {
        fprintf(stderr, "failing: %s\n", what);
        exit(1);
    }
}

/* 40 elements, of which 14 expire, two are gone at the end of the third transaction, and one of a flushed set. Whether every
 * allocation succeeded. */
static int run(long n) {
    pipapo_set sets[2] = {{.kinds = {PIPAPO_IPV4, PIPAPO_SERVICE}, .fields = 2}, {.kinds = {PIPAPO_PROTO}, .fields = 1}};
    pipapo_control control = PIPAPO_EMPTY;
    pipapo_reader readers[2] = {PIPAPO_EMPTY, PIPAPO_EMPTY};
    pipapo_answer answer;
    uint64_t id, generation, purged, count;
    left = n;
    uint32_t started = pipapo_start(sets, 2, &control, readers, 2);
    if (started == PIPAPO_MEMORY) {
        expect(blocks == 0 && control.at == NULL && readers[0].at == NULL, "a refused start leaves nothing");
        ++refusals;
        left = -1;
        started = pipapo_start(sets, 2, &control, readers, 2);
    }
    expect(started == PIPAPO_OK, "a start is done");
    TRY(pipapo_insert(&control, 1, "\x06\x06", 2, PIPAPO_NEVER, "tcp", 3, 0, &answer));
    TRY(pipapo_flush(&control, 1, &count));
    expect(count == 1, "a flush counts one element");
    for (uint32_t i = 0; i < 40; ++i) {
        flows bounds = flows_of(i << 8, (i << 8) + 77, (uint16_t)i, (uint16_t)(i + 9));
        if (i % 2) TRY(pipapo_create(&control, 0, &bounds, sizeof bounds, i % 3 ? PIPAPO_NEVER : 5, "one", 3, 0, &answer));
        else TRY(insert_flows(&control, 0, bounds, i % 3 ? PIPAPO_NEVER : 5, 0, &answer));
        expect(answer.id == i && answer.outcome == PIPAPO_NEW, "an element is new");
        if (i % 10 == 9) TRY(pipapo_commit(&control, 0, &generation, &purged));
        if (i == 20) TRY(pipapo_delete(&control, 0, &bounds, sizeof bounds, 0, &answer));
        if (i == 22) TRY(pipapo_destroy(&control, 0, &bounds, sizeof bounds, 0, &answer));
    }
    TRY(pipapo_commit(&control, 5, &generation, &purged));
    expect(generation == 5 && purged == 14, "the fifth commit purges 14 elements");
    pipapo_elements elements = PIPAPO_EMPTY;
    TRY(pipapo_elements_of(&control, 0, &elements, &count));
    expect(count == 24, "24 elements stay");
    TRY(pipapo_enter(&readers[1], &generation));
    TRY(pipapo_elements_of(&readers[1], 0, &elements, &count));
    expect(generation == 5 && count == 24, "a reader's generation has the same elements");
    TRY(pipapo_leave(&readers[1]));
    long before = left, at_first = blocks;
    pipapo_element element;
    pipapo_declared shape;
    flows bounds;
    char comment[8];
    for (uint64_t i = 0; i < count; ++i)
        TRY(pipapo_element_at(&elements, i, &bounds, sizeof bounds, comment, sizeof comment, &element));
    expect(element.id == 38, "the last element has its id");
    TRY(pipapo_describe(&control, 1, &shape));
    TRY(pipapo_note(&readers[0], &id));
    TRY(pipapo_meet(&readers[1], id));
    TRY(pipapo_hear(&control, id));
    for (uint32_t i = 0; i < 40; ++i) {
        TRY(lookup_flow(&readers[i % 2], 0, flow_of((i << 8) + 7, (uint16_t)(i + 3)), 5, &id));
        expect(id == (i % 3 && i != 20 && i != 22 ? i : PIPAPO_NONE), "a lookup finds its element");
    }
    expect(left == before && blocks == at_first, "a lookup, an element, a description and a note allocate nothing");
    int all = left != -1;
    left = -1;
    pipapo_free(&control);
    pipapo_free(&readers[0]);
    pipapo_free(&readers[1]);
    pipapo_free(&elements);
    expect(blocks == 0, "every block is freed");
    return all;
}

/* A listing whose allocations fail in turn: it leaves nothing allocated, and writes nothing. */
static void list_failing(pipapo_control *control) {
    long at_first = blocks;
    for (long n = 0;; ++n) {
        char *text = NULL;
        size_t length = 77;
        left = n;
        uint32_t got = pipapo_list(control, 0, &text, &length);
        left = -1;
        if (got == PIPAPO_OK) {
            expect(length == strlen(text), "a text has its length");
            pipapo_free_text(text);
            break;
        }
        ++refusals;
        expect(got == PIPAPO_MEMORY && text == NULL && length == 77, "a refused listing writes nothing");
        expect(blocks == at_first, "a refused listing leaves nothing");
    }
    expect(blocks == at_first, "a freed text is freed");
}

/* A start by a script: one that wants memory leaves nothing allocated, and its handles empty. */
static int run_script(long n) {
    static const char text[] =
        "add set ip t s { type ipv4_addr . inet_service ; flags interval,timeout ; }\n"
        "add element ip t s { 192.0.2.0/24 . 80-443 comment \"web\", 192.0.3.0/24 . 22 timeout 5s }\ncommit\n"
        "delete element ip t s { 192.0.3.0/24 . 22 }\n";
    pipapo_control control = PIPAPO_EMPTY;
    pipapo_reader readers[2] = {PIPAPO_EMPTY, PIPAPO_EMPTY};
    pipapo_script_fault fault;
    uint64_t generation;
    left = n;
    uint32_t got = pipapo_start_script(text, sizeof text - 1, &control, readers, 2, &fault);
    if (got == PIPAPO_MEMORY) {
        ++refusals;
        expect(blocks == 0 && control.at == NULL && readers[0].at == NULL, "a refused start leaves nothing");
        expect(fault.line == 0 && fault.reason == 0 && fault.cause == 0, "a start without memory has no place");
        left = -1;
        return 0;
    }
    int all = left != -1;
    left = -1;
    expect(got == PIPAPO_OK, "a script starts");
    expect(pipapo_number(&control, &generation) == PIPAPO_OK && generation == 2, "a script commits twice");
    list_failing(&control);
    pipapo_free(&control);
    pipapo_free(&readers[0]);
    pipapo_free(&readers[1]);
    expect(blocks == 0, "every block is freed");
    return all;
}

int main(void) {
    long n = 0;
    while (!run(n)) ++n;
    long m = 0;
    while (!run_script(m)) ++m;
    n += m;
    printf("failing: %ld allocations, %lu calls that were refused and made again\n", n, refusals);
    return 0;
}
