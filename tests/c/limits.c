/* A field has at most 1,048,576 rules. The addresses from ::1 to ffff:..:fffe are 254 prefixes, so 4,128 elements with this
 * interval have 1,048,512 rules. The next of these elements is refused, and an element of one address fits. */
#include "check.h"

enum { MOST = 4128 };

typedef struct {
    uint8_t port[2], address[16];
} end;

static end end_of(uint16_t port, uint8_t fill, uint8_t last) {
    end made = {.port = {(uint8_t)(port >> 8), (uint8_t)port}};
    memset(made.address, fill, sizeof made.address);
    made.address[15] = last;
    return made;
}

static uint32_t insert(pipapo_control *control, uint16_t port, end low, end high, pipapo_answer *answer) {
    end bounds[2] = {low, high};
    bounds[0].port[0] = bounds[1].port[0] = (uint8_t)(port >> 8);
    bounds[0].port[1] = bounds[1].port[1] = (uint8_t)port;
    return pipapo_insert(control, 0, bounds, sizeof bounds, PIPAPO_NEVER, "", 0, 0, answer);
}

int main(void) {
    pipapo_set set = {.kinds = {PIPAPO_SERVICE, PIPAPO_IPV6}, .fields = 2};
    pipapo_control control = PIPAPO_EMPTY;
    pipapo_reader reader = PIPAPO_EMPTY;
    pipapo_answer answer;
    uint64_t generation, purged, id;
    end first = end_of(0, 0, 1), last = end_of(0, 0xff, 0xfe), inner = end_of(MOST - 1, 0x20, 7);
    CHECK(pipapo_start(&set, 1, &control, &reader, 1) == PIPAPO_OK);
    for (uint16_t i = 0; i < MOST; ++i) CHECK(insert(&control, i, first, last, &answer) == PIPAPO_OK && answer.id == i);
    CHECK(insert(&control, MOST, first, last, &answer) == PIPAPO_RULES_FULL);
    CHECK(answer.outcome == PIPAPO_REFUSED && answer.field == 1 && answer.id == 0);
    CHECK(insert(&control, MOST, first, first, &answer) == PIPAPO_OK && answer.id == MOST);
    CHECK(pipapo_commit(&control, 0, &generation, &purged) == PIPAPO_OK && generation == 1);
    CHECK(pipapo_lookup(&reader, 0, &inner, sizeof inner, 0, &id) == PIPAPO_OK && id == MOST - 1);
    inner = end_of(MOST, 0x20, 7);
    CHECK(pipapo_lookup(&reader, 0, &inner, sizeof inner, 0, &id) == PIPAPO_OK && id == PIPAPO_NONE);
    pipapo_free(&control);
    pipapo_free(&reader);
    printf("limits: %d failures\n", failures);
    return failures != 0;
}
