/* Each call from C, in its good and its refused cases. */
#include "check.h"

#define NET UINT32_C(0xc0000200) /* 192.0.2.0 */

static const pipapo_set shapes[2] = {
    {.kinds = {PIPAPO_IPV4, PIPAPO_SERVICE}, .fields = 2},
    {.kinds = {PIPAPO_IPV6}, .fields = 1, .size = 2, .disjoint = 1},
};

static void start(pipapo_control *control, pipapo_reader *readers, size_t count) {
    CHECK(pipapo_start(shapes, 2, control, readers, count) == PIPAPO_OK);
    CHECK(control->at != NULL);
    for (size_t i = 0; i < count; ++i) CHECK(readers[i].at != NULL);
}

/* Every call on a handle that holds nothing, and on a handle of the other kind. */
static void wrong_handles(void) {
    pipapo_control empty = PIPAPO_EMPTY, control = PIPAPO_EMPTY;
    pipapo_reader nobody = PIPAPO_EMPTY, reader = PIPAPO_EMPTY;
    start(&control, &reader, 1);
    flows bounds = flows_of(NET, NET + 255, 80, 443);
    flow key = flow_of(NET, 80);
    pipapo_elements elements = PIPAPO_EMPTY, none = PIPAPO_EMPTY, got = PIPAPO_EMPTY;
    uint64_t count = 77;
    CHECK(pipapo_elements_of(&control, 0, &elements, &count) == PIPAPO_OK && count == 0);
    pipapo_control *controls[3] = {&empty, (pipapo_control *)&reader, (pipapo_control *)&elements};
    pipapo_reader *readers[3] = {&nobody, (pipapo_reader *)&control, (pipapo_reader *)&elements};
    pipapo_elements *sets[3] = {&none, (pipapo_elements *)&control, (pipapo_elements *)&reader};
    const uint32_t wanted[3] = {PIPAPO_NOTHING, PIPAPO_HANDLE, PIPAPO_HANDLE};
    for (int i = 0; i < 3; ++i) {
        pipapo_answer answer = {77, 77, 77};
        uint64_t number = 77, other = 77;
        char *text = NULL, bytes[512] = "?", comment[8] = "?";
        size_t length = 77;
        pipapo_declared shape = {.fields = 77};
        pipapo_element element = {77, 77, 77, 77};
        CHECK(pipapo_describe(controls[i], 0, &shape) == wanted[i] && shape.fields == 77);
        if (i != 1) CHECK(pipapo_elements_of(controls[i], 0, &got, &number) == wanted[i] && got.at == NULL);
        CHECK(pipapo_element_at(sets[i], 0, bytes, sizeof bytes, comment, sizeof comment, &element) == wanted[i]);
        CHECK(element.id == 77 && element.bounds_length == 77 && bytes[0] == '?' && comment[0] == '?');
        CHECK(pipapo_hear(controls[i], 0) == wanted[i]);
        CHECK(pipapo_meet(readers[i], 0) == wanted[i]);
        CHECK(pipapo_list(controls[i], 0, &text, &length) == wanted[i] && text == NULL && length == 77);
        CHECK(pipapo_list_into(controls[i], 0, bytes, sizeof bytes, &number) == wanted[i]);
        CHECK(pipapo_insert(controls[i], 0, &bounds, sizeof bounds, PIPAPO_NEVER, "", 0, 0, &answer) == wanted[i]);
        CHECK(answer.id == 0 && answer.field == 0 && answer.outcome == PIPAPO_REFUSED);
        CHECK(pipapo_create(controls[i], 0, &bounds, sizeof bounds, PIPAPO_NEVER, "", 0, 0, &answer) == wanted[i]);
        CHECK(pipapo_delete(controls[i], 0, &bounds, sizeof bounds, 0, &answer) == wanted[i]);
        CHECK(pipapo_destroy(controls[i], 0, &bounds, sizeof bounds, 0, &answer) == wanted[i]);
        CHECK(pipapo_flush(controls[i], 0, &number) == wanted[i]);
        CHECK(pipapo_commit(controls[i], 0, &number, &other) == wanted[i]);
        CHECK(pipapo_abort(controls[i]) == wanted[i]);
        CHECK(pipapo_number(controls[i], &number) == wanted[i]);
        CHECK(pipapo_enter(readers[i], &number) == wanted[i]);
        CHECK(pipapo_leave(readers[i]) == wanted[i]);
        CHECK(pipapo_generation(readers[i], &number) == wanted[i]);
        CHECK(pipapo_lookup(readers[i], 0, &key, sizeof key, 0, &number) == wanted[i]);
        CHECK(pipapo_lookup_many(readers[i], 0, &key, sizeof key, 0, &number, 1, &other) == wanted[i]);
        CHECK(number == 77 && other == 77);
    }
    CHECK(pipapo_elements_of(&reader, 0, &got, &count) == PIPAPO_TURN && got.at == NULL && count == 0);
    uint64_t note = 77;
    CHECK(pipapo_note(&empty, &note) == PIPAPO_NOTHING && pipapo_note(&elements, &note) == PIPAPO_HANDLE && note == 77);
    CHECK(control.at != NULL && reader.at != NULL && elements.at != NULL && empty.at == NULL && nobody.at == NULL);
    pipapo_free(&elements);
    CHECK(elements.at == NULL);
    pipapo_free(&empty);
    pipapo_free(&control);
    pipapo_free(&reader);
    CHECK(control.at == NULL && reader.at == NULL);
    pipapo_free(&control);
}

static void refused_starts(void) {
    pipapo_control control = PIPAPO_EMPTY;
    pipapo_reader readers[17] = {PIPAPO_EMPTY};
    CHECK(pipapo_start(shapes, 2, &control, readers, 0) == PIPAPO_READERS);
    CHECK(pipapo_start(shapes, 2, &control, readers, 17) == PIPAPO_READERS);
    pipapo_set bad = shapes[0];
    bad.fields = 0;
    CHECK(pipapo_start(&bad, 1, &control, readers, 1) == PIPAPO_SCHEMA);
    bad.fields = 17;
    CHECK(pipapo_start(&bad, 1, &control, readers, 1) == PIPAPO_SCHEMA);
    bad.fields = 2;
    bad.kinds[1] = PIPAPO_MARK + 1;
    CHECK(pipapo_start(&bad, 1, &control, readers, 1) == PIPAPO_SCHEMA);
    bad = shapes[0];
    bad.family = PIPAPO_FAMILY_NETDEV + 1;
    CHECK(pipapo_start(&bad, 1, &control, readers, 1) == PIPAPO_SCHEMA);
    CHECK(control.at == NULL && readers[0].at == NULL);

    /* a start that is refused leaves what the handles hold, and one that isn't takes its place */
    start(&control, readers, 16);
    void *held = readers[3].at;
    CHECK(pipapo_start(&bad, 1, &control, readers, 16) == PIPAPO_SCHEMA);
    CHECK(readers[3].at == held);
    start(&control, readers, 2);
    for (int i = 0; i < 16; ++i) pipapo_free(&readers[i]);
    pipapo_free(&control);
}

/* Declared sets in the order of a script, its elements, and what it commits. */
static void scripts(void) {
    static const char rules[] =
        "add set inet filter hosts { type ipv4_addr ; flags interval ; }\n"
        "add set inet filter services { type ipv4_addr . inet_service ; flags interval ; }\n"
        "add element inet filter services { 192.0.2.0/24 . 80-443, 192.0.3.7 . 22 }\n";
    pipapo_control control = PIPAPO_EMPTY;
    pipapo_reader readers[2] = {PIPAPO_EMPTY, PIPAPO_EMPTY};
    pipapo_script_fault fault = {77, 77, 77, 77, 77, 77, 77};
    pipapo_answer answer;
    uint64_t generation = 77, purged, id = 77;
    CHECK(pipapo_start_script(rules, strlen(rules), &control, readers, 2, &fault) == PIPAPO_OK && fault.line == 77);
    CHECK(pipapo_number(&control, &generation) == PIPAPO_OK && generation == 1);
    for (int i = 0; i < 2; ++i) {
        CHECK(lookup_flow(&readers[i], 1, flow_of(NET + 7, 443), 0, &id) == PIPAPO_OK && id == 0);
        CHECK(lookup_flow(&readers[i], 1, flow_of(NET + 256 + 7, 22), 0, &id) == PIPAPO_OK && id == 1);
        CHECK(lookup_flow(&readers[i], 1, flow_of(NET + 256 + 7, 23), 0, &id) == PIPAPO_OK && id == PIPAPO_NONE);
        CHECK(pipapo_lookup(&readers[i], 0, "\xc0\x00\x02\x07", 4, 0, &id) == PIPAPO_OK && id == PIPAPO_NONE);
        CHECK(pipapo_enter(&readers[i], &generation) == PIPAPO_OK && generation == 1);
    }
    /* no change was left open, and ids go on */
    CHECK(pipapo_commit(&control, 0, &generation, &purged) == PIPAPO_OK && generation == 2 && purged == 0);
    CHECK(insert_flows(&control, 1, flows_of(NET, NET, 22, 22), PIPAPO_NEVER, 0, &answer) == PIPAPO_OK && answer.id == 2);

    /* sets alone; several sections; an abort */
    static const struct { const char *text; uint64_t generation, found; } good[] = {
        {"", 0, 0},
        {"add set ip t s { type mark ; }\n", 0, PIPAPO_NONE},
        {"add set ip t s { type mark ; }\nadd element ip t s { 5 }\nround\ndelete element ip t s { 5 }\n", 2, PIPAPO_NONE},
        {"add set ip t s { type mark ; }\nadd element ip t s { 5 }\ncommit\nadd element ip t s { 6 }\nabort\n", 1, 0},
    };
    for (size_t i = 0; i < sizeof good / sizeof *good; ++i) {
        CHECK(pipapo_start_script(good[i].text, strlen(good[i].text), &control, readers, 2, &fault) == PIPAPO_OK);
        CHECK(pipapo_number(&control, &generation) == PIPAPO_OK && generation == good[i].generation);
        uint32_t found = pipapo_lookup(&readers[1], 0, "\0\0\0\5", 4, 0, &id);
        CHECK(i == 0 ? found == PIPAPO_SET : found == PIPAPO_OK && id == good[i].found);
    }

    /* refusals: the place of the bad token or of the change */
    static const struct { const char *text; uint32_t error; pipapo_script_fault fault; } bad[] = {
        {"add set ip t s { type mark ; }\nadd elment ip t s { 5 }\n", PIPAPO_SCRIPT,
         {.line = 2, .column = 5, .reason = PIPAPO_REASON_STATEMENT}},
        {"add set ip t s { type mark ; }\nadd element ip t q { 5 }\n", PIPAPO_SCRIPT,
         {.line = 2, .column = 18, .reason = PIPAPO_REASON_SET}},
        {"add set ip t s { type colour ; }\n", PIPAPO_SCRIPT, {.line = 1, .column = 23, .reason = PIPAPO_REASON_TYPE}},
        {"add set ip t s { type mark ;", PIPAPO_SCRIPT, {.line = 1, .column = 29, .reason = PIPAPO_REASON_END}},
        {"add set ip t s { type mark ; }\nadd element ip t s { many }\n", PIPAPO_SCRIPT,
         {.line = 2, .column = 22, .reason = PIPAPO_REASON_VALUE}},
        {"add set ip t s { type mark ; }\nadd element ip t s { ? }\n", PIPAPO_SCRIPT,
         {.line = 2, .column = 22, .reason = PIPAPO_REASON_CHARACTER}},
        {"add set ip t s { type mark ; }\nadd element ip t s { * }\n", PIPAPO_SCRIPT,
         {.line = 2, .column = 22, .reason = PIPAPO_REASON_LEFT_OUT}},
        {"add set ip t s { type mark ; timeout often ; }\n", PIPAPO_SCRIPT,
         {.line = 1, .column = 38, .reason = PIPAPO_REASON_TIME}},
        {"add set ip t s { type mark ; size large ; }\n", PIPAPO_SCRIPT,
         {.line = 1, .column = 35, .reason = PIPAPO_REASON_NUMBER}},
        {"at noon\n", PIPAPO_SCRIPT, {.line = 1, .column = 4, .reason = PIPAPO_REASON_MOMENT}},
        {"add set ip t s { type mark ; flags interval ; }\nadd element ip t s { 5-9 }\n\nadd element ip t s { 7 }\n",
         PIPAPO_CHANGE, {.line = 4, .cause = PIPAPO_OVERLAP}},
        {"add set ip t r { type mark ; }\nadd set ip t s { type mark ; }\nadd element ip t s { 4, 5 }\ncreate element ip t s { 5 }\n",
         PIPAPO_CHANGE, {.line = 4, .cause = PIPAPO_EXISTS, .id = 1, .set = 1}},
        {"add set ip t s { type mark ; size 1 ; }\nadd element ip t s { 5 }\nadd element ip t s { 6 }\n", PIPAPO_CHANGE,
         {.line = 3, .cause = PIPAPO_FULL}},
        {"add set ip t s { type mark ; }\ndelete element ip t s { 5 }\ncommit\nadd element ip t s { 5 }\n", PIPAPO_CHANGE,
         {.line = 2, .cause = PIPAPO_MISSING}},
    };
    void *held = control.at, *reader = readers[0].at;
    for (size_t i = 0; i < sizeof bad / sizeof *bad; ++i) {
        memset(&fault, 0x77, sizeof fault);
        CHECK(pipapo_start_script(bad[i].text, strlen(bad[i].text), &control, readers, 2, &fault) == bad[i].error);
        if (memcmp(&fault, &bad[i].fault, sizeof fault) != 0) {
            fprintf(stderr, "script %zu: %d.%d reason %u cause %u set %u id %d\n", i, (int)fault.line, (int)fault.column,
                    fault.reason, fault.cause, fault.set, (int)fault.id);
            ++failures;
        }
        CHECK(control.at == held && readers[0].at == reader);
    }
    pipapo_reader none[17] = {PIPAPO_EMPTY};
    CHECK(pipapo_start_script(rules, strlen(rules), &control, none, 0, &fault) == PIPAPO_READERS && fault.line == 0);
    CHECK(pipapo_start_script("?", 1, &control, none, 17, &fault) == PIPAPO_READERS && fault.reason == 0);
    CHECK(control.at == held && none[0].at == NULL);
    pipapo_free(&control);
    pipapo_free(&readers[0]);
    pipapo_free(&readers[1]);
}

/* Listings in nft's form, of what is committed, and what refuses one. */
static void listings(void) {
    static const char rules[] =
        "add set inet filter hosts { type ipv4_addr ; size 9 ; }\n"
        "add set inet filter services { type ipv4_addr . inet_service ; flags interval,timeout ; }\n"
        "add set ip nat marks { type mark ; }\n"
        "add element inet filter services { 192.0.2.0/24 . 80-443 comment \"web\", 192.0.3.7 . 22 timeout 1m }\n"
        "add element ip nat marks { 0x10 }\n";
    static const char listed[] =
        "table inet filter {\n"
        "\tset hosts {\n\t\ttype ipv4_addr\n\t\tsize 9\n\t}\n"
        "\n"
        "\tset services {\n\t\ttype ipv4_addr . inet_service\n\t\tflags interval,timeout\n"
        "\t\telements = { 192.0.2.0/24 . 80-443 comment \"web\",\n\t\t\t     192.0.3.7 . 22 expires 50s }\n\t}\n"
        "}\n"
        "\n"
        "table ip nat {\n\tset marks {\n\t\ttype mark\n\t\telements = { 0x00000010 }\n\t}\n}\n";
    pipapo_control control = PIPAPO_EMPTY, empty = PIPAPO_EMPTY;
    pipapo_reader reader = PIPAPO_EMPTY;
    pipapo_script_fault fault;
    pipapo_answer answer;
    char *text = NULL, buffer[sizeof listed + 1];
    size_t length = 77;
    uint64_t written = 77, generation;
    CHECK(pipapo_start_script(rules, strlen(rules), &control, &reader, 1, &fault) == PIPAPO_OK);
    /* what is open isn't listed */
    CHECK(insert_flows(&control, 1, flows_of(NET, NET, 22, 22), PIPAPO_NEVER, 0, &answer) == PIPAPO_OK);
    for (int twice = 0; twice < 2; ++twice) {
        CHECK(pipapo_list(&control, 10000, &text, &length) == PIPAPO_OK);
        CHECK(length == strlen(listed) && strcmp(text, listed) == 0);
        if (text && strcmp(text, listed) != 0) fprintf(stderr, "%s", text);
        /* a listing is a script again, of the same listing */
        CHECK(pipapo_start_script(text, length, &control, &reader, 1, &fault) == PIPAPO_OK);
        CHECK(pipapo_number(&control, &generation) == PIPAPO_OK && generation == 1);
        pipapo_free_text(text);
        CHECK(pipapo_list(&control, 0, &text, &length) == PIPAPO_OK && strcmp(text, listed) == 0);
        pipapo_free_text(text);
        CHECK(pipapo_start_script(rules, strlen(rules), &control, &reader, 1, &fault) == PIPAPO_OK);
    }
    pipapo_free_text(NULL);

    /* into a buffer: its length if it is too short, and nothing after it if it isn't */
    memset(buffer, '?', sizeof buffer);
    CHECK(pipapo_list_into(&control, 10000, buffer, strlen(listed) - 1, &written) == PIPAPO_ROOM);
    CHECK(written == strlen(listed) && buffer[0] == '?' && buffer[sizeof buffer - 1] == '?');
    written = 77;
    CHECK(pipapo_list_into(&control, 10000, buffer, sizeof buffer, &written) == PIPAPO_OK && written == strlen(listed));
    CHECK(memcmp(buffer, listed, strlen(listed)) == 0 && buffer[strlen(listed)] == '?' && buffer[sizeof buffer - 1] == '?');

    text = NULL;
    length = written = 77;
    CHECK(pipapo_list(&empty, 0, &text, &length) == PIPAPO_NOTHING);
    CHECK(pipapo_list((pipapo_control *)&reader, 0, &text, &length) == PIPAPO_HANDLE);
    CHECK(pipapo_list_into(&empty, 0, buffer, sizeof buffer, &written) == PIPAPO_NOTHING);
    CHECK(pipapo_list_into((pipapo_control *)&reader, 0, buffer, sizeof buffer, &written) == PIPAPO_HANDLE);
    CHECK(text == NULL && length == 77 && written == 77);
    CHECK(pipapo_start_script("", 0, &control, &reader, 1, &fault) == PIPAPO_OK);
    CHECK(pipapo_list(&control, 0, &text, &length) == PIPAPO_OK && length == 0 && text[0] == 0);
    pipapo_free_text(text);
    pipapo_free(&control);
    pipapo_free(&reader);
}

/* What sets were declared as, by structs and by a script. */
static void descriptions(void) {
    static const char rules[] =
        "add set ip6 nat hosts { type ipv6_addr ; timeout 90s ; }\n"
        "add set netdev t frames { type ether_addr . inet_proto . mark ; flags interval,disjoint ; size 9 ; }\n";
    pipapo_control control = PIPAPO_EMPTY;
    pipapo_reader reader = PIPAPO_EMPTY;
    pipapo_script_fault fault;
    pipapo_set made[2] = {
        {.kinds = {PIPAPO_IPV4, PIPAPO_SERVICE}, .fields = 2, .family = PIPAPO_FAMILY_BRIDGE, .table = "t", .name = "flows"},
        {.kinds = {PIPAPO_IPV6}, .fields = 1, .size = 2, .disjoint = 7, .family = PIPAPO_FAMILY_ARP},
    };
    pipapo_declared wanted[4] = {
        {.kinds = {PIPAPO_IPV4, PIPAPO_SERVICE}, .fields = 2, .family = PIPAPO_FAMILY_BRIDGE, .interval = 1, .timed = 1,
         .table = "t", .name = "flows"},
        {.kinds = {PIPAPO_IPV6}, .fields = 1, .size = 2, .disjoint = 1, .interval = 1, .timed = 1, .family = PIPAPO_FAMILY_ARP},
        {.kinds = {PIPAPO_IPV6}, .fields = 1, .family = PIPAPO_FAMILY_IP6, .timed = 1, .timeout = 90000, .table = "nat",
         .name = "hosts"},
        {.kinds = {PIPAPO_ETHER, PIPAPO_PROTO, PIPAPO_MARK}, .fields = 3, .family = PIPAPO_FAMILY_NETDEV, .interval = 1,
         .disjoint = 1, .size = 9, .table = "t", .name = "frames"},
    };
    pipapo_declared declared;
    /* a name that no zero byte ends */
    memset(made[1].table, 'q', sizeof made[1].table);
    memset(wanted[1].table, 'q', sizeof made[1].table);
    for (uint32_t i = 0; i < 4; ++i) {
        if (i == 0) CHECK(pipapo_start(made, 2, &control, &reader, 1) == PIPAPO_OK);
        if (i == 2) CHECK(pipapo_start_script(rules, strlen(rules), &control, &reader, 1, &fault) == PIPAPO_OK);
        memset(&declared, 0x77, sizeof declared);
        CHECK(pipapo_describe(&control, i % 2, &declared) == PIPAPO_OK);
        CHECK(memcmp(&declared, &wanted[i], sizeof declared) == 0);
    }
    memset(&declared, 0x77, sizeof declared);
    CHECK(pipapo_describe(&control, 2, &declared) == PIPAPO_SET && declared.fields == 0x77777777);

    /* the longest name of a script has 127 bytes */
    char longest[300], name[128] = {0};
    memset(name, 'n', 127);
    int bytes = snprintf(longest, sizeof longest, "add set ip t %s { type mark ; }\n", name);
    CHECK(pipapo_start_script(longest, (size_t)bytes, &control, &reader, 1, &fault) == PIPAPO_OK);
    CHECK(pipapo_describe(&control, 0, &declared) == PIPAPO_OK && memcmp(declared.name, name, 128) == 0);
    pipapo_free(&control);
    pipapo_free(&reader);
}

/* The elements of generations, in the order of insertion, also of one from which some left. */
static void walks(void) {
    pipapo_control control = PIPAPO_EMPTY;
    pipapo_reader reader = PIPAPO_EMPTY;
    pipapo_elements first = PIPAPO_EMPTY, held = PIPAPO_EMPTY;
    pipapo_answer answer;
    pipapo_element element;
    uint64_t generation, purged, count = 77;
    flows bounds;
    char comment[8];
    start(&control, &reader, 1);
    for (uint32_t i = 0; i < 1000; ++i) {
        flows one = flows_of(NET + 4 * i, NET + 4 * i + i % 4, (uint16_t)i, (uint16_t)(2 * i));
        char text[16];
        int size = snprintf(text, sizeof text, "%u", i);
        uint64_t expiry = i % 5 == 0 ? 1000 + i : PIPAPO_NEVER;
        CHECK(pipapo_insert(&control, 0, &one, sizeof one, expiry, text, (size_t)size, 0, &answer) == PIPAPO_OK);
    }
    /* what is open isn't there */
    CHECK(pipapo_elements_of(&control, 0, &first, &count) == PIPAPO_OK && count == 0);
    CHECK(pipapo_element_at(&first, 0, &bounds, sizeof bounds, comment, sizeof comment, &element) == PIPAPO_PLACE);
    CHECK(pipapo_commit(&control, 0, &generation, &purged) == PIPAPO_OK && purged == 0);
    CHECK(pipapo_elements_of(&control, 0, &first, &count) == PIPAPO_OK && count == 1000);

    /* 200 expire, three of the others are deleted: one at the front, one in the middle, one at the end */
    for (uint32_t i = 1; i < 1000; i += 499) {
        flows one = flows_of(NET + 4 * i, NET + 4 * i + i % 4, (uint16_t)i, (uint16_t)(2 * i));
        CHECK(pipapo_delete(&control, 0, &one, sizeof one, 0, &answer) == PIPAPO_OK && answer.id == i);
    }
    CHECK(pipapo_commit(&control, 2000, &generation, &purged) == PIPAPO_OK && purged == 199);
    CHECK(pipapo_elements_of(&control, 0, &held, &count) == PIPAPO_OK && count == 798);
    uint64_t place = 0;
    for (uint32_t i = 0; i < 1000; ++i) {
        flows one = flows_of(NET + 4 * i, NET + 4 * i + i % 4, (uint16_t)i, (uint16_t)(2 * i));
        char text[16];
        int size = snprintf(text, sizeof text, "%u", i);
        /* the older generation's are as they were */
        CHECK(pipapo_element_at(&first, i, &bounds, sizeof bounds, comment, sizeof comment, &element) == PIPAPO_OK);
        CHECK(element.id == i && element.expiry == (i % 5 == 0 ? 1000 + i : PIPAPO_NEVER));
        CHECK(memcmp(&bounds, &one, sizeof one) == 0);
        if (i % 5 == 0 || i % 499 == 1) continue;
        memset(comment, '?', sizeof comment);
        CHECK(pipapo_element_at(&held, place++, &bounds, sizeof bounds, comment, sizeof comment, &element) == PIPAPO_OK);
        CHECK(element.id == i && element.expiry == PIPAPO_NEVER && memcmp(&bounds, &one, sizeof one) == 0);
        CHECK(element.bounds_length == sizeof bounds && element.comment_length == (uint64_t)size);
        CHECK(memcmp(comment, text, (size_t)size) == 0 && comment[size] == '?');
    }
    CHECK(place == 798);
    CHECK(pipapo_element_at(&held, place, &bounds, sizeof bounds, comment, sizeof comment, &element) == PIPAPO_PLACE);

    /* buffers that are too short, exactly long enough, and longer */
    memset(&bounds, 0x77, sizeof bounds);
    memset(comment, '?', sizeof comment);
    flows untouched = bounds;
    static const struct { size_t bounds, comment; uint32_t wanted; } rooms[] = {
        {11, 3, PIPAPO_ROOM}, {12, 2, PIPAPO_ROOM}, {0, 0, PIPAPO_ROOM}, {12, 3, PIPAPO_OK},
    };
    for (size_t i = 0; i < sizeof rooms / sizeof *rooms; ++i) {
        memset(&element, 0x77, sizeof element);
        CHECK(pipapo_element_at(&first, 999, &bounds, rooms[i].bounds, comment, rooms[i].comment, &element) == rooms[i].wanted);
        CHECK(element.id == 999 && element.bounds_length == 12 && element.comment_length == 3);
        if (rooms[i].wanted) CHECK(memcmp(&bounds, &untouched, sizeof bounds) == 0 && comment[0] == '?');
    }
    CHECK(memcmp(comment, "999?", 4) == 0);
    char wide[40];
    memset(wide, '?', sizeof wide);
    CHECK(pipapo_element_at(&first, 999, wide, sizeof wide, comment, sizeof comment, &element) == PIPAPO_OK);
    CHECK(memcmp(wide, &bounds, sizeof bounds) == 0 && wide[12] == '?' && wide[39] == '?');

    /* a refusal leaves what a handle holds, and elements outlive their control */
    void *at = held.at;
    count = 77;
    CHECK(pipapo_elements_of(&control, 2, &held, &count) == PIPAPO_SET && held.at == at && count == 77);
    CHECK(pipapo_elements_of(&control, 1, &held, &count) == PIPAPO_OK && count == 0);
    pipapo_free(&control);
    pipapo_free(&reader);
    CHECK(pipapo_element_at(&first, 1, &bounds, sizeof bounds, comment, sizeof comment, &element) == PIPAPO_OK && element.id == 1);
    pipapo_free(&first);
    pipapo_free(&held);
    CHECK(pipapo_element_at(&first, 1, &bounds, sizeof bounds, comment, sizeof comment, &element) == PIPAPO_NOTHING);
}

/* The ids of the elements of a handle, each at its place, and none after the last. */
static void has_ids(pipapo_elements *elements, const uint64_t *ids, uint64_t count) {
    pipapo_element element;
    flows bounds;
    char none;
    for (uint64_t i = count; i-- > 0;)
        CHECK(pipapo_element_at(elements, i, &bounds, sizeof bounds, &none, 0, &element) == PIPAPO_OK && element.id == ids[i]);
    for (uint64_t i = 0; i < count; ++i)
        CHECK(pipapo_element_at(elements, i, &bounds, sizeof bounds, &none, 0, &element) == PIPAPO_OK && element.id == ids[i]);
    CHECK(pipapo_element_at(elements, count, &bounds, sizeof bounds, &none, 0, &element) == PIPAPO_PLACE);
}

/* The elements of the generation that a reader holds, whatever is committed meanwhile. Of six elements the second expires, and
 * the fourth is deleted. */
static void held_walks(void) {
    static const uint64_t all[] = {0, 1, 2, 3, 4, 5}, stayed[] = {0, 2, 4, 5};
    pipapo_control control = PIPAPO_EMPTY;
    pipapo_reader readers[2] = {PIPAPO_EMPTY, PIPAPO_EMPTY};
    pipapo_elements old = PIPAPO_EMPTY, new = PIPAPO_EMPTY;
    pipapo_answer answer;
    uint64_t generation, purged, count = 77;
    start(&control, readers, 2);
    CHECK(pipapo_enter(&readers[0], &generation) == PIPAPO_OK && generation == 0);
    CHECK(pipapo_elements_of(&readers[0], 0, &old, &count) == PIPAPO_OK && count == 0);
    for (uint32_t i = 0; i < 6; ++i)
        CHECK(insert_flows(&control, 0, flows_of(i, i, 80, 80), i == 1 ? 1000 : PIPAPO_NEVER, 0, &answer) == PIPAPO_OK);
    CHECK(pipapo_commit(&control, 0, &generation, &purged) == PIPAPO_OK && generation == 1);
    CHECK(pipapo_elements_of(&readers[0], 0, &old, &count) == PIPAPO_OK && count == 0);
    CHECK(pipapo_leave(&readers[0]) == PIPAPO_OK && pipapo_enter(&readers[0], &generation) == PIPAPO_OK);

    flows fourth = flows_of(3, 3, 80, 80);
    CHECK(pipapo_delete(&control, 0, &fourth, sizeof fourth, 0, &answer) == PIPAPO_OK);
    CHECK(pipapo_commit(&control, 1000, &generation, &purged) == PIPAPO_OK && generation == 2 && purged == 1);
    CHECK(pipapo_enter(&readers[1], &generation) == PIPAPO_OK && generation == 2);
    CHECK(pipapo_elements_of(&readers[0], 0, &old, &count) == PIPAPO_OK && count == 6);
    CHECK(pipapo_elements_of(&readers[1], 0, &new, &count) == PIPAPO_OK && count == 4);
    has_ids(&old, all, 6);
    has_ids(&new, stayed, 4);

    /* a refusal leaves what the handle holds, and the elements outlive the generation, the reader and the control */
    count = 77;
    CHECK(pipapo_elements_of(&readers[0], 2, &old, &count) == PIPAPO_SET && count == 77);
    CHECK(pipapo_leave(&readers[0]) == PIPAPO_OK);
    CHECK(pipapo_elements_of(&readers[0], 0, &old, &count) == PIPAPO_TURN && count == 77);
    CHECK(pipapo_elements_of(&readers[0], 2, &old, &count) == PIPAPO_TURN && count == 77);
    CHECK(pipapo_flush(&control, 0, &count) == PIPAPO_OK && count == 4);
    CHECK(pipapo_commit(&control, 1000, &generation, &purged) == PIPAPO_OK && generation == 3);
    pipapo_free(&readers[0]);
    pipapo_free(&readers[1]);
    pipapo_free(&control);
    has_ids(&old, all, 6);
    has_ids(&new, stayed, 4);
    pipapo_free(&old);
    pipapo_free(&new);
}

static void notes(void) {
    pipapo_control control = PIPAPO_EMPTY;
    pipapo_reader readers[2] = {PIPAPO_EMPTY, PIPAPO_EMPTY};
    uint64_t generation, purged, note = 77;
    start(&control, readers, 2);
    CHECK(pipapo_note(&control, &note) == PIPAPO_OK && note == 0);
    CHECK(pipapo_enter(&readers[0], &generation) == PIPAPO_OK && generation == 0);
    CHECK(pipapo_commit(&control, 0, &generation, &purged) == PIPAPO_OK);
    CHECK(pipapo_commit(&control, 0, &generation, &purged) == PIPAPO_OK && generation == 2);
    CHECK(pipapo_note(&control, &note) == PIPAPO_OK && note == 2);

    /* a reader that holds an older generation leaves it first */
    CHECK(pipapo_meet(&readers[0], 0) == PIPAPO_OK);
    CHECK(pipapo_meet(&readers[0], note) == PIPAPO_NOTE);
    CHECK(pipapo_generation(&readers[0], &generation) == PIPAPO_OK && generation == 0);
    CHECK(pipapo_note(&readers[0], &generation) == PIPAPO_OK && generation == 0);
    CHECK(pipapo_leave(&readers[0]) == PIPAPO_OK);
    CHECK(pipapo_meet(&readers[0], note) == PIPAPO_OK);
    CHECK(pipapo_enter(&readers[0], &generation) == PIPAPO_OK && generation == 2);

    /* one that holds none looks at the published one, and holds none */
    CHECK(pipapo_note(&readers[1], &note) == PIPAPO_OK && note == 2);
    CHECK(pipapo_meet(&readers[1], 2) == PIPAPO_OK && pipapo_meet(&readers[1], 3) == PIPAPO_NOTE);
    CHECK(pipapo_leave(&readers[1]) == PIPAPO_TURN);
    CHECK(pipapo_hear(&control, note) == PIPAPO_OK && pipapo_hear(&control, 0) == PIPAPO_OK);
    CHECK(pipapo_hear(&control, 3) == PIPAPO_NOTE && pipapo_hear(&control, UINT64_MAX) == PIPAPO_NOTE);
    pipapo_free(&control);
    CHECK(pipapo_note(&readers[1], &note) == PIPAPO_OK && note == 2);
    pipapo_free(&readers[0]);
    pipapo_free(&readers[1]);
}

static void changes(void) {
    pipapo_control control = PIPAPO_EMPTY;
    pipapo_reader reader = PIPAPO_EMPTY;
    pipapo_answer answer;
    uint64_t generation = 77, purged = 77, count = 77, id = 77;
    start(&control, &reader, 1);
    flows web = flows_of(NET, NET + 255, 80, 443);
    flow key = flow_of(NET + 7, 100);

    /* sets, lengths, intervals */
    CHECK(insert_flows(&control, 2, web, PIPAPO_NEVER, 0, &answer) == PIPAPO_SET);
    CHECK(pipapo_delete(&control, 2, &web, sizeof web, 0, &answer) == PIPAPO_SET);
    CHECK(pipapo_destroy(&control, 2, &web, sizeof web, 0, &answer) == PIPAPO_SET);
    CHECK(pipapo_flush(&control, 2, &count) == PIPAPO_SET);
    const size_t lengths[] = {0, 1, 6, 11, 13, 24};
    const uint8_t bytes[24] = {0};
    for (size_t i = 0; i < sizeof lengths / sizeof *lengths; ++i)
        CHECK(pipapo_insert(&control, 0, bytes, lengths[i], PIPAPO_NEVER, "", 0, 0, &answer) == PIPAPO_LENGTH);
    CHECK(insert_flows(&control, 0, flows_of(NET, NET + 255, 443, 80), PIPAPO_NEVER, 0, &answer) == PIPAPO_INTERVAL);
    CHECK(insert_flows(&control, 0, flows_of(NET + 1, NET, 80, 80), PIPAPO_NEVER, 0, &answer) == PIPAPO_INTERVAL);

    /* new, already there, renewed, in the way */
    CHECK(pipapo_insert(&control, 0, &web, sizeof web, PIPAPO_NEVER, "web", 3, 0, &answer) == PIPAPO_OK);
    CHECK(answer.id == 0 && answer.outcome == PIPAPO_NEW);
    CHECK(insert_flows(&control, 0, web, PIPAPO_NEVER, 0, &answer) == PIPAPO_OK);
    CHECK(answer.id == 0 && answer.outcome == PIPAPO_ALREADY);
    CHECK(pipapo_create(&control, 0, &web, sizeof web, PIPAPO_NEVER, "", 0, 0, &answer) == PIPAPO_EXISTS);
    CHECK(answer.id == 0 && answer.outcome == PIPAPO_REFUSED);
    CHECK(insert_flows(&control, 0, flows_of(NET, NET + 255, 100, 500), PIPAPO_NEVER, 0, &answer) == PIPAPO_OVERLAP);
    CHECK(answer.id == 0 && answer.outcome == PIPAPO_REFUSED);
    flows guests = flows_of(NET + 256, NET + 511, 1, 65535);
    CHECK(pipapo_create(&control, 0, &guests, sizeof guests, 1000, "", 0, 0, &answer) == PIPAPO_OK);
    CHECK(answer.id == 1 && answer.outcome == PIPAPO_NEW);
    CHECK(insert_flows(&control, 0, guests, 2000, 500, &answer) == PIPAPO_OK);
    CHECK(answer.id == 1 && answer.outcome == PIPAPO_RENEWED);
    CHECK(insert_flows(&control, 0, flows_of(NET + 300, NET + 300, 1, 1), PIPAPO_NEVER, 500, &answer) == PIPAPO_OVERLAP);
    CHECK(answer.id == 1);

    /* nobody sees a change before the commit */
    CHECK(lookup_flow(&reader, 0, key, 0, &id) == PIPAPO_OK && id == PIPAPO_NONE);
    CHECK(pipapo_number(&control, &generation) == PIPAPO_OK && generation == 0);
    CHECK(pipapo_commit(&control, 500, &generation, &purged) == PIPAPO_OK && generation == 1 && purged == 0);
    CHECK(pipapo_number(&control, &generation) == PIPAPO_OK && generation == 1);
    CHECK(lookup_flow(&reader, 0, key, 0, &id) == PIPAPO_OK && id == 0);

    /* elements expire at their moment */
    CHECK(lookup_flow(&reader, 0, flow_of(NET + 256, 1), 1999, &id) == PIPAPO_OK && id == 1);
    CHECK(lookup_flow(&reader, 0, flow_of(NET + 256, 1), 2000, &id) == PIPAPO_OK && id == PIPAPO_NONE);
    CHECK(pipapo_commit(&control, 2000, &generation, &purged) == PIPAPO_OK && generation == 2 && purged == 1);

    /* deletions, taken back and made again */
    CHECK(pipapo_delete(&control, 0, &guests, sizeof guests, 2000, &answer) == PIPAPO_MISSING);
    CHECK(answer.outcome == PIPAPO_REFUSED);
    CHECK(pipapo_destroy(&control, 0, &guests, sizeof guests, 2000, &answer) == PIPAPO_OK);
    CHECK(answer.outcome == PIPAPO_ABSENT);
    CHECK(pipapo_delete(&control, 0, &web, sizeof web, 2000, &answer) == PIPAPO_OK);
    CHECK(answer.id == 0 && answer.outcome == PIPAPO_REMOVED);
    CHECK(pipapo_abort(&control) == PIPAPO_OK);
    CHECK(pipapo_destroy(&control, 0, &web, sizeof web, 2000, &answer) == PIPAPO_OK);
    CHECK(answer.id == 0 && answer.outcome == PIPAPO_REMOVED);
    CHECK(pipapo_commit(&control, 2000, &generation, &purged) == PIPAPO_OK && generation == 3 && purged == 0);
    CHECK(lookup_flow(&reader, 0, key, 2000, &id) == PIPAPO_OK && id == PIPAPO_NONE);

    /* ids go on after a flush */
    for (uint32_t i = 0; i < 3; ++i) {
        CHECK(insert_flows(&control, 0, flows_of(NET + i, NET + i, 1, 1), PIPAPO_NEVER, 2000, &answer) == PIPAPO_OK);
        CHECK(answer.id == 2 + i);
    }
    CHECK(pipapo_flush(&control, 0, &count) == PIPAPO_OK && count == 3);
    CHECK(pipapo_flush(&control, 0, &count) == PIPAPO_OK && count == 0);
    CHECK(insert_flows(&control, 0, web, PIPAPO_NEVER, 2000, &answer) == PIPAPO_OK && answer.id == 5);
    pipapo_free(&control);
    pipapo_free(&reader);
}

/* A disjoint set of at most two IPv6 addresses. */
static void limits(void) {
    pipapo_control control = PIPAPO_EMPTY;
    pipapo_reader reader = PIPAPO_EMPTY;
    pipapo_answer answer;
    uint64_t generation, purged, id;
    uint8_t bounds[32] = {0x20, 0x01, 0x0d, 0xb8};
    start(&control, &reader, 1);
    memcpy(bounds + 16, bounds, 16);
    bounds[15] = 16;
    bounds[31] = 31;
    CHECK(pipapo_insert(&control, 1, bounds, 32, PIPAPO_NEVER, "", 0, 0, &answer) == PIPAPO_OK && answer.id == 0);
    /* it encloses the first, and shares its keys */
    bounds[15] = 0;
    bounds[31] = 255;
    CHECK(pipapo_insert(&control, 1, bounds, 32, PIPAPO_NEVER, "", 0, 0, &answer) == PIPAPO_OVERLAP && answer.id == 0);
    bounds[31] = 15;
    CHECK(pipapo_insert(&control, 1, bounds, 32, PIPAPO_NEVER, "", 0, 0, &answer) == PIPAPO_OK && answer.id == 1);
    bounds[15] = bounds[31] = 99;
    CHECK(pipapo_insert(&control, 1, bounds, 32, PIPAPO_NEVER, "", 0, 0, &answer) == PIPAPO_FULL);
    CHECK(pipapo_create(&control, 1, bounds, 32, PIPAPO_NEVER, "", 0, 0, &answer) == PIPAPO_FULL);
    CHECK(pipapo_commit(&control, 0, &generation, &purged) == PIPAPO_OK);
    bounds[15] = 31;
    CHECK(pipapo_lookup(&reader, 1, bounds, 16, 0, &id) == PIPAPO_OK && id == 0);
    bounds[15] = 15;
    CHECK(pipapo_lookup(&reader, 1, bounds, 16, 0, &id) == PIPAPO_OK && id == 1);
    bounds[15] = 32;
    CHECK(pipapo_lookup(&reader, 1, bounds, 16, 0, &id) == PIPAPO_OK && id == PIPAPO_NONE);
    pipapo_free(&control);
    pipapo_free(&reader);
}

/* One set of every kind: each byte of a value counts, the first most. */
static void every_kind(void) {
    static const struct { uint32_t kind; size_t bytes; } kinds[] = {
        {PIPAPO_IPV4, 4}, {PIPAPO_IPV6, 16}, {PIPAPO_ETHER, 6}, {PIPAPO_PROTO, 1}, {PIPAPO_SERVICE, 2}, {PIPAPO_MARK, 4},
    };
    for (size_t k = 0; k < sizeof kinds / sizeof *kinds; ++k) {
        pipapo_set set = {.kinds = {kinds[k].kind}, .fields = 1};
        pipapo_control control = PIPAPO_EMPTY;
        pipapo_reader reader = PIPAPO_EMPTY;
        pipapo_answer answer;
        uint64_t generation, purged, id;
        size_t size = kinds[k].bytes;
        uint8_t bounds[32], key[16];
        CHECK(pipapo_start(&set, 1, &control, &reader, 1) == PIPAPO_OK);
        /* from 10 .. 10 to 20 .. 20 */
        memset(bounds, 10, size);
        memset(bounds + size, 20, size);
        CHECK(pipapo_insert(&control, 0, bounds, 2 * size, PIPAPO_NEVER, "", 0, 0, &answer) == PIPAPO_OK);
        CHECK(pipapo_insert(&control, 0, bounds, size, PIPAPO_NEVER, "", 0, 0, &answer) == PIPAPO_LENGTH);
        CHECK(pipapo_commit(&control, 0, &generation, &purged) == PIPAPO_OK);
        for (size_t at = 0; at < size; ++at) {
            /* between both bounds the first byte alone decides, and at a bound the next ones */
            memset(key, 10, size);
            CHECK(pipapo_lookup(&reader, 0, key, size, 0, &id) == PIPAPO_OK && id == 0);
            key[at] = 9;
            CHECK(pipapo_lookup(&reader, 0, key, size, 0, &id) == PIPAPO_OK && id == PIPAPO_NONE);
            memset(key, 20, size);
            CHECK(pipapo_lookup(&reader, 0, key, size, 0, &id) == PIPAPO_OK && id == 0);
            key[at] = 21;
            CHECK(pipapo_lookup(&reader, 0, key, size, 0, &id) == PIPAPO_OK && id == PIPAPO_NONE);
            memset(key, 255, size);
            key[0] = 15;
            CHECK(pipapo_lookup(&reader, 0, key, size, 0, &id) == PIPAPO_OK && id == 0);
        }
        pipapo_free(&control);
        pipapo_free(&reader);
    }
}

static void turns(void) {
    pipapo_control control = PIPAPO_EMPTY;
    pipapo_reader readers[2] = {PIPAPO_EMPTY, PIPAPO_EMPTY};
    pipapo_answer answer;
    uint64_t generation = 77, purged, id = 77;
    start(&control, readers, 2);
    flow key = flow_of(NET + 7, 100);

    CHECK(pipapo_leave(&readers[0]) == PIPAPO_TURN);
    CHECK(pipapo_generation(&readers[0], &generation) == PIPAPO_TURN && generation == 77);
    CHECK(pipapo_enter(&readers[0], &generation) == PIPAPO_OK && generation == 0);
    generation = 77;
    CHECK(pipapo_enter(&readers[0], &generation) == PIPAPO_TURN && generation == 77);
    CHECK(pipapo_generation(&readers[0], &generation) == PIPAPO_OK && generation == 0);

    /* what a reader holds stays as it is */
    CHECK(insert_flows(&control, 0, flows_of(NET, NET + 255, 80, 443), PIPAPO_NEVER, 0, &answer) == PIPAPO_OK);
    CHECK(pipapo_commit(&control, 0, &generation, &purged) == PIPAPO_OK && generation == 1);
    CHECK(lookup_flow(&readers[0], 0, key, 0, &id) == PIPAPO_OK && id == PIPAPO_NONE);
    CHECK(lookup_flow(&readers[1], 0, key, 0, &id) == PIPAPO_OK && id == 0);
    CHECK(pipapo_generation(&readers[0], &generation) == PIPAPO_OK && generation == 0);
    CHECK(pipapo_leave(&readers[0]) == PIPAPO_OK);
    CHECK(pipapo_leave(&readers[0]) == PIPAPO_TURN);
    CHECK(lookup_flow(&readers[0], 0, key, 0, &id) == PIPAPO_OK && id == 0);

    /* keys that are refused */
    id = 77;
    CHECK(lookup_flow(&readers[0], 2, key, 0, &id) == PIPAPO_SET);
    CHECK(lookup_flow(&readers[0], 1, key, 0, &id) == PIPAPO_LENGTH);
    for (size_t length = 0; length < 6; ++length)
        CHECK(pipapo_lookup(&readers[0], 0, &key, length, 0, &id) == PIPAPO_LENGTH);
    CHECK(id == 77);

    /* many keys, of a reader that holds a generation, and of one that holds none */
    flow keys[4] = {flow_of(NET, 80), flow_of(NET + 256, 80), flow_of(NET + 255, 443), flow_of(NET, 444)};
    for (int held = 0; held < 2; ++held) {
        uint64_t ids[4] = {77, 77, 77, 77};
        if (held) CHECK(pipapo_enter(&readers[0], &generation) == PIPAPO_OK);
        CHECK(pipapo_lookup_many(&readers[0], 0, keys, sizeof keys, 0, ids, 4, &generation) == PIPAPO_OK && generation == 1);
        CHECK(ids[0] == 0 && ids[1] == PIPAPO_NONE && ids[2] == 0 && ids[3] == PIPAPO_NONE);
        CHECK(pipapo_lookup_many(&readers[0], 0, keys, sizeof keys - 1, 0, ids, 4, &generation) == PIPAPO_LENGTH);
        CHECK(pipapo_lookup_many(&readers[0], 0, keys, sizeof keys, 0, ids, 3, &generation) == PIPAPO_LENGTH);
        CHECK(pipapo_lookup_many(&readers[0], 2, keys, sizeof keys, 0, ids, 4, &generation) == PIPAPO_SET);
        /* so many keys have the bytes of four modulo 2 to the power 64; the count is tested before it is used */
        CHECK(pipapo_lookup_many(&readers[0], 0, keys, sizeof keys, 0, ids, SIZE_MAX / 2 + 5, &generation) == PIPAPO_LENGTH);
        generation = 77;
        CHECK(pipapo_lookup_many(&readers[0], 0, keys, 0, 0, ids, 0, &generation) == PIPAPO_OK && generation == 1);

        /* no key: the set and the length are looked at all the same; a refusal writes nothing and holds nothing */
        generation = 77;
        ids[0] = ids[3] = 78;
        CHECK(pipapo_lookup_many(&readers[0], 0, keys, 1, 0, ids, 0, &generation) == PIPAPO_LENGTH);
        CHECK(pipapo_lookup_many(&readers[0], 2, keys, 0, 0, ids, 0, &generation) == PIPAPO_SET);
        CHECK(pipapo_lookup_many(&readers[0], 0, keys, sizeof keys - 1, 0, ids, 4, &generation) == PIPAPO_LENGTH);
        CHECK(generation == 77 && ids[0] == 78 && ids[3] == 78);
        CHECK(pipapo_generation(&readers[0], &generation) == (held ? PIPAPO_OK : PIPAPO_TURN));
    }

    /* the control ends first, readers go on, and one that holds a generation ends, too */
    pipapo_free(&control);
    CHECK(lookup_flow(&readers[0], 0, key, 0, &id) == PIPAPO_OK && id == 0);
    CHECK(lookup_flow(&readers[1], 0, key, 0, &id) == PIPAPO_OK && id == 0);
    pipapo_free(&readers[0]);
    CHECK(lookup_flow(&readers[0], 0, key, 0, &id) == PIPAPO_NOTHING);
    pipapo_free(&readers[1]);
}

static void texts(void) {
    CHECK(pipapo_version() == PIPAPO_VERSION);
    CHECK(strcmp(pipapo_strerror(PIPAPO_OK), "success") == 0);
    CHECK(strcmp(pipapo_strerror(PIPAPO_MEMORY), "out of memory") == 0);
    CHECK(strcmp(pipapo_strerror(77), "unknown error") == 0);
    /* each error has a text of its own */
    for (uint32_t a = 0; a <= PIPAPO_MISSING; ++a)
        for (uint32_t b = 0; b < a; ++b)
            CHECK(strcmp(pipapo_strerror(a), pipapo_strerror(b)) != 0 || strcmp(pipapo_strerror(a), "unknown error") == 0);
    for (uint32_t a = 0; a <= PIPAPO_REASON_STATEMENT; ++a)
        for (uint32_t b = 0; b < a; ++b) CHECK(strcmp(pipapo_strreason(a), pipapo_strreason(b)) != 0);
    CHECK(strcmp(pipapo_strreason(0), pipapo_strreason(77)) == 0);
}

int main(void) {
    wrong_handles();
    refused_starts();
    scripts();
    listings();
    descriptions();
    walks();
    held_walks();
    notes();
    changes();
    limits();
    every_kind();
    turns();
    texts();
    printf("calls: %d failures\n", failures);
    return failures != 0;
}
