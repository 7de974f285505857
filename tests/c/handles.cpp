// The handles of pipapo.hpp: they move, free themselves, and make the calls of pipapo.h.
#include <cstdio>
#include <type_traits>
#include <utility>

#include "pipapo.hpp"

static int failures;
#define CHECK(what) \
    do { \
        if (!(what)) { \
            std::fprintf(stderr, "%s:%d: %s\n", __FILE__, __LINE__, #what); \
            ++failures; \
        } \
    } while (0)

static_assert(!std::is_copy_constructible_v<pipapo::Control> && !std::is_copy_assignable_v<pipapo::Reader>);
static_assert(std::is_nothrow_move_constructible_v<pipapo::Control> && std::is_nothrow_move_assignable_v<pipapo::Reader>);

struct Flow {
    std::uint8_t address[4], port[2];
};

int main() {
    pipapo_set sets[1] = {};
    sets[0].kinds[0] = PIPAPO_IPV4;
    sets[0].kinds[1] = PIPAPO_SERVICE;
    sets[0].fields = 2;
    pipapo::Control control;
    pipapo::Reader readers[2];
    pipapo_answer answer{};
    std::uint64_t generation = 77, purged = 77, id = 77, ids[2] = {77, 77}, count = 77;
    CHECK(!control && control.abort() == PIPAPO_NOTHING);
    CHECK(control.start(sets, readers) == PIPAPO_OK && control && readers[1]);

    const Flow low = {{192, 0, 2, 0}, {0, 80}}, high = {{192, 0, 2, 255}, {1, 187}};
    CHECK(control.insert(0, low, high, answer) == PIPAPO_OK && answer.id == 0 && answer.outcome == PIPAPO_NEW);
    CHECK(control.create(0, low, high, answer) == PIPAPO_EXISTS);
    CHECK(control.commit(0, generation, purged) == PIPAPO_OK && generation == 1 && purged == 0);
    CHECK(control.number(generation) == PIPAPO_OK && generation == 1);

    pipapo::Elements elements;
    pipapo_element element{};
    pipapo_declared shape{};
    Flow from{}, to{};
    std::string comment = "?";
    std::uint64_t note = 77;
    CHECK(control.elements(0, elements, count) == PIPAPO_OK && count == 1);
    CHECK(elements.at(0, from, to, comment, element) == PIPAPO_OK && element.id == 0 && comment.empty());
    CHECK(from.port[1] == 80 && to.address[3] == 255 && elements.at(1, from, to, comment, element) == PIPAPO_PLACE);
    pipapo::Elements walk = std::move(elements);
    CHECK(walk.at(0, from, to, comment, element) == PIPAPO_OK && elements.at(0, from, to, comment, element) == PIPAPO_NOTHING);
    CHECK(control.describe(0, shape) == PIPAPO_OK && shape.fields == 2 && shape.kinds[1] == PIPAPO_SERVICE);
    CHECK(control.note(note) == PIPAPO_OK && note == 1 && readers[1].meet(note) == PIPAPO_OK);
    CHECK(readers[1].meet(2) == PIPAPO_NOTE && readers[1].note(note) == PIPAPO_OK && control.hear(note) == PIPAPO_OK);

    pipapo::Reader reader = std::move(readers[0]);
    CHECK(reader && !readers[0]);
    readers[0] = std::move(reader);
    CHECK(readers[0] && !reader);
    const Flow keys[2] = {{{192, 0, 2, 7}, {0, 99}}, {{192, 0, 3, 7}, {0, 99}}};
    CHECK(readers[0].enter(generation) == PIPAPO_OK && generation == 1);
    CHECK(readers[0].generation(generation) == PIPAPO_OK && generation == 1);
    CHECK(readers[0].lookup(0, keys[0], 0, id) == PIPAPO_OK && id == 0);
    CHECK(readers[0].lookup_many(0, keys, 2, 0, ids, generation) == PIPAPO_OK && ids[0] == 0 && ids[1] == PIPAPO_NONE);
    CHECK(readers[0].elements(0, walk, count) == PIPAPO_OK && count == 1);
    CHECK(readers[0].leave() == PIPAPO_OK);
    CHECK(readers[0].elements(0, walk, count) == PIPAPO_TURN);
    CHECK(walk.at(0, from, to, comment, element) == PIPAPO_OK && element.id == 0);

    CHECK(control.remove(0, low, high, answer) == PIPAPO_OK && answer.outcome == PIPAPO_REMOVED);
    CHECK(control.destroy(0, low, high, answer) == PIPAPO_OK && answer.outcome == PIPAPO_ABSENT);
    CHECK(control.abort() == PIPAPO_OK);
    CHECK(control.flush(0, count) == PIPAPO_OK && count == 1);
    pipapo_script_fault fault{};
    CHECK(control.start_script("add set ip t s { type ipv4_addr . inet_service ; }\nadd element ip t s { 192.0.2.7 . 99 }\n",
                               readers, fault) == PIPAPO_OK);
    CHECK(readers[1].lookup(0, keys[0], 0, id) == PIPAPO_OK && id == 0);
    CHECK(control.start_script("add set\nip", readers, fault) == PIPAPO_SCRIPT && fault.line == 1 && fault.column == 8);
    CHECK(readers[1].lookup(0, keys[0], 0, id) == PIPAPO_OK && id == 0);

    CHECK(control.start_script("add set ip t s { type ipv4_addr . inet_service ; }\n"
                               "add element ip t s { 192.0.2.7 . 99 comment \"a comment that is longer\" }\n",
                               readers, fault) == PIPAPO_OK);
    CHECK(control.elements(0, walk, count) == PIPAPO_OK && walk.at(0, from, to, comment, element) == PIPAPO_OK);
    CHECK(comment == "a comment that is longer");
    CHECK(control.start_script("add set ip t s { type ipv4_addr . inet_service ; }\nadd element ip t s { 192.0.2.7 . 99 }\n",
                               readers, fault) == PIPAPO_OK);

    CHECK(control.abort() == PIPAPO_OK && control.remove(0, keys[0], keys[0], answer) == PIPAPO_OK);
    CHECK(control.create(0, low, high, answer, 0, 1000, "web") == PIPAPO_OK);
    CHECK(control.insert(0, keys[1], keys[1], answer, 0, PIPAPO_NEVER, "other") == PIPAPO_OK);
    CHECK(control.commit(0, generation, purged) == PIPAPO_OK && control.elements(0, walk, count) == PIPAPO_OK && count == 2);
    CHECK(walk.at(0, from, to, comment, element) == PIPAPO_OK && comment == "web" && element.expiry == 1000);
    CHECK(walk.at(1, from, to, comment, element) == PIPAPO_OK && comment == "other" && element.expiry == PIPAPO_NEVER);
    CHECK(control.start_script({}, readers, fault) == PIPAPO_OK && readers[1].lookup(0, keys[0], 0, id) == PIPAPO_SET);
    CHECK(control.start_script("add set ip t s { type ipv4_addr . inet_service ; }\nadd element ip t s { 192.0.2.7 . 99 }\n",
                               readers, fault) == PIPAPO_OK);

    std::string text = "?";
    CHECK(control.list(text) == PIPAPO_OK);
    CHECK(text == "table ip t {\n\tset s {\n\t\ttype ipv4_addr . inet_service\n\t\telements = { 192.0.2.7 . 99 }\n\t}\n}\n");

    pipapo::Control other = std::move(control);
    CHECK(!control && other);
    other.reset();
    CHECK(!other);
    std::printf("handles: %d failures\n", failures);
    return failures != 0;
}
