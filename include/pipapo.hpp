// pipapo.hpp: handles of pipapo.h that move and free themselves, for C++17. The calls and their promises are those of
// pipapo.h.
#ifndef PIPAPO_HPP
#define PIPAPO_HPP

#include <cstddef>
#include <cstdint>
#include <memory>
#include <string>
#include <string_view>
#include <utility>

#include "pipapo.h"

namespace pipapo {

/// A handle that is freed at its end. It moves, and is never copied.
template <typename Raw>
class Handle {
public:
    Handle() noexcept = default;
    Handle(const Handle &) = delete;
    Handle &operator=(const Handle &) = delete;

    Handle(Handle &&other) noexcept : raw_(std::exchange(other.raw_, Raw{nullptr})) {}

    Handle &operator=(Handle &&other) noexcept {
        if (this != &other) {
            pipapo_free(&raw_);
            raw_ = std::exchange(other.raw_, Raw{nullptr});
        }
        return *this;
    }

    ~Handle() { pipapo_free(&raw_); }

    /// Whether it holds something.
    explicit operator bool() const noexcept { return raw_.at != nullptr; }

    /// For a call of pipapo.h.
    Raw *get() noexcept { return &raw_; }

    /// Frees what it holds.
    void reset() noexcept { pipapo_free(&raw_); }

private:
    Raw raw_{nullptr};
};

/// The elements of a set of one generation. Each call answers an enum pipapo_error.
class Elements : public Handle<pipapo_elements> {
public:
    /// `low` and `high` get two keys. It throws std::bad_alloc if the string has no memory.
    template <typename Key>
    [[nodiscard]] std::uint32_t at(std::uint64_t place, Key &low, Key &high, std::string &comment, pipapo_element &element) {
        static_assert(alignof(Key) == 1, "a key is made of bytes");
        Key bounds[2];
        std::uint32_t error = pipapo_element_at(get(), place, bounds, sizeof bounds, comment.data(), comment.size(), &element);
        if (error == PIPAPO_ROOM && element.bounds_length <= sizeof bounds) {
            comment.resize(static_cast<std::size_t>(element.comment_length));
            error = pipapo_element_at(get(), place, bounds, sizeof bounds, comment.data(), comment.size(), &element);
        }
        if (error != PIPAPO_OK) return error;
        comment.resize(static_cast<std::size_t>(element.comment_length));
        low = bounds[0];
        high = bounds[1];
        return error;
    }
};

/// A reader. Each call answers an enum pipapo_error.
class Reader : public Handle<pipapo_reader> {
public:
    [[nodiscard]] std::uint32_t enter(std::uint64_t &generation) noexcept { return pipapo_enter(get(), &generation); }
    [[nodiscard]] std::uint32_t leave() noexcept { return pipapo_leave(get()); }

    [[nodiscard]] std::uint32_t generation(std::uint64_t &number) noexcept {
        return pipapo_generation(get(), &number);
    }

    /// `key` is a type without padding that has the bytes of a key, as a struct of arrays of std::uint8_t.
    template <typename Key>
    [[nodiscard]] std::uint32_t lookup(std::uint32_t set, const Key &key, std::uint64_t now, std::uint64_t &id) noexcept {
        static_assert(alignof(Key) == 1, "a key is made of bytes");
        return pipapo_lookup(get(), set, &key, sizeof key, now, &id);
    }

    /// The elements of a set of the generation that the reader holds. What `elements` held before is freed.
    [[nodiscard]] std::uint32_t elements(std::uint32_t set, Elements &elements, std::uint64_t &count) noexcept {
        return pipapo_elements_of(get(), set, elements.get(), &count);
    }

    [[nodiscard]] std::uint32_t note(std::uint64_t &note) noexcept { return pipapo_note(get(), &note); }
    [[nodiscard]] std::uint32_t meet(std::uint64_t note) noexcept { return pipapo_meet(get(), note); }

    template <typename Key>
    [[nodiscard]] std::uint32_t lookup_many(std::uint32_t set, const Key *keys, std::size_t count, std::uint64_t now,
                                            std::uint64_t *answers, std::uint64_t &generation) noexcept {
        static_assert(alignof(Key) == 1, "a key is made of bytes");
        return pipapo_lookup_many(get(), set, keys, count * sizeof *keys, now, answers, count, &generation);
    }
};

/// A control. Each call answers an enum pipapo_error.
class Control : public Handle<pipapo_control> {
public:
    /// Makes a control and the readers of an array. What they held is freed.
    template <std::size_t Sets, std::size_t Readers>
    [[nodiscard]] std::uint32_t start(const pipapo_set (&sets)[Sets], Reader (&readers)[Readers]) noexcept {
        pipapo_reader made[Readers] = {};
        return hand_out(pipapo_start(sets, Sets, get(), made, Readers), made, readers);
    }

    /// The same by a script's text.
    template <std::size_t Readers>
    [[nodiscard]] std::uint32_t start_script(std::string_view text, Reader (&readers)[Readers],
                                             pipapo_script_fault &fault) noexcept {
        pipapo_reader made[Readers] = {};
        return hand_out(pipapo_start_script(bytes_of(text), text.size(), get(), made, Readers, &fault), made, readers);
    }

    /// `low` and `high` are two keys.
    template <typename Key>
    [[nodiscard]] std::uint32_t insert(std::uint32_t set, const Key &low, const Key &high, pipapo_answer &answer,
                                       std::uint64_t now = 0, std::uint64_t expiry = PIPAPO_NEVER,
                                       std::string_view comment = {}) noexcept {
        const Key bounds[2] = {low, high};
        static_assert(alignof(Key) == 1, "a key is made of bytes");
        return pipapo_insert(get(), set, bounds, sizeof bounds, expiry, bytes_of(comment), comment.size(), now, &answer);
    }

    template <typename Key>
    [[nodiscard]] std::uint32_t create(std::uint32_t set, const Key &low, const Key &high, pipapo_answer &answer,
                                       std::uint64_t now = 0, std::uint64_t expiry = PIPAPO_NEVER,
                                       std::string_view comment = {}) noexcept {
        const Key bounds[2] = {low, high};
        static_assert(alignof(Key) == 1, "a key is made of bytes");
        return pipapo_create(get(), set, bounds, sizeof bounds, expiry, bytes_of(comment), comment.size(), now, &answer);
    }

    template <typename Key>
    [[nodiscard]] std::uint32_t remove(std::uint32_t set, const Key &low, const Key &high, pipapo_answer &answer,
                                       std::uint64_t now = 0) noexcept {
        const Key bounds[2] = {low, high};
        static_assert(alignof(Key) == 1, "a key is made of bytes");
        return pipapo_delete(get(), set, bounds, sizeof bounds, now, &answer);
    }

    template <typename Key>
    [[nodiscard]] std::uint32_t destroy(std::uint32_t set, const Key &low, const Key &high, pipapo_answer &answer,
                                        std::uint64_t now = 0) noexcept {
        const Key bounds[2] = {low, high};
        static_assert(alignof(Key) == 1, "a key is made of bytes");
        return pipapo_destroy(get(), set, bounds, sizeof bounds, now, &answer);
    }

    [[nodiscard]] std::uint32_t flush(std::uint32_t set, std::uint64_t &count) noexcept {
        return pipapo_flush(get(), set, &count);
    }

    [[nodiscard]] std::uint32_t commit(std::uint64_t now, std::uint64_t &generation, std::uint64_t &purged) noexcept {
        return pipapo_commit(get(), now, &generation, &purged);
    }

    [[nodiscard]] std::uint32_t abort() noexcept { return pipapo_abort(get()); }

    [[nodiscard]] std::uint32_t number(std::uint64_t &generation) noexcept { return pipapo_number(get(), &generation); }

    [[nodiscard]] std::uint32_t note(std::uint64_t &note) noexcept { return pipapo_note(get(), &note); }
    [[nodiscard]] std::uint32_t hear(std::uint64_t note) noexcept { return pipapo_hear(get(), note); }

    [[nodiscard]] std::uint32_t describe(std::uint32_t set, pipapo_declared &declared) noexcept {
        return pipapo_describe(get(), set, &declared);
    }

    /// The elements of a set of the last generation. What `elements` held before is freed.
    [[nodiscard]] std::uint32_t elements(std::uint32_t set, Elements &elements, std::uint64_t &count) noexcept {
        return pipapo_elements_of(get(), set, elements.get(), &count);
    }

    /// The last generation as a script. It throws std::bad_alloc if the string has no memory.
    [[nodiscard]] std::uint32_t list(std::string &text, std::uint64_t now = 0) {
        char *made = nullptr;
        std::size_t length = 0;
        std::uint32_t error = pipapo_list(get(), now, &made, &length);
        const std::unique_ptr<char, decltype(&pipapo_free_text)> owner(made, &pipapo_free_text);
        if (error == PIPAPO_OK) text.assign(made, length);
        return error;
    }

private:
    /// A pointer that isn't null, also to no bytes.
    static const char *bytes_of(std::string_view text) noexcept { return text.empty() ? "" : text.data(); }

    /// Puts the readers of a start into their handles, and passes its answer on.
    template <std::size_t Readers>
    static std::uint32_t hand_out(std::uint32_t error, const pipapo_reader (&made)[Readers],
                                  Reader (&readers)[Readers]) noexcept {
        for (std::size_t i = 0; i < Readers && error == PIPAPO_OK; ++i) {
            readers[i].reset();
            *readers[i].get() = made[i];
        }
        return error;
    }
};

} // namespace pipapo

#endif
