/* pipapo_guard.h: what pipapo.h includes at its end with -DPIPAPO_CHECKED. Each call then goes through a state word of its
 * handle, and ends the program with a message if two calls use the handle at once, or if the handle is a copy of one that was
 * freed. (A copy goes unnoticed once a new handle got the freed one's memory.) */
#ifndef PIPAPO_GUARD_H
#define PIPAPO_GUARD_H

#include "pipapo.h"

#ifdef __cplusplus
extern "C" {
#endif

void pipapo_guard_made(void *at);
void pipapo_guard_begin(const char *call, void *at);
void pipapo_guard_end(void *at);
void pipapo_guard_gone(void *at);

#ifdef __cplusplus
}
#endif

#ifdef PIPAPO_CHECKED

/* One call of a handle. */
#define PIPAPO_GUARDED(handle, call, arguments) \
    void *at = (handle)->at; \
    pipapo_guard_begin(#call, at); \
    uint32_t error = call arguments; \
    pipapo_guard_end(at); \
    return error

static inline void pipapo_guard_readers(pipapo_control *control, pipapo_reader *readers, size_t count, const void *const *old,
                                        uint32_t error) {
    for (size_t i = 0; i <= count; ++i) pipapo_guard_end((void *)old[i]);
    if (error != PIPAPO_OK) return;
    for (size_t i = 0; i <= count; ++i) pipapo_guard_gone((void *)old[i]);
    pipapo_guard_made(control->at);
    for (size_t i = 0; i < count; ++i) pipapo_guard_made(readers[i].at);
}

static inline size_t pipapo_guard_old(const char *call, pipapo_control *control, pipapo_reader *readers, size_t count,
                                      const void **old) {
    count = count > 16 ? 16 : count;
    for (size_t i = 0; i <= count; ++i) {
        old[i] = i < count ? readers[i].at : control->at;
        pipapo_guard_begin(call, (void *)old[i]);
    }
    return count;
}

static inline uint32_t pipapo_checked_start(const pipapo_set *sets, size_t set_count, pipapo_control *control,
                                            pipapo_reader *readers, size_t reader_count) {
    const void *old[17];
    size_t count = pipapo_guard_old("pipapo_start", control, readers, reader_count, old);
    uint32_t error = pipapo_start(sets, set_count, control, readers, reader_count);
    pipapo_guard_readers(control, readers, count, old, error);
    return error;
}

static inline uint32_t pipapo_checked_start_script(const char *text, size_t length, pipapo_control *control,
                                                   pipapo_reader *readers, size_t reader_count, pipapo_script_fault *fault) {
    const void *old[17];
    size_t count = pipapo_guard_old("pipapo_start_script", control, readers, reader_count, old);
    uint32_t error = pipapo_start_script(text, length, control, readers, reader_count, fault);
    pipapo_guard_readers(control, readers, count, old, error);
    return error;
}

static inline void pipapo_checked_free(void *handle) {
    void *at = ((pipapo_control *)handle)->at;
    pipapo_guard_begin("pipapo_free", at);
    pipapo_guard_gone(at);
    pipapo_free(handle);
}

static inline uint32_t pipapo_checked_insert(pipapo_control *control, uint32_t set, const void *bounds, size_t length,
                                             uint64_t expiry, const char *comment, size_t comment_length, uint64_t now,
                                             pipapo_answer *answer) {
    PIPAPO_GUARDED(control, pipapo_insert, (control, set, bounds, length, expiry, comment, comment_length, now, answer));
}

static inline uint32_t pipapo_checked_create(pipapo_control *control, uint32_t set, const void *bounds, size_t length,
                                             uint64_t expiry, const char *comment, size_t comment_length, uint64_t now,
                                             pipapo_answer *answer) {
    PIPAPO_GUARDED(control, pipapo_create, (control, set, bounds, length, expiry, comment, comment_length, now, answer));
}

static inline uint32_t pipapo_checked_delete(pipapo_control *control, uint32_t set, const void *bounds, size_t length,
                                             uint64_t now, pipapo_answer *answer) {
    PIPAPO_GUARDED(control, pipapo_delete, (control, set, bounds, length, now, answer));
}

static inline uint32_t pipapo_checked_destroy(pipapo_control *control, uint32_t set, const void *bounds, size_t length,
                                              uint64_t now, pipapo_answer *answer) {
    PIPAPO_GUARDED(control, pipapo_destroy, (control, set, bounds, length, now, answer));
}

static inline uint32_t pipapo_checked_flush(pipapo_control *control, uint32_t set, uint64_t *count) {
    PIPAPO_GUARDED(control, pipapo_flush, (control, set, count));
}

static inline uint32_t pipapo_checked_commit(pipapo_control *control, uint64_t now, uint64_t *generation, uint64_t *purged) {
    PIPAPO_GUARDED(control, pipapo_commit, (control, now, generation, purged));
}

static inline uint32_t pipapo_checked_abort(pipapo_control *control) {
    PIPAPO_GUARDED(control, pipapo_abort, (control));
}

static inline uint32_t pipapo_checked_number(pipapo_control *control, uint64_t *generation) {
    PIPAPO_GUARDED(control, pipapo_number, (control, generation));
}

static inline uint32_t pipapo_checked_describe(pipapo_control *control, uint32_t set, pipapo_declared *declared) {
    PIPAPO_GUARDED(control, pipapo_describe, (control, set, declared));
}

static inline uint32_t pipapo_checked_elements_of(void *handle, uint32_t set, pipapo_elements *elements, uint64_t *count) {
    void *at = ((pipapo_control *)handle)->at, *old = elements->at;
    pipapo_guard_begin("pipapo_elements_of", at);
    pipapo_guard_begin("pipapo_elements_of", old);
    uint32_t error = pipapo_elements_of(handle, set, elements, count);
    pipapo_guard_end(at);
    pipapo_guard_end(old);
    if (error == PIPAPO_OK) {
        pipapo_guard_gone(old);
        pipapo_guard_made(elements->at);
    }
    return error;
}

static inline uint32_t pipapo_checked_element_at(pipapo_elements *elements, uint64_t place, void *bounds, size_t bounds_size,
                                                 char *comment, size_t comment_size, pipapo_element *element) {
    PIPAPO_GUARDED(elements, pipapo_element_at, (elements, place, bounds, bounds_size, comment, comment_size, element));
}

static inline uint32_t pipapo_checked_note(void *handle, uint64_t *note) {
    PIPAPO_GUARDED((pipapo_control *)handle, pipapo_note, (handle, note));
}

static inline uint32_t pipapo_checked_meet(pipapo_reader *reader, uint64_t note) {
    PIPAPO_GUARDED(reader, pipapo_meet, (reader, note));
}

static inline uint32_t pipapo_checked_hear(pipapo_control *control, uint64_t note) {
    PIPAPO_GUARDED(control, pipapo_hear, (control, note));
}

static inline uint32_t pipapo_checked_list(pipapo_control *control, uint64_t now, char **text, size_t *length) {
    PIPAPO_GUARDED(control, pipapo_list, (control, now, text, length));
}

static inline uint32_t pipapo_checked_list_into(pipapo_control *control, uint64_t now, char *text, size_t size,
                                                uint64_t *written) {
    PIPAPO_GUARDED(control, pipapo_list_into, (control, now, text, size, written));
}

static inline uint32_t pipapo_checked_enter(pipapo_reader *reader, uint64_t *generation) {
    PIPAPO_GUARDED(reader, pipapo_enter, (reader, generation));
}

static inline uint32_t pipapo_checked_leave(pipapo_reader *reader) {
    PIPAPO_GUARDED(reader, pipapo_leave, (reader));
}

static inline uint32_t pipapo_checked_generation(pipapo_reader *reader, uint64_t *generation) {
    PIPAPO_GUARDED(reader, pipapo_generation, (reader, generation));
}

static inline uint32_t pipapo_checked_lookup(pipapo_reader *reader, uint32_t set, const void *key, size_t length, uint64_t now,
                                             uint64_t *id) {
    PIPAPO_GUARDED(reader, pipapo_lookup, (reader, set, key, length, now, id));
}

static inline uint32_t pipapo_checked_lookup_many(pipapo_reader *reader, uint32_t set, const void *keys, size_t length,
                                                  uint64_t now, uint64_t *answers, size_t count, uint64_t *generation) {
    PIPAPO_GUARDED(reader, pipapo_lookup_many, (reader, set, keys, length, now, answers, count, generation));
}

#define pipapo_start pipapo_checked_start
#define pipapo_start_script pipapo_checked_start_script
#define pipapo_free pipapo_checked_free
#define pipapo_insert pipapo_checked_insert
#define pipapo_create pipapo_checked_create
#define pipapo_delete pipapo_checked_delete
#define pipapo_destroy pipapo_checked_destroy
#define pipapo_flush pipapo_checked_flush
#define pipapo_commit pipapo_checked_commit
#define pipapo_abort pipapo_checked_abort
#define pipapo_number pipapo_checked_number
#define pipapo_describe pipapo_checked_describe
#define pipapo_elements_of pipapo_checked_elements_of
#define pipapo_element_at pipapo_checked_element_at
#define pipapo_note pipapo_checked_note
#define pipapo_meet pipapo_checked_meet
#define pipapo_hear pipapo_checked_hear
#define pipapo_list pipapo_checked_list
#define pipapo_list_into pipapo_checked_list_into
#define pipapo_enter pipapo_checked_enter
#define pipapo_leave pipapo_checked_leave
#define pipapo_generation pipapo_checked_generation
#define pipapo_lookup pipapo_checked_lookup
#define pipapo_lookup_many pipapo_checked_lookup_many

#endif
#endif
