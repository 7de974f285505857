/* pipapo.h: proved packet filter sets for C and C++.
 *
 * A set has 1 to 16 fields, for example an IPv4 address and a port. An element has one interval per field. A lookup takes
 * one value per field. It returns the earliest inserted element that is live and whose every interval holds its value.
 *
 * A control changes the sets. A commit publishes all changes at once, as the next generation. Readers look keys up in a
 * generation. Changes and commits never block a reader, and readers never block a commit.
 *
 *     pipapo_control control = PIPAPO_EMPTY;
 *     pipapo_reader reader = PIPAPO_EMPTY;
 *     pipapo_set set = {.kinds = {PIPAPO_IPV4, PIPAPO_SERVICE}, .fields = 2};
 *     struct key { uint8_t address[4], port[2]; };
 *     struct key range[2] = {{{192, 0, 2, 0}, {0, 80}}, {{192, 0, 2, 255}, {1, 187}}};  // 192.0.2.0/24 . 80-443
 *     struct key packet = {{192, 0, 2, 7}, {1, 187}};
 *     uint64_t generation, purged, id;
 *     pipapo_answer answer;
 *
 *     uint32_t error = pipapo_start(&set, 1, &control, &reader, 1);
 *     if (!error) error = pipapo_insert(&control, 0, range, sizeof range, PIPAPO_NEVER, "", 0, 0, &answer);
 *     if (!error) error = pipapo_commit(&control, 0, &generation, &purged);
 *     if (!error) error = pipapo_lookup(&reader, 0, &packet, sizeof packet, 0, &id);    // id is answer.id
 *     if (error) puts(pipapo_strerror(error));
 *     pipapo_free(&reader);
 *     pipapo_free(&control);
 *
 * VALUES. A key is one value per field, in the order of the set's fields, with nothing between them. Each value is in
 * network byte order, as a packet has it: an IPv4 address takes 4 bytes, an IPv6 address 16, an Ethernet address 6, a
 * protocol 1, a port 2, a mark 4. The host's byte order never matters. An element's bounds are two keys, one directly after
 * the other: the low values of all fields, then the high values. An interval includes both its bounds.
 *
 * MOMENTS are milliseconds since any start that the program chooses. An element that expires at moment m is live before m. A
 * call may have an earlier moment than the call before it.
 *
 * IDS. Each set counts its elements from 0 in the order of insertion, and an element keeps its id. A refused change takes no id. A
 * deletion, a flush or an expiry gives none back. After an abort the next elements get the ids of those that it took back.
 *
 * RETURN VALUES. Each call returns PIPAPO_OK (0), or the reason why it did nothing. If several reasons apply, it is the first
 * one that the call's comment names. A refused call changes nothing that a handle holds, but a reader may have seen a newer
 * generation after a refused pipapo_meet. It writes nothing but the `answer` of a change, the `fault` of a start by a script, and
 * after ROOM the length of a text, or the lengths of an element.
 *
 * THREADS. The control, each reader and each set's elements may be in a thread of their own. No call waits for another
 * thread. One handle is for one call at a time. A handle may go to another thread through a lock, the start or end of a
 * thread, or a sequentially consistent atomic. Different handles need no order.
 *
 * MEMORY. Only the two starts, the changes, pipapo_commit, the listings and pipapo_elements_of allocate, by malloc and realloc.
 * The control and each reader take 768 KiB for the rows of a lookup, and the control takes the sets. Commits free the memory of
 * older generations, and the last freed handle of a start frees the rest. A pipapo_elements keeps its set until it is freed.
 *
 * THE CALLER MUST SEE TO THIS, since no call can test it. Otherwise the behaviour is undefined:
 *   - No pointer is null, also if its count is 0. Each points to as much memory as its count says.
 *   - A handle is PIPAPO_EMPTY before its first use. Only these calls write to it.
 *   - A handle that was copied is used through one copy alone, and freed once.
 *   - At most one call at a time uses a handle.
 *   - `answers` doesn't overlap `keys`, nor any other output its inputs.
 *   - No call is made from a signal handler, nor in the child of a fork of a process with threads.
 *   - malloc, realloc and free are of one allocator.
 * With -DPIPAPO_CHECKED a state word for each handle catches the third and the fourth, and ends the program with a message
 * (pipapo_guard.h). It is for tests: each call then takes a lock.
 */
#ifndef PIPAPO_H
#define PIPAPO_H

#include <stddef.h>
#include <stdint.h>

#ifdef __cplusplus
extern "C" {
#endif

#define PIPAPO_VERSION_MAJOR 0
#define PIPAPO_VERSION_MINOR 2
#define PIPAPO_VERSION_PATCH 0
#define PIPAPO_VERSION ((PIPAPO_VERSION_MAJOR << 16) | (PIPAPO_VERSION_MINOR << 8) | PIPAPO_VERSION_PATCH)

#if defined(__GNUC__)
#define PIPAPO_NONNULL __attribute__((nonnull))
#define PIPAPO_CHECK_RESULT __attribute__((warn_unused_result))
#else
#define PIPAPO_NONNULL
#define PIPAPO_CHECK_RESULT
#endif

/* A handle holds a control, a reader or the elements of a set; its pointer is null if it holds nothing. Pass its address.
 * An array of readers begins as `pipapo_reader readers[4] = {PIPAPO_EMPTY};`: then all of them are empty. */
typedef struct { void *at; } pipapo_control;
typedef struct { void *at; } pipapo_reader;
typedef struct { void *at; } pipapo_elements;
#define PIPAPO_EMPTY { NULL }

/* What a field is, as nft(8) names it. */
enum pipapo_kind {
    PIPAPO_IPV4 = 0,    /* ipv4_addr, 4 bytes */
    PIPAPO_IPV6 = 1,    /* ipv6_addr, 16 bytes */
    PIPAPO_ETHER = 2,   /* ether_addr, 6 bytes */
    PIPAPO_PROTO = 3,   /* inet_proto, 1 byte */
    PIPAPO_SERVICE = 4, /* inet_service, 2 bytes */
    PIPAPO_MARK = 5     /* mark, 4 bytes */
};

enum pipapo_family {
    PIPAPO_FAMILY_IP = 0,
    PIPAPO_FAMILY_IP6 = 1,
    PIPAPO_FAMILY_INET = 2,
    PIPAPO_FAMILY_ARP = 3,
    PIPAPO_FAMILY_BRIDGE = 4,
    PIPAPO_FAMILY_NETDEV = 5
};

/* A set to be made. Zero all that you don't need. */
typedef struct {
    uint32_t kinds[16]; /* an enum pipapo_kind for each field */
    uint32_t fields;    /* 1 to 16 */
    uint32_t family;    /* an enum pipapo_family */
    uint32_t disjoint;  /* not 0: an element that shares a key with a live one is refused; in a script `flags disjoint` */
    uint32_t size;      /* at most so many elements; 0: any number */
    uint8_t table[64];  /* the table's name, which ends at the first zero byte; for listings alone */
    uint8_t name[64];   /* the set's name, alike */
} pipapo_set;

/* A set as it was declared. */
typedef struct {
    uint32_t kinds[16]; /* an enum pipapo_kind for each field, and zeros */
    uint32_t fields;    /* how many there are */
    uint32_t family;    /* an enum pipapo_family */
    uint32_t interval;  /* 1 with `flags interval` and for a set of pipapo_start, or 0 */
    uint32_t timed;     /* 1 with `flags timeout` and for a set of pipapo_start, or 0 */
    uint32_t disjoint;  /* 1 with `flags disjoint`, or 0 */
    uint32_t size;      /* at most so many elements; 0: any number */
    uint64_t timeout;   /* the life of a script's element that names none, in milliseconds; 0: it doesn't expire */
    uint8_t table[128]; /* the table's name, and zeros */
    uint8_t name[128];  /* the set's name, and zeros */
} pipapo_declared;

/* Why pipapo_start_script starts nothing, and the place in the script. Lines and columns count from 1, and a column counts bytes.
 * A field that doesn't apply is 0. */
typedef struct {
    uint64_t line;   /* of the bad token, or of the first refused change */
    uint64_t column; /* PIPAPO_SCRIPT: where the bad token begins in its line */
    uint64_t id;     /* PIPAPO_CHANGE: as in a pipapo_answer */
    uint32_t reason; /* PIPAPO_SCRIPT: an enum pipapo_reason */
    uint32_t cause;  /* PIPAPO_CHANGE: the enum pipapo_error of the change, PIPAPO_OVERLAP to PIPAPO_MISSING */
    uint32_t set;    /* PIPAPO_CHANGE: the number of the change's set */
    uint32_t field;  /* PIPAPO_CHANGE: as in a pipapo_answer */
} pipapo_script_fault;

/* Why a token doesn't fit at its place: the first of these that applies. */
enum pipapo_reason {
    PIPAPO_REASON_CHARACTER = 1, /* a byte that begins no token, or a string that isn't closed */
    PIPAPO_REASON_END = 2,       /* the text ends too early */
    PIPAPO_REASON_LEFT_OUT = 3,  /* it belongs to a part of nft's language that is left out */
    PIPAPO_REASON_TYPE = 4,      /* a field's type is wanted */
    PIPAPO_REASON_VALUE = 5,     /* a value or an interval is wanted */
    PIPAPO_REASON_TIME = 6,      /* a time is wanted */
    PIPAPO_REASON_MOMENT = 7,    /* a moment is wanted */
    PIPAPO_REASON_SET = 8,       /* the name of a declared set is wanted */
    PIPAPO_REASON_NUMBER = 9,    /* a size is wanted */
    PIPAPO_REASON_STATEMENT = 10 /* none of these: another word or mark is wanted */
};

/* An element of a set, without its bounds and its comment. */
typedef struct {
    uint64_t id;             /* the number in the order of insertion */
    uint64_t expiry;         /* the moment from which on it is expired, or PIPAPO_NEVER */
    uint64_t bounds_length;  /* how many bytes its bounds have; the same for all elements of a set */
    uint64_t comment_length; /* how many bytes its comment has */
} pipapo_element;

/* What a change answers. */
typedef struct {
    uint64_t id;      /* the element's id; after PIPAPO_OVERLAP and PIPAPO_EXISTS the id of the element in the way; else 0 */
    uint32_t field;   /* after PIPAPO_RULES_FULL the field that is full, from 0; else 0 */
    uint32_t outcome; /* an enum pipapo_outcome */
} pipapo_answer;

enum pipapo_outcome {
    PIPAPO_REFUSED = 0,
    PIPAPO_NEW = 1,     /* the element is new */
    PIPAPO_ALREADY = 2, /* an element of the same intervals is there, and stays as it was */
    PIPAPO_RENEWED = 3, /* an element of the same intervals is there, and has the new expiry now */
    PIPAPO_REMOVED = 4, /* the element is gone */
    PIPAPO_ABSENT = 5   /* there was no such element */
};

enum pipapo_error {
    PIPAPO_OK = 0,
    PIPAPO_MEMORY = 1,      /* out of memory */
    PIPAPO_NOTHING = 2,     /* the handle holds nothing: it is empty or freed */
    PIPAPO_HANDLE = 3,      /* a handle of another kind is wanted */
    PIPAPO_SCHEMA = 4,      /* a set has no fields, or more than 16, or a number that is no kind or no family; or too many sets */
    PIPAPO_READERS = 5,     /* not 1 to 16 readers */
    PIPAPO_SET = 6,         /* there is no set of this number */
    PIPAPO_LENGTH = 7,      /* not as many bytes as the set's fields have */
    PIPAPO_INTERVAL = 8,    /* the low value of an interval is above its high value */
    PIPAPO_TURN = 9,        /* the reader holds a generation already, or holds none */
    PIPAPO_NUMBERS = 10,    /* there are no numbers for further generations */
    PIPAPO_SCRIPT = 11,     /* pipapo_start_script: the text isn't a script */
    PIPAPO_CHANGE = 12,     /* pipapo_start_script: a change of the script is refused */
    PIPAPO_ROOM = 13,       /* a text or an element is longer than its buffer, or a set doesn't fit a pipapo_declared */
    PIPAPO_PLACE = 14,      /* pipapo_element_at: there is no element at this place */
    PIPAPO_NOTE = 15,       /* pipapo_meet, pipapo_hear: the note's generation isn't there */
    PIPAPO_OVERLAP = 16,    /* a live element is in the way */
    PIPAPO_EXISTS = 17,     /* pipapo_create: a live element has the same intervals */
    PIPAPO_FULL = 18,       /* the set has as many elements as it may have */
    PIPAPO_RULES_FULL = 19, /* a field would have too many rules (2 to the power 20) */
    PIPAPO_MISSING = 20     /* pipapo_delete: no live element has exactly these intervals */
};

#define PIPAPO_NONE UINT64_MAX  /* no element was found */
#define PIPAPO_NEVER UINT64_MAX /* the element doesn't expire */

/* Makes a control and `reader_count` readers, 1 to 16, over these sets, at most 2 to the power 32. They get the numbers 0, 1, ..
 * and are empty. The generation is 0. What the handles held before is freed.
 * Errors: READERS, SCHEMA, MEMORY. The handles are then as they were, and nothing stays allocated.
 * Cost: 768 KiB for the control and for each reader. */
PIPAPO_NONNULL PIPAPO_CHECK_RESULT
uint32_t pipapo_start(const pipapo_set *sets, size_t set_count, pipapo_control *control, pipapo_reader *readers,
                      size_t reader_count);

/* Makes a control and `reader_count` readers, 1 to 16, by a script of nft(8), as docs/formats.md has it: `length` bytes at
 * `text`. Its declared sets get the numbers 0, 1, .. The control does all sections of the script, one after another. The end of
 * a section commits what is open. So a script that declares sets and adds elements leaves generation 1, and one that only
 * declares sets leaves generation 0. No change is open. No reader enters a generation before the last one that was committed.
 * The moment is 0 until the script's first statement `at`.
 * Errors: READERS; SCRIPT, with the bad token's line, column and reason in `fault`; CHANGE, with the first refused change in
 * `fault`; MEMORY. The handles are then as they were, and nothing stays allocated. One refused change of many is enough to
 * start nothing. `fault` is written only if the call is refused. It is all zeros after READERS and MEMORY.
 * Cost: 768 KiB for the control and for each reader, and the script's changes and commits. */
PIPAPO_NONNULL PIPAPO_CHECK_RESULT
uint32_t pipapo_start_script(const char *text, size_t length, pipapo_control *control, pipapo_reader *readers,
                             size_t reader_count, pipapo_script_fault *fault);

/* Frees what a handle of any kind holds, and leaves the handle empty. An empty handle stays empty. The order in which handles
 * are freed doesn't matter: readers and elements may outlive their control. A reader that is freed while it holds a generation
 * keeps that generation's slot, and blocks nobody.
 * Cost: the handle's own memory is freed; with the last handle of a start, all that its generations still have. */
PIPAPO_NONNULL
void pipapo_free(void *handle);

/* Changes of the open sets. No reader sees them before the commit. `bounds` is two keys (VALUES, above), and `length` their
 * bytes together. `answer` is written in any case.
 * Errors: NOTHING, HANDLE, SET, LENGTH, INTERVAL, MEMORY, and those named at each. A refused change leaves all sets as they
 * were, and the transaction stays open. */

/* Inserts an element. `comment` is kept with it, and plays no part in lookups. If a live element has the same intervals, it
 * stays, and gets the new expiry unless that is PIPAPO_NEVER.
 * In the way is a live element of other intervals that holds the low key or the high key of `bounds`. In a disjoint set it is
 * one that shares any key with the new element. So an element inside a live wider one is refused. In a set that isn't
 * disjoint, one around a live narrower one is accepted if that holds neither key of `bounds`.
 * Errors: OVERLAP with the id of the element in the way; then FULL; then RULES_FULL with the field.
 * Cost: one or two lookups, and the new rules. */
PIPAPO_NONNULL PIPAPO_CHECK_RESULT
uint32_t pipapo_insert(pipapo_control *control, uint32_t set, const void *bounds, size_t length, uint64_t expiry,
                       const char *comment, size_t comment_length, uint64_t now, pipapo_answer *answer);

/* As pipapo_insert, but refused if a live element has the same intervals. Errors: EXISTS with its id, then as pipapo_insert.
 * Cost: as pipapo_insert. */
PIPAPO_NONNULL PIPAPO_CHECK_RESULT
uint32_t pipapo_create(pipapo_control *control, uint32_t set, const void *bounds, size_t length, uint64_t expiry,
                       const char *comment, size_t comment_length, uint64_t now, pipapo_answer *answer);

/* Removes the first live element that has exactly these intervals. Errors: MISSING.
 * Cost: a lookup, and the pages of the element's rules. */
PIPAPO_NONNULL PIPAPO_CHECK_RESULT
uint32_t pipapo_delete(pipapo_control *control, uint32_t set, const void *bounds, size_t length, uint64_t now,
                       pipapo_answer *answer);

/* As pipapo_delete, but PIPAPO_OK with PIPAPO_ABSENT if there is no such element. Cost: as pipapo_delete. */
PIPAPO_NONNULL PIPAPO_CHECK_RESULT
uint32_t pipapo_destroy(pipapo_control *control, uint32_t set, const void *bounds, size_t length, uint64_t now,
                        pipapo_answer *answer);

/* Removes all elements of an open set; `count` gets how many there were. Ids go on. Errors: NOTHING, HANDLE, SET, MEMORY.
 * Cost: a new empty set, or nothing if the set is empty. What this transaction changed in the set is freed. If it changed a set
 * that elements have left, the others are counted. */
PIPAPO_NONNULL PIPAPO_CHECK_RESULT
uint32_t pipapo_flush(pipapo_control *control, uint32_t set, uint64_t *count);

/* Publishes the open sets as the next generation, without the elements that are expired at `now`. `generation` gets its
 * number, `purged` how many elements were expired.
 * Errors: NOTHING, HANDLE, NUMBERS, MEMORY. The open sets are then as they were.
 * Cost: what was changed, page by page, and one pointer per reader. It never waits for a reader. */
PIPAPO_NONNULL PIPAPO_CHECK_RESULT
uint32_t pipapo_commit(pipapo_control *control, uint64_t now, uint64_t *generation, uint64_t *purged);

/* Takes all changes since the last commit back. Errors: NOTHING, HANDLE.
 * Cost: a pointer for each set, and freeing what was changed. Allocates nothing. */
PIPAPO_NONNULL PIPAPO_CHECK_RESULT
uint32_t pipapo_abort(pipapo_control *control);

/* The number of the last generation. Errors: NOTHING, HANDLE. Cost: constant. Allocates nothing. */
PIPAPO_NONNULL PIPAPO_CHECK_RESULT
uint32_t pipapo_number(pipapo_control *control, uint64_t *generation);

/* Writes to `declared` how a struct or a script declared a set. Sets have the numbers 0, 1, .. and the first number that no set
 * has is refused as SET.
 * Errors: NOTHING, HANDLE, SET; ROOM if the set doesn't fit the struct: no start makes such a set. `declared` is then as it was.
 * Cost: the struct's bytes. Allocates nothing. */
PIPAPO_NONNULL PIPAPO_CHECK_RESULT
uint32_t pipapo_describe(pipapo_control *control, uint32_t set, pipapo_declared *declared);

/* Puts the elements of a set into a handle, in the order of insertion. `handle` is a pipapo_control or a pipapo_reader. The set is
 * of the control's last generation, or of the generation that the reader holds. `count` gets how many elements there are: their
 * places are 0 to `count` - 1. They stay as they are, whatever the control changes, commits or frees, and after the reader leaves
 * the generation. What `elements` held before is freed.
 * Errors: NOTHING; HANDLE, if `handle` is a handle of elements; TURN, if the reader holds no generation; SET, MEMORY. `elements`
 * and `count` are then as they were.
 * Cost: one small allocation. The set is shared and not copied, so its memory stays until `elements` is freed. */
PIPAPO_NONNULL PIPAPO_CHECK_RESULT
uint32_t pipapo_elements_of(void *handle, uint32_t set, pipapo_elements *elements, uint64_t *count);

/* Writes one element: its bounds, as pipapo_insert takes them, to the `bounds_size` bytes at `bounds`; its comment, without a zero
 * byte, to the `comment_size` bytes at `comment`; the rest to `element`. 512 bytes are enough for all bounds. A comment of a script
 * has at most 128 bytes.
 *
 *     for (uint64_t place = 0; place < count; ++place)
 *         if (!pipapo_element_at(&elements, place, bounds, sizeof bounds, comment, sizeof comment, &element)) ..
 *
 * Errors: NOTHING, HANDLE; PLACE if `place` is `count` or greater; ROOM if a buffer is too short. The buffers are then as they
 * were. `element` has the lengths after ROOM, and else is as it was.
 * Cost: the bytes. If elements left the set, a call also searches, unless it follows the call for the place before. The time of
 * this search grows with the logarithm of the set's size. Allocates nothing. */
PIPAPO_NONNULL PIPAPO_CHECK_RESULT
uint32_t pipapo_element_at(pipapo_elements *elements, uint64_t place, void *bounds, size_t bounds_size, char *comment,
                           size_t comment_size, pipapo_element *element);

/* Writes the last generation as a script of nft(8), as the program's `list` does: its tables, its sets and their elements. An
 * element that expires has the time from `now` to its expiry. `text` gets a pointer to the text, and `length` the number of its
 * bytes. A zero byte follows them. pipapo_free_text frees the text.
 * pipapo_start_script reads the text if it is in the script's language, and the changes allow more than that. Each table and each
 * set must have a name that a script may have. A set that came from a script needs `flags interval` for ranges, and `timeout`
 * among its flags for elements that expire. A set of pipapo_start has both. A comment must have at most 128 bytes,
 * none of them a quotation mark or below 32.
 * Errors: NOTHING, HANDLE, MEMORY; `text` and `length` are then as they were.
 * Cost: the text is made twice, and each set is copied for it. */
PIPAPO_NONNULL PIPAPO_CHECK_RESULT
uint32_t pipapo_list(pipapo_control *control, uint64_t now, char **text, size_t *length);

/* Frees a text of pipapo_list. A null pointer is ignored. */
void pipapo_free_text(char *text);

/* As pipapo_list, but into the `size` bytes at `text`, and without a zero byte. `written` gets the text's length, also after ROOM.
 * Errors: NOTHING, HANDLE, MEMORY, ROOM; `text` is then as it was. */
PIPAPO_NONNULL PIPAPO_CHECK_RESULT
uint32_t pipapo_list_into(pipapo_control *control, uint64_t now, char *text, size_t size, uint64_t *written);

/* Makes the reader hold the last published generation until pipapo_leave; `generation` gets its number, which is never below
 * one that this reader got before. Errors: NOTHING, HANDLE, TURN. Cost: one atomic addition. Allocates nothing. */
PIPAPO_NONNULL PIPAPO_CHECK_RESULT
uint32_t pipapo_enter(pipapo_reader *reader, uint64_t *generation);

/* Lets the generation go. Errors: NOTHING, HANDLE, TURN. Cost: one atomic addition. Allocates nothing. */
PIPAPO_NONNULL PIPAPO_CHECK_RESULT
uint32_t pipapo_leave(pipapo_reader *reader);

/* The number of the generation that the reader holds. Errors: NOTHING, HANDLE, TURN. Cost: constant. Allocates nothing. */
PIPAPO_NONNULL PIPAPO_CHECK_RESULT
uint32_t pipapo_generation(pipapo_reader *reader, uint64_t *generation);

/* Looks a key up in the held generation, or in the last published one if the reader holds none. `id` gets the id of the
 * earliest inserted element that is live at `now` and holds the key, or PIPAPO_NONE.
 * Errors: NOTHING, HANDLE, SET, LENGTH; `id` is then as it was.
 * Cost: a lookup, and two atomic additions if the reader holds no generation. Allocates nothing. */
PIPAPO_NONNULL PIPAPO_CHECK_RESULT
uint32_t pipapo_lookup(pipapo_reader *reader, uint32_t set, const void *key, size_t length, uint64_t now, uint64_t *id);

/* Looks `count` keys up, all in one generation: the held one, or else the last published one. The keys follow one another,
 * and `length` is their bytes together. `answers` gets the id of each key's element, or PIPAPO_NONE; `generation` the
 * generation's number.
 * Errors: as pipapo_lookup (LENGTH if `length` isn't that of `count` keys); `answers` and `generation` are then as they were.
 * Cost: the lookups, and two atomic additions if the reader holds no generation. Allocates nothing. */
PIPAPO_NONNULL PIPAPO_CHECK_RESULT
uint32_t pipapo_lookup_many(pipapo_reader *reader, uint32_t set, const void *keys, size_t length, uint64_t now,
                            uint64_t *answers, size_t count, uint64_t *generation);

/* By a note one thread informs another of a committed generation. A note is the generation's number, which pipapo_commit and
 * pipapo_enter write, too. Hand it over as you would hand over a handle (THREADS).
 *
 * `note` gets the number of the last generation that a pipapo_control committed, or that a pipapo_reader has seen. A reader that
 * holds no generation looks first at the published one, by two atomic additions.
 * Errors: NOTHING; HANDLE, if the handle is of elements. `note` is then as it was. Cost: constant. Allocates nothing. */
PIPAPO_NONNULL PIPAPO_CHECK_RESULT
uint32_t pipapo_note(void *handle, uint64_t *note);

/* The reader meets a note: from now on it enters no generation older than the note's. A reader that holds no generation looks at
 * the published one, by two atomic additions.
 * Errors: NOTHING, HANDLE; NOTE if the generation that it holds, or else the published one, is older than the note's. So a reader
 * that holds an older generation has to leave it first. If the reader holds none, NOTE means that the note is of another start, or
 * came without order between the threads.
 * Cost: constant. Allocates nothing. */
PIPAPO_NONNULL PIPAPO_CHECK_RESULT
uint32_t pipapo_meet(pipapo_reader *reader, uint64_t note);

/* The control hears a note of a reader: PIPAPO_OK if the control has committed the note's generation.
 * Errors: NOTHING, HANDLE; NOTE if it hasn't committed it. Then the note is of another start.
 * Cost: constant. Allocates nothing. */
PIPAPO_NONNULL PIPAPO_CHECK_RESULT
uint32_t pipapo_hear(pipapo_control *control, uint64_t note);

/* One line that explains an enum pipapo_error, without a newline. Never null; the text is static. This call and the next two may
 * be made in any thread, also at once. */
const char *pipapo_strerror(uint32_t error);

/* The same for an enum pipapo_reason. */
const char *pipapo_strreason(uint32_t reason);

/* PIPAPO_VERSION of the library that runs. */
uint32_t pipapo_version(void);

#ifdef __cplusplus
}
#endif

#ifdef PIPAPO_CHECKED
#include "pipapo_guard.h"
#endif

#endif
