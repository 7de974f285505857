/* The state words of -DPIPAPO_CHECKED: each misuse ends a child process, and good calls don't. */
#define _POSIX_C_SOURCE 200809L
#include <signal.h>
#include <sys/wait.h>
#include <unistd.h>

#include "check.h"

static const pipapo_set shape = {.kinds = {PIPAPO_SERVICE}, .fields = 1};

static void good(void) {
    pipapo_control control = PIPAPO_EMPTY;
    pipapo_reader readers[17] = {PIPAPO_EMPTY};
    pipapo_answer answer;
    uint64_t generation, purged, id, count;
    pipapo_elements elements = PIPAPO_EMPTY;
    pipapo_element element;
    if (pipapo_start(&shape, 1, &control, readers, 2) || pipapo_start(&shape, 1, &control, readers, 2)) exit(1);
    if (pipapo_start(&shape, 1, &control, readers, 17) != PIPAPO_READERS) exit(1);
    if (pipapo_insert(&control, 0, "\0\1\0\2", 4, PIPAPO_NEVER, "", 0, 0, &answer)) exit(1);
    if (pipapo_commit(&control, 0, &generation, &purged) || pipapo_enter(&readers[1], &generation)) exit(1);
    if (pipapo_lookup(&readers[1], 0, "\0\2", 2, 0, &id) || id != 0) exit(1);
    for (int twice = 0; twice < 2; ++twice)
        if (pipapo_elements_of(&control, 0, &elements, &count) || count != 1) exit(1);
    char bounds[4], none;
    if (pipapo_element_at(&elements, 0, bounds, 4, &none, 0, &element) || bounds[3] != 2) exit(1);
    if (pipapo_note(&control, &id) || pipapo_hear(&control, id) || pipapo_meet(&readers[0], id)) exit(1);
    pipapo_free(&control);
    pipapo_free(&control);
    pipapo_free(&readers[0]);
    pipapo_free(&readers[1]);
    pipapo_free(&elements);
    if (pipapo_leave(&readers[1]) != PIPAPO_NOTHING) exit(1);
    exit(0);
}

static void frees_a_copy_twice(void) {
    pipapo_control control = PIPAPO_EMPTY;
    pipapo_reader reader = PIPAPO_EMPTY;
    if (pipapo_start(&shape, 1, &control, &reader, 1)) exit(1);
    pipapo_control copy = control;
    pipapo_free(&control);
    pipapo_free(&copy);
    exit(0);
}

static void uses_a_freed_copy(void) {
    pipapo_control control = PIPAPO_EMPTY;
    pipapo_reader reader = PIPAPO_EMPTY;
    uint64_t id;
    if (pipapo_start(&shape, 1, &control, &reader, 1)) exit(1);
    pipapo_reader copy = reader;
    pipapo_free(&reader);
    if (pipapo_lookup(&copy, 0, "\0\2", 2, 0, &id)) exit(1);
    exit(0);
}

static void uses_freed_elements(void) {
    pipapo_control control = PIPAPO_EMPTY;
    pipapo_reader reader = PIPAPO_EMPTY;
    pipapo_elements elements = PIPAPO_EMPTY;
    pipapo_element element;
    uint64_t count;
    char bounds[4], none;
    if (pipapo_start(&shape, 1, &control, &reader, 1) || pipapo_elements_of(&control, 0, &elements, &count)) exit(1);
    pipapo_elements copy = elements;
    if (pipapo_elements_of(&control, 0, &elements, &count)) exit(1);
    pipapo_free(&elements);
    if (pipapo_element_at(&copy, 0, bounds, 4, &none, 0, &element)) exit(1);
    exit(0);
}

static void makes_two_calls_at_once(void) {
    pipapo_control control = PIPAPO_EMPTY;
    pipapo_reader reader = PIPAPO_EMPTY;
    if (pipapo_start(&shape, 1, &control, &reader, 1)) exit(1);
    pipapo_guard_begin("another call", control.at);
    if (pipapo_abort(&control)) exit(1);
    exit(0);
}

/* The signal that ends a child which does this, or 0. */
static int ends_by(void (*what)(void)) {
    pid_t child = fork();
    int status = 0;
    if (child == 0) {
        if (!freopen("/dev/null", "w", stderr)) exit(1);
        what();
    }
    if (child < 0 || waitpid(child, &status, 0) != child) exit(2);
    return WIFSIGNALED(status) ? WTERMSIG(status) : WEXITSTATUS(status) ? -1 : 0;
}

int main(void) {
    CHECK(ends_by(good) == 0);
    CHECK(ends_by(frees_a_copy_twice) == SIGABRT);
    CHECK(ends_by(uses_a_freed_copy) == SIGABRT);
    CHECK(ends_by(uses_freed_elements) == SIGABRT);
    CHECK(ends_by(makes_two_calls_at_once) == SIGABRT);
    printf("guarded: %d failures\n", failures);
    return failures != 0;
}
