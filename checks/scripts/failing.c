/* Loaded into a program, it refuses the allocation with the number FAIL_AT, counted from 1 over the whole process, and with
 * FAIL_ON=1 all later ones too. If FAIL_COUNT names a file, it writes the count of all to it at the end, and on the next line
 * how many bytes they asked for. */
#define _GNU_SOURCE
#include <errno.h>
#include <stdatomic.h>
#include <stdio.h>
#include <stdlib.h>
#include <sys/syscall.h>
#include <unistd.h>

extern void *__libc_malloc(size_t size);
extern void *__libc_calloc(size_t count, size_t size);
extern void *__libc_realloc(void *at, size_t size);
extern void *__libc_memalign(size_t alignment, size_t size);

static atomic_long made, asked;
static long fail_at;
static int fail_on;

__attribute__((constructor)) static void read_wish(void) {
    const char *at = getenv("FAIL_AT"), *on = getenv("FAIL_ON");
    fail_on = on && *on == '1';
    fail_at = at ? atol(at) : 0;
    atomic_store(&made, 0);
}

/* The program ends by this call, and not by a return from main. */
void _exit(int status) {
    const char *name = getenv("FAIL_COUNT");
    long count = atomic_load(&made), bytes = atomic_load(&asked);
    fail_at = 0;
    FILE *file = name ? fopen(name, "w") : NULL;
    if (file) {
        fprintf(file, "%ld\n%ld\n", count, bytes);
        fclose(file);
    }
    for (;;) syscall(SYS_exit_group, status);
}

static int is_refused(size_t size) {
    long number = atomic_fetch_add(&made, 1) + 1;
    atomic_fetch_add(&asked, (long)size);
    if (!fail_at || (fail_on ? number < fail_at : number != fail_at)) return 0;
    errno = ENOMEM;
    return 1;
}

void *malloc(size_t size) { return is_refused(size) ? NULL : __libc_malloc(size); }

void *calloc(size_t count, size_t size) { return is_refused(count * size) ? NULL : __libc_calloc(count, size); }

void *realloc(void *at, size_t size) { return is_refused(size) ? NULL : __libc_realloc(at, size); }

void *aligned_alloc(size_t alignment, size_t size) { return is_refused(size) ? NULL : __libc_memalign(alignment, size); }

int posix_memalign(void **at, size_t alignment, size_t size) {
    void *found = is_refused(size) ? NULL : __libc_memalign(alignment, size);
    if (!found) return ENOMEM;
    *at = found;
    return 0;
}
