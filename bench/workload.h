/* A workload as bench/workloads.py writes it: a line `fields KIND ..`, lines `e LOW-HIGH ..` and lines `k VALUE ..`. Each
 * program that includes it says its own name before. */
#ifndef WORKLOAD_H
#define WORKLOAD_H

#include <stdint.h>
#include <stdio.h>
#include <stdlib.h>
#include <string.h>
#include <time.h>

typedef unsigned __int128 value_t;

static const char *const kind_names[6] = {"ipv4_addr",  "ipv6_addr",    "ether_addr",
                                          "inet_proto", "inet_service", "mark"};
static const unsigned kind_bits[6] = {32, 128, 48, 8, 16, 32};

static void fail(const char *what) {
    fprintf(stderr, PROGRAM ": %s\n", what);
    exit(1);
}

static void *grown(void *at, size_t *room, size_t wanted, size_t size) {
    if (wanted > *room) {
        *room = wanted * 2;
        at = realloc(at, *room * size);
        if (!at) fail("want of memory");
    }
    return at;
}

struct workload {
    uint32_t kinds[16];
    size_t fields;
    value_t *elements; /* low and high for each field */
    size_t element_count;
    value_t *keys;
    size_t key_count;
};

static value_t read_value(char **at) {
    value_t value = 0;
    char *from = *at;
    for (;; ++*at) {
        char c = **at;
        unsigned digit;
        if (c >= '0' && c <= '9') digit = c - '0';
        else if (c >= 'a' && c <= 'f') digit = c - 'a' + 10;
        else if (c >= 'A' && c <= 'F') digit = c - 'A' + 10;
        else break;
        value = value << 4 | digit;
    }
    if (*at == from) fail("a value is missing");
    return value;
}

static char *past_blanks(char *at) {
    while (*at == ' ' || *at == '\t') ++at;
    return at;
}

static void read_fields(struct workload *w, char *at) {
    for (char *word = strtok(at, " \t\n"); word; word = strtok(NULL, " \t\n")) {
        unsigned k = 0;
        while (k < 6 && strcmp(word, kind_names[k])) ++k;
        if (k == 6 || w->fields == 16) fail("no such kind, or too many");
        w->kinds[w->fields++] = k;
    }
}

static void read_workload(struct workload *w, const char *name) {
    FILE *file = fopen(name, "r");
    if (!file) fail("the file can't be opened");
    char *line = NULL;
    size_t line_room = 0, element_room = 0, key_room = 0;
    while (getline(&line, &line_room, file) > 0) {
        if (!strncmp(line, "fields ", 7)) {
            read_fields(w, line + 7);
        } else if (line[0] == 'e' && line[1] == ' ') {
            w->elements = grown(w->elements, &element_room, (w->element_count + 1) * w->fields * 2, sizeof(value_t));
            char *at = line + 2;
            for (size_t f = 0; f < w->fields; ++f) {
                value_t *pair = w->elements + (w->element_count * w->fields + f) * 2;
                at = past_blanks(at);
                pair[0] = read_value(&at);
                if (*at++ != '-') fail("an interval is LOW-HIGH");
                pair[1] = read_value(&at);
            }
            ++w->element_count;
        } else if (line[0] == 'k' && line[1] == ' ') {
            w->keys = grown(w->keys, &key_room, (w->key_count + 1) * w->fields, sizeof(value_t));
            char *at = line + 2;
            for (size_t f = 0; f < w->fields; ++f) {
                at = past_blanks(at);
                w->keys[w->key_count * w->fields + f] = read_value(&at);
            }
            ++w->key_count;
        }
    }
    free(line);
    fclose(file);
    if (!w->fields || !w->element_count || !w->key_count) fail("the workload has no fields, elements or keys");
}

/* The seconds of this thread's processor clock. */
static double seconds(void) {
    struct timespec now;
    clock_gettime(CLOCK_THREAD_CPUTIME_ID, &now);
    return now.tv_sec + now.tv_nsec * 1e-9;
}

#endif
