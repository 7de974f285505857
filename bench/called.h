/* What the drivers share that call the library with a workload. */
#ifndef CALLED_H
#define CALLED_H

#include <malloc.h>

#include "workload.h"

/* Memory that a call gave back is taken again, and not asked of the system anew: otherwise it would hang on which block
   lies last whether each build of a set pays for pages that are new. */
static void keep_memory(void) {
    mallopt(M_TRIM_THRESHOLD, 1 << 30);
    mallopt(M_MMAP_THRESHOLD, 1 << 30);
}

/* Two words a value, the lower one first. */
static uint64_t *words_of(const value_t *values, size_t n) {
    uint64_t *words = malloc(n * 16);
    if (!words) fail("want of memory");
    for (size_t i = 0; i < n; ++i) {
        words[2 * i] = (uint64_t)values[i];
        words[2 * i + 1] = (uint64_t)(values[i] >> 64);
    }
    return words;
}

#endif
