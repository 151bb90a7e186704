/* What the C tests share: a pool, and a note of what is not as docs/SPECIFICATION.md has it. */
#ifndef CASE_H
#define CASE_H

#include "bunlayog.h"

#include <stdio.h>
#include <string.h>

static uint8_t kinds[BUNLAYOG_LIMIT];
static uint64_t words[BUNLAYOG_LIMIT];
static uint64_t count;
static int failed;

#define POOL kinds, BUNLAYOG_LIMIT, words, BUNLAYOG_LIMIT, &count
#define POOL_READ kinds, BUNLAYOG_LIMIT, words, BUNLAYOG_LIMIT, count
#define RIGHT ((uint64_t)1 << 32)

/* A place for an answer holds this before a call, and after a refusal. */
#define UNTOUCHED UINT64_C(0xa5a5a5a5a5a5a5a5)

static inline void set(uint64_t i, uint8_t kind, uint64_t word) {
    kinds[i] = kind;
    words[i] = word;
}

static inline void wrong(const char *what) {
    printf("%s\n", what);
    failed = 1;
}

/* The answer, what stands in its place and the count after the call. */
static inline void expect(const char *what, uint32_t answer, uint64_t given, uint32_t number, uint64_t value, uint64_t n) {
    if (answer != number || given != (number == 0 ? value : UNTOUCHED) || count != n) {
        printf("%s: answer %u, gives %llx, count %llu\n", what, answer, (unsigned long long)given, (unsigned long long)count);
        failed = 1;
    }
}

static inline void entry(const char *what, uint64_t i, uint8_t kind, uint64_t word) {
    if (kinds[i] != kind || words[i] != word) {
        printf("%s: entry %llu is %u %llx\n", what, (unsigned long long)i, kinds[i], (unsigned long long)words[i]);
        failed = 1;
    }
}

static inline void bytes(const char *what, const void *found, const void *wanted, size_t n) {
    if (memcmp(found, wanted, n) != 0) {
        printf("%s: ", what);
        wrong("other bytes");
    }
}

#endif
