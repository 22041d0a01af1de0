/* What checks.c, answers.c, edits.c, changes.c, texts.c and lent.c share: bytes, and allocations that are refused. */
#ifndef CHECKS_H
#define CHECKS_H

#include "lupinanon.h"
#include <stdio.h>
#include <stdlib.h>
#include <string.h>

void *__real_malloc(size_t size);
void *__real_realloc(void *block, size_t size);

/* How many allocations there are before one is refused, if it is not negative, and how many there were. */
static long until_refusal = -1, allocations;

/* What is called inside each allocation, if anything is. */
static void (*inside)(void);

static int is_refused(void) {
    allocations++;
    if (inside) inside();
    return until_refusal >= 0 && until_refusal-- == 0;
}

void *__wrap_malloc(size_t size) { return is_refused() ? NULL : __real_malloc(size); }
void *__wrap_realloc(void *block, size_t size) { return is_refused() ? NULL : __real_realloc(block, size); }

#define WANT(x)                                                 \
    do {                                                        \
        if (!(x)) {                                             \
            printf("line %d: not so: %s\n", __LINE__, #x);      \
            return 0;                                           \
        }                                                       \
    } while (0)

/* The first eight bytes of each component. */
#define PREAMBLE 0x00, 0x61, 0x73, 0x6d, 0x0d, 0x00, 0x01, 0x00

enum { ROOM = 256 };

typedef struct Bytes {
    const uint8_t *at;
    size_t len;
} Bytes;

#define BYTES(...) {(const uint8_t[]){__VA_ARGS__}, sizeof((const uint8_t[]){__VA_ARGS__})}

/* Whether nothing is written from a place on. */
static inline int is_untouched(const uint8_t output[ROOM], size_t place) {
    for (; place < ROOM; place++)
        if (output[place] != 0xaa) return 0;
    return 1;
}

#endif
