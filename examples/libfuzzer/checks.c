/* What the target returns when it is out of memory or of room. To be linked with target.c and with
 * -Wl,--wrap=malloc,--wrap=realloc. */
#include "lupinanon.h"
#include <stdio.h>
#include <stdlib.h>

int LLVMFuzzerTestOneInput(const uint8_t *data, size_t size);
int use_component(const uint8_t *bytes, size_t len);
void *__real_malloc(size_t size);
void *__real_realloc(void *block, size_t size);

static long until_refusal = -1;
static int uses;

static int is_refused(void) { return until_refusal >= 0 && until_refusal-- == 0; }

void *__wrap_malloc(size_t size) { return is_refused() ? NULL : __real_malloc(size); }
void *__wrap_realloc(void *block, size_t size) { return is_refused() ? NULL : __real_realloc(block, size); }

int use_component(const uint8_t *bytes, size_t len) {
    uses++;
    return !(bytes && len);
}

/* Whether each allocation that is refused alone makes the target return -1, and use nothing. */
static int memory_runs_out(const uint8_t *input, size_t len) {
    long refused = 0;
    int result;
    for (;;) {
        uses = 0;
        until_refusal = refused++;
        result = LLVMFuzzerTestOneInput(input, len);
        if (until_refusal >= 0) break;
        if (result != -1 || uses) return 0;
    }
    until_refusal = -1;
    return refused > 1 && !result && uses == 1;
}

/* Whether a component that is larger than the target's room makes it return -1. */
static int room_runs_out(void) {
    static uint8_t input[1 << 18];
    size_t at;
    input[0] = 1; /* a custom section, without a name */
    for (at = 3; at + 1 < sizeof input; at += 2) input[at] = 1;
    uses = 0;
    return LLVMFuzzerTestOneInput(input, sizeof input) == -1 && !uses;
}

int main(void) {
    static const uint8_t input[] = {3, 1, 0, 0, 6, 0, 0};
    if (!memory_runs_out(input, sizeof input)) {
        printf("out of memory is not -1\n");
        return 1;
    }
    if (!room_runs_out()) {
        printf("out of room is not -1\n");
        return 1;
    }
    return 0;
}
