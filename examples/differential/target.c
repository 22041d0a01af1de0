/* A target of libFuzzer that compares a validator with what is proved. An input makes a component that validates, and
 * its last four bytes say what becomes of that: a quarter of them leaves it, a half changes a token or a list of entries
 * in it, and a quarter writes it wrongly. Both are judged. It is a finding if lupinanon_validate knows that a validator
 * has to accept the bytes, or may not, and the function `accepts` says otherwise. */
#include "lupinanon.h"
#include <stdio.h>
#include <stdlib.h>

/* Whether the validator accepts the bytes: a function of yours, in another file. */
int accepts(const uint8_t *bytes, size_t len);

enum { CHANGE = 4, MOST_BYTES = 1 << 16 };

/* What the library makes and judges components in: no memory is taken for that. */
static uint8_t scratch[LUPINANON_SCRATCH(MOST_BYTES)];

static void print_bytes(const uint8_t *bytes, size_t len) {
    size_t at;
    for (at = 0; at < len; at++) fprintf(stderr, "%02x", bytes[at]);
    fputc('\n', stderr);
}

/* Bytes that are no component have no text. */
static void print_text(const uint8_t *bytes, size_t len) {
    static uint8_t text[32 * MOST_BYTES];
    size_t text_len;
    if (lupinanon_print(bytes, len, text, sizeof text, &text_len) == LUPINANON_ANSWERED)
        fwrite(text, 1, text_len, stderr);
}

static void judge(const uint8_t *bytes, size_t len) {
    size_t rule, offset;
    int32_t status = lupinanon_validate_in(bytes, len, &rule, &offset, scratch, sizeof scratch);
    if (status != LUPINANON_VALID && status != LUPINANON_INVALID) return; /* it may do either */
    if (!accepts(bytes, len) == (status == LUPINANON_INVALID)) return;
    if (status == LUPINANON_VALID)
        fprintf(stderr, "the validator refuses what is valid:\n");
    else
        fprintf(stderr, "the validator accepts what is invalid: %s at offset %zu:\n", lupinanon_rule_text(rule),
                offset);
    print_bytes(bytes, len);
    print_text(bytes, len);
    abort();
}

/* The number that the four bytes say. */
static uint32_t number_of(const uint8_t said[CHANGE]) {
    return said[0] | (uint32_t)said[1] << 8 | (uint32_t)said[2] << 16 | (uint32_t)said[3] << 24;
}

/* Writes what becomes of the component by that number, and returns the status. */
static int32_t change(const uint8_t *bytes, size_t len, uint32_t said, uint8_t *changed, size_t *changed_len) {
    size_t count, number = said >> 2;
    switch (said & 3) {
    case 0: return LUPINANON_NO_CHANGE;
    case 1:
        number %= 2 * len; /* there are as many cuts as bytes, and then at most twice as many others */
        return lupinanon_next_miswritten(bytes, len, &number, changed, MOST_BYTES, changed_len);
    default:
        if (lupinanon_change_count(bytes, len, &count) != LUPINANON_ANSWERED || !count) return LUPINANON_NO_CHANGE;
        number %= count;
        return lupinanon_next_changed(bytes, len, &number, changed, MOST_BYTES, changed_len);
    }
}

/* Returns -1, so that the input is not kept, if its component is too large for this target, or memory runs out. */
int LLVMFuzzerTestOneInput(const uint8_t *data, size_t size) {
    static uint8_t component[MOST_BYTES], changed[MOST_BYTES];
    size_t len, changed_len, front = size < CHANGE ? size : size - CHANGE;
    LupinanonLimits limits;
    int32_t status;
    lupinanon_default_limits(&limits, sizeof limits);
    limits.must_validate = 1;
    limits.max_exports = 10;
    status = lupinanon_generate_in(&limits, data, front, component, sizeof component, &len, NULL, scratch,
                                   sizeof scratch);
    if (status == LUPINANON_NO_ROOM || status == LUPINANON_OUT_OF_MEMORY) return -1;
    if (status != LUPINANON_ANSWERED) abort();
    judge(component, len);
    if (size < CHANGE) return 0;
    status = change(component, len, number_of(data + front), changed, &changed_len);
    if (status == LUPINANON_ANSWERED) judge(changed, changed_len);
    return 0;
}
