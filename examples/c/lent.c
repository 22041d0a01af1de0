/* Calls over memory that is lent: what they return and write with each length and alignment of it, that they touch
 * nothing around it and call no malloc, realloc or free. To be linked with
 * -Wl,--wrap=malloc,--wrap=realloc,--wrap=free; with -fsanitize=address what is around the memory is poisoned. */
#include "entries.h"
#include "random.h"

#ifndef __has_feature
#define __has_feature(name) 0
#endif
#if defined(__SANITIZE_ADDRESS__) || __has_feature(address_sanitizer)
#include <sanitizer/asan_interface.h>
#else
#define ASAN_POISON_MEMORY_REGION(at, len) ((void)(at), (void)(len))
#define ASAN_UNPOISON_MEMORY_REGION(at, len) ((void)(at), (void)(len))
#endif

enum { STEP = 16, AROUND = 64, MOST_LENT = 1 << 23 };

/* Memory to lend, with as much as is looked at around it. */
static union {
    uint8_t bytes[AROUND + STEP + MOST_LENT + AROUND];
    long double aligned;
} memory;

void __real_free(void *block);

void __wrap_free(void *block) {
    allocations++;
    __real_free(block);
}

/* What a call returns and writes. */
typedef struct Outcome {
    int32_t status;
    size_t numbers[2];
    uint8_t output[ROOM];
} Outcome;

/* A call over `len` bytes of memory that is lent; or without any, if `scratch` is NULL. */
typedef void Call(const Entry *entry, uint8_t *scratch, size_t len, Outcome *it);

static void generate(const Entry *entry, uint8_t *scratch, size_t len, Outcome *it) {
    const Bytes *in = &entry->input;
    size_t *made = it->numbers, *left = it->numbers + 1;
    LupinanonLimits limits;
    entry->set_limits(&limits);
    it->status = scratch ? lupinanon_generate_in(&limits, in->at, in->len, it->output, ROOM, made, left, scratch, len)
                         : lupinanon_generate_into(&limits, in->at, in->len, it->output, ROOM, made, left);
}

static void check(const Entry *entry, uint8_t *scratch, size_t len, Outcome *it) {
    const Bytes *in = &entry->output;
    it->status = scratch ? lupinanon_check_in(in->at, in->len, it->numbers, scratch, len)
                         : lupinanon_check(in->at, in->len, it->numbers);
}

static void validate(const Entry *entry, uint8_t *scratch, size_t len, Outcome *it) {
    const Bytes *in = &entry->output;
    size_t *rule = it->numbers, *offset = it->numbers + 1;
    it->status = scratch ? lupinanon_validate_in(in->at, in->len, rule, offset, scratch, len)
                         : lupinanon_validate(in->at, in->len, rule, offset);
}

static void script(const Entry *entry, uint8_t *scratch, size_t len, Outcome *it) {
    const Bytes *in = &entry->output;
    size_t *made = it->numbers, *offset = it->numbers + 1;
    LupinanonLimits limits;
    entry->set_limits(&limits);
    it->status = scratch ? lupinanon_script_in(&limits, in->at, in->len, it->output, ROOM, made, offset, scratch, len)
                         : lupinanon_script_into(&limits, in->at, in->len, it->output, ROOM, made, offset);
}

static Outcome outcome(Call *call, const Entry *entry, uint8_t *scratch, size_t len) {
    Outcome it;
    memset(&it, 0xaa, sizeof it);
    call(entry, scratch, len, &it);
    return it;
}

static int is_around(const uint8_t *at) {
    size_t place;
    for (place = 0; place < AROUND; place++)
        if (at[place] != 0x55) return 0;
    return 1;
}

/* What a call does over so much memory, at so many bytes after a multiple of 16. Its status is -1 if it writes around
 * that memory, or allocates. */
static Outcome lent_outcome(Call *call, const Entry *entry, size_t shift, size_t len) {
    uint8_t *scratch = memory.bytes + AROUND + shift;
    Outcome it;
    memset(scratch - AROUND, 0x55, AROUND);
    memset(scratch + len, 0x55, AROUND);
    ASAN_POISON_MEMORY_REGION(memory.bytes, sizeof memory.bytes);
    ASAN_UNPOISON_MEMORY_REGION(scratch, len);
    allocations = 0;
    it = outcome(call, entry, scratch, len);
    ASAN_UNPOISON_MEMORY_REGION(memory.bytes, sizeof memory.bytes);
    if (allocations || !is_around(scratch - AROUND) || !is_around(scratch + len)) it.status = -1;
    return it;
}

static int are_same(Outcome one, Outcome other) {
    if (one.status != other.status || memcmp(one.numbers, other.numbers, sizeof one.numbers)) return 0;
    return !memcmp(one.output, other.output, ROOM);
}

/* Whether a call over lent memory is out of memory with each length below one, and from there on does as without. */
static int lengths_are_right(Call *call, const Entry *entry) {
    Outcome wanted = outcome(call, entry, NULL, 0), refused;
    size_t enough = 0, shift, len;
    until_refusal = 0;
    refused = outcome(call, entry, NULL, 0);
    until_refusal = -1;
    WANT(wanted.status != LUPINANON_OUT_OF_MEMORY && refused.status == LUPINANON_OUT_OF_MEMORY);
    while (enough < MOST_LENT && are_same(lent_outcome(call, entry, 0, enough), refused)) enough += STEP;
    WANT(STEP < enough && enough < MOST_LENT);
    for (len = enough; len < enough + 100 * STEP; len += STEP)
        WANT(are_same(lent_outcome(call, entry, 0, len), wanted));
    /* alignment takes at most STEP more, and no less */
    for (shift = 0; shift < STEP; shift++) {
        for (len = enough - STEP; len < enough; len++)
            WANT(are_same(lent_outcome(call, entry, shift, len), refused));
        for (len = enough + STEP; len < enough + 2 * STEP; len++)
            WANT(are_same(lent_outcome(call, entry, shift, len), wanted));
    }
    return 1;
}

static int each_length_is_right(void) {
    static Call *const calls[] = {generate, check, validate, script};
    const Entry *entry, *end = entries + sizeof entries / sizeof *entries;
    int place;
    for (entry = entries; entry < end; entry++)
        for (place = 0; place < 4; place++)
            if (!lengths_are_right(calls[place], entry)) return 0;
    return 1;
}

/* Whether the component of the entry is made, and the output is written as it says. */
static int is_made(const Entry *entry, Outcome it) {
    if (it.status || it.numbers[0] != entry->output.len || it.numbers[1] != entry->left) return 0;
    return !memcmp(it.output, entry->output.at, entry->output.len) && is_untouched(it.output, entry->output.len);
}

static int components_are_made(void) {
    const Entry *entry, *end = entries + sizeof entries / sizeof *entries;
    for (entry = entries; entry < end; entry++) WANT(is_made(entry, lent_outcome(generate, entry, 0, MOST_LENT)));
    return 1;
}

enum { INPUTS = 200, MOST_INPUT = 1024, MOST_MADE = 1 << 15 };

/* Whether what LUPINANON_SCRATCH says is enough for a random input, for its component and for its script. */
static int is_enough(const LupinanonLimits *limits, const uint8_t *input, size_t input_len) {
    static uint8_t made[MOST_MADE], other[MOST_MADE];
    uint8_t *scratch = memory.bytes;
    size_t len, left, other_len, other_left, room = LUPINANON_SCRATCH(input_len);
    WANT(!lupinanon_generate_in(limits, input, input_len, made, MOST_MADE, &len, &left, scratch, room));
    WANT(!lupinanon_generate_into(limits, input, input_len, other, MOST_MADE, &other_len, &other_left));
    WANT(len == other_len && left == other_left && !memcmp(made, other, len));
    room = LUPINANON_SCRATCH(len);
    WANT(3 * room <= MOST_LENT);
    WANT(lupinanon_check_in(made, len, NULL, scratch, room) == LUPINANON_WELL_FORMED);
    WANT(lupinanon_validate_in(made, len, NULL, NULL, scratch, room) == lupinanon_validate(made, len, NULL, NULL));
    WANT(lupinanon_script_in(limits, made, len, other, MOST_MADE, &other_len, NULL, scratch, 3 * room) ==
         lupinanon_script_into(limits, made, len, other, MOST_MADE, &other_left, NULL));
    return other_len == other_left;
}

static int the_scratch_is_enough(void) {
    uint8_t input[MOST_INPUT];
    uint64_t state = RANDOM_START;
    LupinanonLimits limits;
    size_t place, k;
    for (k = 0; k < INPUTS; k++) {
        for (place = 0; place < MOST_INPUT; place++) input[place] = random_byte(&state);
        lupinanon_default_limits(&limits, sizeof limits);
        WANT(is_enough(&limits, input, k % 2 ? MOST_INPUT : k));
        lupinanon_fuzz_limits(&limits, sizeof limits);
        limits.must_validate = 1;
        WANT(is_enough(&limits, input, k % 2 ? MOST_INPUT : k));
    }
    return 1;
}

/* No memory at all, and refusals that come before any is taken. */
static int no_memory_may_be_lent(void) {
    LupinanonLimits limits;
    uint8_t output[ROOM];
    size_t len = 99, left = 99, offset = 99;
    lupinanon_default_limits(&limits, sizeof limits);
    memset(output, 0xaa, ROOM);
    WANT(lupinanon_generate_in(&limits, NULL, 0, output, ROOM, &len, &left, NULL, 0) == LUPINANON_OUT_OF_MEMORY);
    WANT(!len && !left && is_untouched(output, 0));
    WANT(lupinanon_check_in(output, 8, NULL, NULL, 0) == LUPINANON_UNREAD);
    WANT(lupinanon_check_in(section_output, sizeof section_output, &offset, NULL, 0) == LUPINANON_OUT_OF_MEMORY);
    WANT(offset == LUPINANON_NO_OFFSET);
    limits.simd_enabled = 2;
    WANT(lupinanon_generate_in(&limits, NULL, 0, output, ROOM, &len, NULL, NULL, 0) == LUPINANON_BAD_FLAG);
    return 1;
}

static int bad_arguments_are_refused(void) {
    LupinanonLimits limits, *in_scratch = (LupinanonLimits *)(memory.bytes + AROUND);
    uint8_t output[ROOM], *scratch = memory.bytes + AROUND;
    size_t len = 99, left = 99, *numbers = (size_t *)scratch;
    lupinanon_default_limits(&limits, sizeof limits);
    *in_scratch = limits;
    WANT(lupinanon_generate_in(&limits, NULL, 0, output, ROOM, &len, &left, NULL, 1) == LUPINANON_BAD_ARGUMENT);
    WANT(!len && !left);
    WANT(lupinanon_generate_in(&limits, NULL, 0, output, 9, &len, &left, scratch, SIZE_MAX) == LUPINANON_BAD_ARGUMENT);
    WANT(lupinanon_generate_in(NULL, NULL, 0, output, ROOM, &len, &left, scratch, 9) == LUPINANON_BAD_ARGUMENT);
    WANT(lupinanon_generate_in(&limits, NULL, 0, output, ROOM, NULL, &left, scratch, 9) == LUPINANON_BAD_ARGUMENT);
    /* what overlaps the memory: limits, input, output, counts */
    WANT(lupinanon_generate_in(in_scratch, NULL, 0, output, ROOM, &len, &left, scratch, 9) == LUPINANON_BAD_ARGUMENT);
    WANT(lupinanon_generate_in(&limits, scratch, 9, output, 9, &len, &left, scratch + 8, 9) == LUPINANON_BAD_ARGUMENT);
    WANT(lupinanon_generate_in(&limits, NULL, 0, scratch, 9, &len, &left, scratch + 8, 9) == LUPINANON_BAD_ARGUMENT);
    WANT(lupinanon_generate_in(&limits, NULL, 0, output, ROOM, numbers, &left, scratch, 9) == LUPINANON_BAD_ARGUMENT);
    WANT(lupinanon_generate_in(&limits, NULL, 0, output, ROOM, &len, numbers, scratch, 9) == LUPINANON_BAD_ARGUMENT);
    WANT(lupinanon_script_in(&limits, scratch, 9, output, ROOM, &len, &left, scratch + 8, 9) == LUPINANON_BAD_ARGUMENT);
    WANT(left == LUPINANON_NO_OFFSET && !len);
    WANT(lupinanon_script_in(&limits, NULL, 0, scratch, 9, &len, &left, scratch + 8, 9) == LUPINANON_BAD_ARGUMENT);
    WANT(lupinanon_script_in(&limits, NULL, 0, output, ROOM, numbers, &left, scratch, 9) == LUPINANON_BAD_ARGUMENT);
    WANT(lupinanon_script_in(&limits, NULL, 0, output, ROOM, &len, numbers, scratch, 9) == LUPINANON_BAD_ARGUMENT);
    WANT(lupinanon_check_in(scratch, 9, &left, scratch + 8, 9) == LUPINANON_BAD_ARGUMENT);
    WANT(lupinanon_check_in(output, ROOM, numbers, scratch, 9) == LUPINANON_BAD_ARGUMENT);
    WANT(lupinanon_validate_in(scratch, 9, &len, &left, scratch + 8, 9) == LUPINANON_BAD_ARGUMENT);
    WANT(len == LUPINANON_NO_RULE && left == LUPINANON_NO_OFFSET);
    WANT(lupinanon_validate_in(output, ROOM, numbers, &left, scratch, 9) == LUPINANON_BAD_ARGUMENT);
    WANT(lupinanon_validate_in(output, ROOM, &len, numbers, scratch, 9) == LUPINANON_BAD_ARGUMENT);
    return 1;
}

/* How many calls inside another made what they should, and whether all did. */
static long made_inside;
static int all_inside = 1;

static void make_inside(void) {
    inside = NULL;
    all_inside &= is_made(entries, outcome(generate, entries, memory.bytes, sizeof memory.bytes));
    all_inside &= is_made(entries + 1, outcome(generate, entries + 1, NULL, 0));
    made_inside++;
    inside = make_inside;
}

/* An allocator may call the library: what is lent to that call is not lent to the one around it. */
static int calls_inside_are_right(void) {
    const Entry *entry, *end = entries + sizeof entries / sizeof *entries;
    Outcome it;
    for (entry = entries; entry < end; entry++) {
        inside = make_inside;
        it = outcome(generate, entry, NULL, 0);
        inside = NULL;
        WANT(is_made(entry, it) && all_inside);
    }
    WANT(made_inside > 100);
    return 1;
}

int main(void) {
    fill_section();
    if (!components_are_made() || !each_length_is_right() || !no_memory_may_be_lent()) return 1;
    if (!bad_arguments_are_refused() || !the_scratch_is_enough() || !calls_inside_are_right()) return 1;
    puts("lent: all memory is the caller's");
    return 0;
}
