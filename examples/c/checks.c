/* Each status once, what is written and what is not, and each allocation refused in turn.
 * To be linked with -Wl,--wrap=malloc,--wrap=realloc. */
#include "entries.h"

/* A type, and a byte after its script. */
static const uint8_t plan[8] = {3, 1, 0, 0, 6, 0, 0, 0xff};
static const uint8_t wanted[12] = {0, 0x61, 0x73, 0x6d, 0x0d, 0, 1, 0, 7, 2, 1, 0x79};

static int defaults_are_written(void) {
    LupinanonLimits limits;
    size_t place;
    memset(&limits, 0xaa, sizeof limits);
    WANT(lupinanon_default_limits(&limits, sizeof limits) == LUPINANON_ANSWERED);
    WANT(limits.size == sizeof limits);
    for (place = 0; place < sizeof limits.reserved; place++) WANT(limits.reserved[place] == 0);
    /* each default */
    WANT(limits.min_types == 0);
    WANT(limits.min_imports == 0);
    WANT(limits.min_funcs == 0);
    WANT(limits.min_memories == 0);
    WANT(limits.max_types == 100);
    WANT(limits.max_imports == 100);
    WANT(limits.max_funcs == 100);
    WANT(limits.max_exports == 0);
    WANT(limits.max_globals == 100);
    WANT(limits.max_tables == 100);
    WANT(limits.max_tags == 100);
    WANT(limits.max_memories == 1);
    WANT(limits.max_modules == 10);
    WANT(limits.max_components == 10);
    WANT(limits.max_instances == 10);
    WANT(limits.max_nesting_depth == 10);
    WANT(limits.max_type_size == 1000);
    WANT(limits.multi_value_enabled == 1);
    WANT(limits.exceptions_enabled == 1);
    WANT(limits.reference_types_enabled == 1);
    WANT(limits.simd_enabled == 1);
    WANT(limits.allow_floats == 1);
    WANT(limits.bulk_memory_enabled == 1);
    WANT(limits.must_validate == 0);
    WANT(limits.finish_after == 0);
    WANT(limits.max_name_length == 100);
    WANT(limits.loop_bits == 1);
    return 1;
}

static int the_profile_is_written(void) {
    static const uint8_t loop[7] = {3, 2, 0, 0, 6, 4, 0}, flags[9] = {3, 1, 0, 5, 1, 1, 0, 0, 0};
    static const uint8_t labels[] = {PREAMBLE, 0x07, 0x0b, 0x01, 0x6e, 0x03, 0x01,
                                     0x61,     0x02, 0x61, 0x31, 0x02, 0x61, 0x32};
    LupinanonLimits limits, profile;
    uint8_t output[ROOM];
    size_t len, left;
    lupinanon_default_limits(&profile, sizeof profile);
    profile.max_exports = 10;
    profile.finish_after = profile.max_name_length = 8;
    profile.loop_bits = 2;
    memset(&limits, 0xaa, sizeof limits);
    WANT(lupinanon_fuzz_limits(NULL, sizeof limits) == LUPINANON_BAD_ARGUMENT);
    WANT(lupinanon_fuzz_limits(&limits, sizeof limits - 1) == LUPINANON_BAD_ARGUMENT);
    WANT(lupinanon_fuzz_limits(&limits, sizeof limits) == LUPINANON_ANSWERED);
    WANT(!memcmp(&limits, &profile, sizeof limits));
    /* a loop goes on after 02 and ends after 04 */
    limits.finish_after = 0;
    WANT(lupinanon_generate_into(&limits, loop, 7, output, ROOM, &len, &left) == LUPINANON_ANSWERED);
    WANT(len == 12 && left == 0 && !memcmp(output, wanted, 12));
    /* names of no byte are a, a1 and a2 */
    limits.max_name_length = 0;
    limits.loop_bits = 1;
    WANT(lupinanon_generate_into(&limits, flags, 9, output, ROOM, &len, &left) == LUPINANON_ANSWERED);
    WANT(len == sizeof labels && left == 0 && !memcmp(output, labels, len));
    return 1;
}

static int nothing_passes_the_room(void) {
    LupinanonLimits limits;
    uint8_t output[16];
    size_t len = 99, left = 99;
    lupinanon_default_limits(&limits, sizeof limits);
    memset(output, 0xaa, sizeof output);
    WANT(lupinanon_generate_into(&limits, plan, 8, NULL, 0, &len, &left) == LUPINANON_NO_ROOM && len == 12);
    WANT(left == 1);
    WANT(lupinanon_generate_into(&limits, plan, 8, output, 11, &len, &left) == LUPINANON_NO_ROOM && len == 12);
    WANT(left == 1 && output[0] == 0xaa);
    WANT(lupinanon_generate_into(&limits, plan, 8, output, 12, &len, &left) == LUPINANON_ANSWERED && len == 12);
    WANT(left == 1 && !memcmp(output, wanted, 12) && output[12] == 0xaa);
    memset(output, 0xaa, sizeof output);
    WANT(lupinanon_script_into(&limits, wanted, 12, NULL, 0, &len, &left) == LUPINANON_NO_ROOM && len == 7);
    WANT(lupinanon_script_into(&limits, wanted, 12, output, 6, &len, &left) == LUPINANON_NO_ROOM && len == 7);
    WANT(left == LUPINANON_NO_OFFSET && output[0] == 0xaa);
    WANT(lupinanon_script_into(&limits, wanted, 12, output, 7, &len, &left) == LUPINANON_ANSWERED && len == 7);
    WANT(left == LUPINANON_NO_OFFSET && !memcmp(output, plan, 7) && output[7] == 0xaa);
    return 1;
}

/* The status of a call that is refused, or -1 if it counts or writes anything. */
static int32_t refusal(const LupinanonLimits *limits, const uint8_t *input, size_t input_len) {
    uint8_t output[ROOM];
    size_t len = 99, left = 99;
    int32_t status;
    memset(output, 0xaa, sizeof output);
    status = lupinanon_generate_into(limits, input, input_len, output, sizeof output, &len, &left);
    return len || left || !is_untouched(output, 0) ? -1 : status;
}

static int refusals_have_their_statuses(void) {
    static const uint8_t module[1] = {6};
    LupinanonLimits limits;
    lupinanon_default_limits(&limits, sizeof limits);
    limits.max_nesting_depth = 1001;
    WANT(refusal(&limits, plan, 8) == LUPINANON_INCONSISTENT_LIMITS);
    lupinanon_default_limits(&limits, sizeof limits);
    limits.min_imports = 1;
    WANT(refusal(&limits, plan, 0) == LUPINANON_MINIMUM_NOT_MET);
    lupinanon_default_limits(&limits, sizeof limits);
    limits.min_memories = 2;
    WANT(refusal(&limits, module, 1) == LUPINANON_MODULE_REFUSED);
    lupinanon_default_limits(&limits, sizeof limits);
    limits.simd_enabled = 2;
    WANT(refusal(&limits, plan, 8) == LUPINANON_BAD_FLAG);
    return 1;
}

static int bad_arguments_are_refused(void) {
    LupinanonLimits limits;
    uint8_t output[16], *bytes;
    size_t len, left;
    WANT(lupinanon_default_limits(NULL, sizeof limits) == LUPINANON_BAD_ARGUMENT);
    lupinanon_default_limits(&limits, sizeof limits);
    WANT(lupinanon_generate_into(NULL, plan, 8, output, 16, &len, &left) == LUPINANON_BAD_ARGUMENT);
    WANT(lupinanon_generate_into(&limits, NULL, 8, output, 16, &len, &left) == LUPINANON_BAD_ARGUMENT);
    WANT(lupinanon_generate_into(&limits, plan, 8, NULL, 16, &len, &left) == LUPINANON_BAD_ARGUMENT);
    WANT(lupinanon_generate_into(&limits, plan, SIZE_MAX, output, 16, &len, &left) == LUPINANON_BAD_ARGUMENT);
    WANT(lupinanon_generate_into(&limits, plan, 8, output, 16, NULL, &left) == LUPINANON_BAD_ARGUMENT);
    WANT(lupinanon_generate_into(&limits, NULL, 0, output, 16, &len, &left) == LUPINANON_ANSWERED && len == 8);
    WANT(lupinanon_generate(&limits, plan, 8, NULL, &len, &left) == LUPINANON_BAD_ARGUMENT);
    WANT(lupinanon_generate(&limits, plan, 8, &bytes, NULL, &left) == LUPINANON_BAD_ARGUMENT && !bytes && !left);
    WANT(lupinanon_generate(&limits, NULL, 8, &bytes, &len, &left) == LUPINANON_BAD_ARGUMENT && !bytes);
    WANT(lupinanon_generate(NULL, NULL, 0, &bytes, &len, &left) == LUPINANON_ANSWERED && len == 8 && left == 0);
    free(bytes);
    WANT(lupinanon_check(NULL, 8, &len) == LUPINANON_BAD_ARGUMENT && len == LUPINANON_NO_OFFSET);
    WANT(lupinanon_check(wanted, SIZE_MAX, &len) == LUPINANON_BAD_ARGUMENT && len == LUPINANON_NO_OFFSET);
    WANT(lupinanon_check(NULL, 0, &len) == LUPINANON_UNREAD && len == 0);
    WANT(lupinanon_check(wanted, 12, NULL) == LUPINANON_WELL_FORMED);
    return 1;
}

static int bad_arguments_have_no_script(void) {
    LupinanonLimits limits;
    uint8_t output[16];
    size_t len = 99, offset = 99;
    lupinanon_default_limits(&limits, sizeof limits);
    WANT(lupinanon_script_into(NULL, wanted, 12, output, 16, &len, &offset) == LUPINANON_BAD_ARGUMENT && !len);
    WANT(offset == LUPINANON_NO_OFFSET);
    WANT(lupinanon_script_into(&limits, NULL, 12, output, 16, &len, &offset) == LUPINANON_BAD_ARGUMENT);
    WANT(lupinanon_script_into(&limits, wanted, 12, NULL, 16, &len, &offset) == LUPINANON_BAD_ARGUMENT);
    WANT(lupinanon_script_into(&limits, wanted, SIZE_MAX, output, 16, &len, &offset) == LUPINANON_BAD_ARGUMENT);
    WANT(lupinanon_script_into(&limits, wanted, 12, output, SIZE_MAX, &len, &offset) == LUPINANON_BAD_ARGUMENT);
    offset = 99;
    WANT(lupinanon_script_into(&limits, wanted, 12, output, 16, NULL, &offset) == LUPINANON_BAD_ARGUMENT);
    WANT(offset == LUPINANON_NO_OFFSET);
    WANT(lupinanon_script_into(&limits, NULL, 0, output, 16, &len, &offset) == LUPINANON_UNREAD && !len && !offset);
    WANT(lupinanon_script_into(&limits, wanted, 12, output, 16, &len, NULL) == LUPINANON_ANSWERED && len == 7);
    limits.size--;
    WANT(lupinanon_script_into(&limits, wanted, 12, output, 16, &len, &offset) == LUPINANON_BAD_ARGUMENT && !len);
    return 1;
}

static int left_may_be_null(void) {
    LupinanonLimits limits;
    uint8_t output[12], *bytes;
    size_t len;
    lupinanon_default_limits(&limits, sizeof limits);
    WANT(lupinanon_generate_into(&limits, plan, 8, output, 12, &len, NULL) == LUPINANON_ANSWERED && len == 12);
    WANT(lupinanon_generate(&limits, plan, 8, &bytes, &len, NULL) == LUPINANON_ANSWERED && len == 12);
    free(bytes);
    return 1;
}

/* Memory that holds all that is passed, some of it in the same place. */
typedef union Overlapping {
    LupinanonLimits limits;
    uint8_t bytes[ROOM];
    uint8_t *block;
    size_t counts[5];
} Overlapping;

static int overlaps_are_refused(void) {
    Overlapping memory, other;
    uint8_t *at = memory.bytes, *bytes;
    size_t len, left, *counts = memory.counts;
    LupinanonLimits limits;
    lupinanon_default_limits(&limits, sizeof limits);
    memset(&memory, 0, sizeof memory);
    WANT(lupinanon_generate_into(&limits, at, 9, at + 8, 12, &len, &left) == LUPINANON_BAD_ARGUMENT);
    WANT(lupinanon_generate_into(&limits, at + 19, 8, at + 8, 12, &len, &left) == LUPINANON_BAD_ARGUMENT);
    WANT(lupinanon_generate_into(&limits, at, 8, at + 8, 12, &len, &left) == LUPINANON_ANSWERED);
    WANT(lupinanon_generate_into(&limits, at + 20, 8, at + 8, 12, &len, &left) == LUPINANON_ANSWERED);
    WANT(lupinanon_generate_into(&limits, at + 8, 0, at, 12, &len, &left) == LUPINANON_ANSWERED);
    WANT(lupinanon_generate_into(&limits, plan, 8, at, 12, counts, &left) == LUPINANON_BAD_ARGUMENT);
    WANT(lupinanon_generate_into(&limits, plan, 8, at, 12, &len, counts + 1) == LUPINANON_BAD_ARGUMENT);
    WANT(lupinanon_generate_into(&limits, plan, 8, at, 12, &len, &len) == LUPINANON_BAD_ARGUMENT && !len);
    WANT(lupinanon_generate_into(&limits, at, 9, other.bytes, 12, counts + 1, &left) == LUPINANON_BAD_ARGUMENT);
    memory.limits = limits;
    WANT(lupinanon_generate_into(&memory.limits, plan, 8, at, 12, &len, &left) == LUPINANON_BAD_ARGUMENT);
    WANT(lupinanon_generate(&limits, plan, 8, &memory.block, counts, &left) == LUPINANON_BAD_ARGUMENT);
    WANT(lupinanon_generate(&limits, plan, 8, &bytes, &len, &len) == LUPINANON_BAD_ARGUMENT && !bytes && !len);
    WANT(lupinanon_check(at, 9, counts + 1) == LUPINANON_BAD_ARGUMENT);
    return 1;
}

static int overlaps_have_no_script(void) {
    Overlapping memory;
    uint8_t *at = memory.bytes, output[16];
    size_t len, offset, *counts = memory.counts;
    LupinanonLimits limits;
    lupinanon_default_limits(&limits, sizeof limits);
    memset(&memory, 0, sizeof memory);
    memcpy(at + 24, wanted, 12);
    WANT(lupinanon_script_into(&limits, at + 24, 12, at + 18, 7, &len, &offset) == LUPINANON_BAD_ARGUMENT);
    WANT(lupinanon_script_into(&limits, at + 24, 12, at + 35, 7, &len, &offset) == LUPINANON_BAD_ARGUMENT);
    WANT(lupinanon_script_into(&limits, at + 24, 12, at + 17, 7, &len, &offset) == LUPINANON_ANSWERED);
    WANT(lupinanon_script_into(&limits, at + 24, 12, at + 36, 7, &len, &offset) == LUPINANON_ANSWERED);
    WANT(lupinanon_script_into(&limits, at + 24, 12, output, 16, counts + 3, &offset) == LUPINANON_BAD_ARGUMENT);
    memcpy(at + 24, wanted, 12);
    WANT(lupinanon_script_into(&limits, at + 24, 12, output, 16, &len, counts + 4) == LUPINANON_BAD_ARGUMENT);
    WANT(lupinanon_script_into(&limits, wanted, 12, at, 9, &len, counts + 1) == LUPINANON_BAD_ARGUMENT);
    WANT(lupinanon_script_into(&limits, wanted, 12, at, 9, counts + 1, &offset) == LUPINANON_BAD_ARGUMENT);
    WANT(lupinanon_script_into(&limits, wanted, 12, output, 16, &len, &len) == LUPINANON_BAD_ARGUMENT);
    memory.limits = limits;
    WANT(lupinanon_script_into(&memory.limits, wanted, 12, at, 16, &len, &offset) == LUPINANON_BAD_ARGUMENT);
    return 1;
}

/* Whether the plan is made within the limits. */
static int is_made(const LupinanonLimits *limits) {
    uint8_t output[12], *bytes;
    size_t len, left;
    WANT(lupinanon_generate_into(limits, plan, 8, output, 12, &len, &left) == LUPINANON_ANSWERED);
    WANT(len == 12 && left == 1 && !memcmp(output, wanted, 12));
    WANT(lupinanon_generate(limits, plan, 8, &bytes, &len, &left) == LUPINANON_ANSWERED);
    WANT(len == 12 && left == 1 && !memcmp(bytes, wanted, 12));
    free(bytes);
    return 1;
}

static int are_bad_arguments(const LupinanonLimits *limits) {
    uint8_t *bytes;
    size_t len, left;
    WANT(refusal(limits, plan, 8) == LUPINANON_BAD_ARGUMENT);
    WANT(lupinanon_generate(limits, plan, 8, &bytes, &len, &left) == LUPINANON_BAD_ARGUMENT);
    return !bytes && !len && !left;
}

/* Whether the struct of an older header may end there, after a limit of eight bytes, of four or of one. */
static int is_older_size(size_t size) {
    size_t of_eight = offsetof(LupinanonLimits, max_type_size), reserved = offsetof(LupinanonLimits, reserved);
    if (size > of_eight && size <= reserved) return size >= of_eight + sizeof(uint32_t);
    return size > sizeof(size_t) && size % sizeof(size_t) == 0;
}

/* What follows an older struct in memory is neither written nor read: 0xaa in limits would be refused. */
static int older_structs_are_taken(void) {
    LupinanonLimits defaults;
    Overlapping memory;
    size_t size, before = sizeof(size_t);
    lupinanon_default_limits(&defaults, sizeof defaults);
    for (size = 0; size < sizeof defaults; size++) {
        memset(&memory, 0xaa, sizeof memory);
        if (!is_older_size(size)) {
            WANT(lupinanon_default_limits(&memory.limits, size) == LUPINANON_BAD_ARGUMENT);
            WANT(is_untouched(memory.bytes, 0));
            memory.limits = defaults;
            memory.limits.size = size;
            WANT(are_bad_arguments(&memory.limits));
            continue;
        }
        WANT(lupinanon_default_limits(&memory.limits, size) == LUPINANON_ANSWERED && memory.limits.size == size);
        WANT(!memcmp(memory.bytes + before, (const uint8_t *)&defaults + before, size - before));
        WANT(is_made(&memory.limits));
        memory.limits.min_types = 101;
        WANT(refusal(&memory.limits, plan, 8) == LUPINANON_INCONSISTENT_LIMITS);
        WANT(is_untouched(memory.bytes, size));
    }
    return 1;
}

/* The struct of a newer header. */
typedef struct NewerLimits {
    LupinanonLimits limits;
    size_t max_more;
    uint8_t more_enabled;
} NewerLimits;

static int newer_structs_are_taken(void) {
    union {
        NewerLimits newer;
        uint8_t bytes[ROOM];
    } memory;
    LupinanonLimits *limits = &memory.newer.limits;
    size_t place;
    memset(&memory, 0xaa, sizeof memory);
    WANT(lupinanon_default_limits(limits, sizeof(NewerLimits)) == LUPINANON_ANSWERED);
    WANT(limits->size == sizeof(NewerLimits) && limits->max_types == 100);
    WANT(memory.newer.max_more == 0 && memory.newer.more_enabled == 0 && is_made(limits));
    for (place = offsetof(LupinanonLimits, reserved); place < sizeof(NewerLimits); place++) {
        if (place == offsetof(LupinanonLimits, finish_after)) place = sizeof(LupinanonLimits);
        memory.bytes[place] = 1;
        WANT(are_bad_arguments(limits));
        memory.bytes[place] = 0;
    }
    WANT(is_made(limits) && is_untouched(memory.bytes, sizeof(NewerLimits)));
    limits->min_types = 101;
    WANT(refusal(limits, plan, 8) == LUPINANON_INCONSISTENT_LIMITS);
    return 1;
}

static int wrong_sizes_are_refused(void) {
    static const size_t sizes[] = {0, 1, sizeof(LupinanonLimits) - 1, 4097, PTRDIFF_MAX, SIZE_MAX};
    static union {
        LupinanonLimits limits;
        uint8_t bytes[4096 + 1];
    } memory;
    LupinanonLimits limits;
    size_t place;
    for (place = 0; place < sizeof sizes / sizeof *sizes; place++) {
        lupinanon_default_limits(&limits, sizeof limits);
        WANT(lupinanon_default_limits(&limits, sizes[place]) == LUPINANON_BAD_ARGUMENT && limits.size == sizeof limits);
        limits.size = sizes[place];
        WANT(are_bad_arguments(&limits));
    }
    memset(&memory, 0xaa, sizeof memory);
    WANT(lupinanon_default_limits(&memory.limits, 4096) == LUPINANON_ANSWERED && is_made(&memory.limits));
    WANT(memory.bytes[4095] == 0 && memory.bytes[4096] == 0xaa);
    memset(&limits, 0, sizeof limits);
    WANT(are_bad_arguments(&limits));
    memset(&limits, 0xaa, sizeof limits);
    WANT(are_bad_arguments(&limits));
    return 1;
}

/* As many bytes as the caller's struct has must be apart from what is written. */
static int limits_overlap_by_their_size(void) {
    static const size_t sizes[] = {2 * sizeof(size_t), sizeof(LupinanonLimits), sizeof(NewerLimits)};
    Overlapping memory;
    size_t place, size, len, left;
    for (place = 0; place < 3; place++) {
        uint8_t *after = memory.bytes + (size = sizes[place]);
        lupinanon_default_limits(&memory.limits, size);
        WANT(lupinanon_generate_into(&memory.limits, plan, 8, after - 1, 12, &len, &left) == LUPINANON_BAD_ARGUMENT);
        WANT(lupinanon_generate_into(&memory.limits, plan, 8, after, 12, &len, &left) == LUPINANON_ANSWERED);
        WANT(!memcmp(after, wanted, 12));
    }
    return 1;
}

static int words_are_right(void) {
    WANT(!strcmp(lupinanon_version(), LUPINANON_VERSION));
    WANT(!strcmp(lupinanon_status_name(LUPINANON_ANSWERED), "answered"));
    WANT(!strcmp(lupinanon_status_name(LUPINANON_OUT_OF_MEMORY), "out of memory"));
    WANT(!strcmp(lupinanon_status_name(LUPINANON_UNREAD), "unread"));
    WANT(!strcmp(lupinanon_status_name(LUPINANON_NO_SCRIPT), "no script"));
    WANT(!strcmp(lupinanon_status_name(LUPINANON_NO_SMALLER), "no smaller component"));
    WANT(!strcmp(lupinanon_status_name(LUPINANON_NO_TEXT), "no text"));
    WANT(!strcmp(lupinanon_status_name(LUPINANON_NO_TEXT + 1), "unknown status"));
    WANT(!strcmp(lupinanon_status_name(-1), "unknown status"));
    return 1;
}

static int memory_is_refused_in_turn(void) {
    uint8_t *bytes;
    size_t len, left;
    int32_t status;
    long turn;
    for (turn = 0;; turn++) {
        until_refusal = turn;
        status = lupinanon_generate(NULL, plan, 8, &bytes, &len, &left);
        if (until_refusal >= 0) break;
        WANT(status == LUPINANON_OUT_OF_MEMORY && !bytes && !len && !left);
    }
    until_refusal = -1;
    WANT(turn > 0 && status == LUPINANON_ANSWERED && len == 12 && left == 1 && !memcmp(bytes, wanted, 12));
    free(bytes);
    return 1;
}

/* A limit, a value of it that is not the default, and what an input then produces. */
typedef struct Arriving {
    const char *name;
    size_t at, len;
    uint64_t value;
    Bytes input;
    int32_t status;
    Bytes output;
} Arriving;

#define LIMIT(name) #name, offsetof(LupinanonLimits, name), sizeof(((LupinanonLimits *)0)->name)
#define REFUSED(name, value, input, status) {LIMIT(name), value, input, status, {NULL, 0}}
#define MADE(name, value, input, output) {LIMIT(name), value, input, LUPINANON_ANSWERED, output}

/* A module type without what the canonical ABI asks for. Then a declaration, or two: a type without parameters and
 * results, and an import with two empty names, of the first, second or fourth kind of entity. */
#define GLOBAL BYTES(0x02, 0x01, 0x01, 0x63, 0x63, 0x63, 0x01, 0x00, 0x00, 0x00, 0x00)
#define TABLE BYTES(0x02, 0x01, 0x01, 0x63, 0x63, 0x63, 0x01, 0x00, 0x00, 0x00, 0x01)
#define TAG BYTES(0x02, 0x01, 0x01, 0x63, 0x63, 0x63, 0x01, 0x02, 0x00, 0x00, 0x01, 0x00, 0x00, 0x00, 0x03)
/* A core module without types and with a memory; u32 as a type. */
#define MODULE BYTES(0x06, 0x00, 0x01)
#define TYPE BYTES(0x03, 0x01, 0x00, 0x00, 0x06)

/* An enum, a function type with a parameter of it, and an import. */
#define UNNAMED BYTES(0x03, 0x01, 0x00, 0x06, 0x00, 0x00, 0x01, 0x01, 0x01, 0x00, 0x01, 0x00, 0x00, 0x00, 0x04, 0x01)

static const Arriving arriving[] = {
    REFUSED(min_types, 101, TYPE, LUPINANON_INCONSISTENT_LIMITS),
    REFUSED(min_imports, 101, TYPE, LUPINANON_INCONSISTENT_LIMITS),
    REFUSED(min_funcs, 101, TYPE, LUPINANON_INCONSISTENT_LIMITS),
    REFUSED(min_memories, 2, MODULE, LUPINANON_MODULE_REFUSED),
    REFUSED(max_types, 0x100000000, TYPE, LUPINANON_INCONSISTENT_LIMITS),
    REFUSED(max_imports, 0x100000000, TYPE, LUPINANON_INCONSISTENT_LIMITS),
    REFUSED(max_funcs, 0x100000000, TYPE, LUPINANON_INCONSISTENT_LIMITS),
    REFUSED(max_exports, 0x100000000 - 100, TYPE, LUPINANON_INCONSISTENT_LIMITS),
    /* the next kind of entity is imported: a table, a memory, a function */
    MADE(max_globals, 0, GLOBAL,
         BYTES(PREAMBLE, 0x03, 0x0a, 0x01, 0x50, 0x01, 0x00, 0x00, 0x00, 0x01, 0x70, 0x00, 0x00)),
    MADE(max_tables, 0, TABLE, BYTES(PREAMBLE, 0x03, 0x09, 0x01, 0x50, 0x01, 0x00, 0x00, 0x00, 0x02, 0x00, 0x00)),
    MADE(max_tags, 0, TAG,
         BYTES(PREAMBLE, 0x03, 0x0c, 0x01, 0x50, 0x02, 0x01, 0x60, 0x00, 0x00, 0x00, 0x00, 0x00, 0x00, 0x00)),
    /* the byte that asked for a memory is the choice of a custom section */
    MADE(max_memories, 0, MODULE,
         BYTES(PREAMBLE, 0x01, 0x08, 0x00, 0x61, 0x73, 0x6d, 0x01, 0x00, 0x00, 0x00, 0x00, 0x01, 0x00)),
    REFUSED(max_modules, 0x100000000, TYPE, LUPINANON_INCONSISTENT_LIMITS),
    REFUSED(max_components, 0x100000000, TYPE, LUPINANON_INCONSISTENT_LIMITS),
    REFUSED(max_instances, 0x100000000, TYPE, LUPINANON_INCONSISTENT_LIMITS),
    REFUSED(max_nesting_depth, 1001, TYPE, LUPINANON_INCONSISTENT_LIMITS),
    /* no byte chooses the kind of a type without fuel: the next one is a primitive, and then bool */
    MADE(max_type_size, 0, TYPE, BYTES(PREAMBLE, 0x07, 0x02, 0x01, 0x7f)),
    REFUSED(multi_value_enabled, 2, TYPE, LUPINANON_BAD_FLAG),
    REFUSED(exceptions_enabled, 2, TYPE, LUPINANON_BAD_FLAG),
    REFUSED(reference_types_enabled, 2, TYPE, LUPINANON_BAD_FLAG),
    REFUSED(simd_enabled, 2, TYPE, LUPINANON_BAD_FLAG),
    REFUSED(allow_floats, 2, TYPE, LUPINANON_BAD_FLAG),
    REFUSED(bulk_memory_enabled, 2, TYPE, LUPINANON_BAD_FLAG),
    /* a function of an enum that nothing names is not imported */
    MADE(must_validate, 1, UNNAMED,
         BYTES(PREAMBLE, 0x07, 0x0c, 0x02, 0x6d, 0x01, 0x01, 0x61, 0x40, 0x01, 0x01, 0x61, 0x00, 0x01, 0x00, 0x0a, 0x01,
               0x00)),
    /* the byte that would finish the component is the choice of a custom section */
    MADE(finish_after, 1, BYTES(0x00), BYTES(PREAMBLE, 0x00, 0x01, 0x00)),
    REFUSED(max_name_length, 101, TYPE, LUPINANON_INCONSISTENT_LIMITS),
    REFUSED(loop_bits, 9, TYPE, LUPINANON_INCONSISTENT_LIMITS),
};

static void set(LupinanonLimits *limits, const Arriving *it) {
    size_t number = (size_t)it->value;
    uint32_t less = (uint32_t)it->value;
    uint8_t feature = (uint8_t)it->value;
    const void *value = it->len == 1 ? (const void *)&feature : it->len == 4 ? (const void *)&less : &number;
    memcpy((uint8_t *)limits + it->at, value, it->len);
}

static int arrives(const Arriving *it) {
    LupinanonLimits limits;
    uint8_t output[ROOM];
    size_t len, left;
    int32_t status;
    lupinanon_default_limits(&limits, sizeof limits);
    set(&limits, it);
    status = lupinanon_generate_into(&limits, it->input.at, it->input.len, output, sizeof output, &len, &left);
    if (status == it->status && !left && len == it->output.len)
        if (!len || !memcmp(output, it->output.at, len)) return 1;
    printf("checks.c: %s: %s, %zu bytes, %zu left\n", it->name, lupinanon_status_name(status), len, left);
    return 0;
}

/* Each limit arrives, and there is a row for each. */
static int limits_arrive(void) {
    const Arriving *it, *end = arriving + sizeof arriving / sizeof *arriving;
    size_t at = sizeof(size_t), reserved = offsetof(LupinanonLimits, reserved);
    for (it = arriving; it < end; it++) {
        if (at == reserved) at += sizeof(((LupinanonLimits *)0)->reserved);
        WANT(it->at == at);
        if (!arrives(it)) return 0;
        at += it->len;
    }
    WANT(at == reserved || at == sizeof(LupinanonLimits));
    return 1;
}

/* Bytes of limits, from 128 in steps of 7, and one that follows them. */
static const uint8_t front[21] = {128, 135, 142, 149, 156, 163, 170, 177, 184, 191, 198,
                                  205, 212, 219, 226, 233, 240, 247, 254, 5,   3};

static void set_what_stays(LupinanonLimits *limits) {
    lupinanon_default_limits(limits, sizeof *limits);
    limits->min_types = 7;
    limits->min_imports = 6;
    limits->min_funcs = 5;
    limits->min_memories = 4;
    limits->must_validate = 1;
    limits->max_name_length = 3;
    limits->loop_bits = 2;
}

/* The numbers of the first thirteen bytes; by hand. */
static void set_numbers(LupinanonLimits *limits) {
    limits->max_types = 128;
    limits->max_imports = 135;
    limits->max_funcs = 142;
    limits->max_exports = 149;
    limits->max_globals = 156;
    limits->max_tables = 163;
    limits->max_tags = 170;
    limits->max_memories = 1;    /* 177 modulo 16 */
    limits->max_modules = 24;    /* 184 modulo 32 */
    limits->max_components = 31; /* 191 modulo 32 */
    limits->max_instances = 6;   /* 198 modulo 32 */
    limits->max_nesting_depth = 13; /* 205 modulo 16 */
    limits->max_type_size = 212;
}

static int first_bytes_say_limits(void) {
    LupinanonLimits limits, wanted_limits;
    size_t taken = 99;
    set_what_stays(&limits);
    set_what_stays(&wanted_limits);
    set_numbers(&wanted_limits);
    wanted_limits.exceptions_enabled = wanted_limits.simd_enabled = wanted_limits.bulk_memory_enabled = 0;
    wanted_limits.finish_after = 5;
    WANT(lupinanon_swarm_limits(&limits, front, 21, &taken) == LUPINANON_ANSWERED && taken == 20);
    WANT(!memcmp(&limits, &wanted_limits, sizeof limits));
    WANT(lupinanon_swarm_limits(&limits, front, 20, &taken) == LUPINANON_ANSWERED && taken == 20);
    WANT(!memcmp(&limits, &wanted_limits, sizeof limits));
    /* what the input does not have counts as 0 */
    wanted_limits.multi_value_enabled = wanted_limits.reference_types_enabled = wanted_limits.allow_floats = 0;
    wanted_limits.finish_after = 0;
    WANT(lupinanon_swarm_limits(&limits, front, 13, &taken) == LUPINANON_ANSWERED && taken == 13);
    WANT(!memcmp(&limits, &wanted_limits, sizeof limits));
    WANT(lupinanon_swarm_limits(&limits, NULL, 0, &taken) == LUPINANON_ANSWERED && taken == 0);
    WANT(limits.max_types == 0 && limits.max_type_size == 0 && limits.min_types == 7 && limits.must_validate == 1);
    return 1;
}

/* Of an older struct what it has is written, and nothing after it; of a newer one what follows stays 0. */
static int first_bytes_say_limits_of_each_size(void) {
    Overlapping memory;
    union {
        NewerLimits newer;
        uint8_t bytes[ROOM];
    } newer;
    size_t taken, older = offsetof(LupinanonLimits, max_imports);
    memset(&memory, 0xaa, sizeof memory);
    lupinanon_default_limits(&memory.limits, older);
    WANT(lupinanon_swarm_limits(&memory.limits, front, 21, &taken) == LUPINANON_ANSWERED && taken == 20);
    WANT(memory.limits.size == older && memory.limits.max_types == 128 && is_untouched(memory.bytes, older));
    memset(&newer, 0xaa, sizeof newer);
    lupinanon_default_limits(&newer.newer.limits, sizeof(NewerLimits));
    WANT(lupinanon_swarm_limits(&newer.newer.limits, front, 21, &taken) == LUPINANON_ANSWERED && taken == 20);
    WANT(newer.newer.limits.size == sizeof(NewerLimits) && newer.newer.limits.finish_after == 5);
    WANT(newer.newer.max_more == 0 && newer.newer.more_enabled == 0 && is_untouched(newer.bytes, sizeof(NewerLimits)));
    return 1;
}

static int bad_arguments_say_no_limits(void) {
    Overlapping memory;
    LupinanonLimits limits, before;
    uint8_t *at = memory.bytes;
    size_t taken = 99;
    memset(&memory, 0, sizeof memory);
    set_what_stays(&limits);
    before = limits;
    WANT(lupinanon_swarm_limits(NULL, front, 21, &taken) == LUPINANON_BAD_ARGUMENT && taken == 0);
    WANT(lupinanon_swarm_limits(&limits, front, 21, NULL) == LUPINANON_BAD_ARGUMENT);
    WANT(lupinanon_swarm_limits(&limits, NULL, 1, &taken) == LUPINANON_BAD_ARGUMENT);
    WANT(lupinanon_swarm_limits(&limits, front, SIZE_MAX, &taken) == LUPINANON_BAD_ARGUMENT);
    WANT(!memcmp(&limits, &before, sizeof limits));
    limits.simd_enabled = 2;
    before = limits;
    taken = 99;
    WANT(lupinanon_swarm_limits(&limits, front, 21, &taken) == LUPINANON_BAD_FLAG && taken == 0);
    WANT(!memcmp(&limits, &before, sizeof limits));
    set_what_stays(&memory.limits);
    WANT(lupinanon_swarm_limits(&memory.limits, at, 8, &taken) == LUPINANON_BAD_ARGUMENT);
    WANT(lupinanon_swarm_limits(&memory.limits, at + sizeof limits, 8, &taken) == LUPINANON_ANSWERED && taken == 8);
    WANT(lupinanon_swarm_limits(&memory.limits, front, 21, memory.counts + 1) == LUPINANON_BAD_ARGUMENT);
    set_what_stays(&limits);
    WANT(lupinanon_swarm_limits(&limits, at, 21, memory.counts + 2) == LUPINANON_BAD_ARGUMENT);
    set_what_stays(&limits);
    limits.reserved[0] = 1;
    WANT(lupinanon_swarm_limits(&limits, front, 21, &taken) == LUPINANON_BAD_ARGUMENT);
    set_what_stays(&limits);
    limits.size--;
    WANT(lupinanon_swarm_limits(&limits, front, 21, &taken) == LUPINANON_BAD_ARGUMENT && taken == 0);
    return 1;
}

static size_t sum_of(const uint8_t *counters, size_t len) {
    size_t sum = 0;
    while (len) sum += counters[--len];
    return sum;
}

static int features_are_refused(void) {
    LupinanonLimits limits;
    uint8_t counters[64] = {0};
    Overlapping memory;
    lupinanon_default_limits(&limits, sizeof limits);
    WANT(lupinanon_features(NULL, plan, 8, counters, 64) == LUPINANON_BAD_ARGUMENT);
    WANT(lupinanon_features(&limits, NULL, 8, counters, 64) == LUPINANON_BAD_ARGUMENT);
    WANT(lupinanon_features(&limits, plan, 8, NULL, 64) == LUPINANON_BAD_ARGUMENT);
    WANT(lupinanon_features(&limits, plan, 8, counters, SIZE_MAX) == LUPINANON_BAD_ARGUMENT);
    WANT(lupinanon_features(&limits, memory.bytes, 8, memory.bytes + 7, 8) == LUPINANON_BAD_ARGUMENT);
    limits.simd_enabled = 2;
    WANT(lupinanon_features(&limits, plan, 8, counters, 64) == LUPINANON_BAD_FLAG);
    lupinanon_default_limits(&limits, sizeof limits);
    limits.min_types = 101;
    WANT(lupinanon_features(&limits, plan, 8, counters, 64) == LUPINANON_INCONSISTENT_LIMITS);
    WANT(!sum_of(counters, 64));
    return 1;
}

/* The component has one combination: a type that is declared at the root. */
static int features_are_counted(void) {
    LupinanonLimits limits;
    uint8_t counters[64] = {0}, others[64];
    long refused = 0;
    int32_t status;
    lupinanon_default_limits(&limits, sizeof limits);
    WANT(lupinanon_features(&limits, plan, 8, NULL, 0) == LUPINANON_ANSWERED);
    WANT(lupinanon_features(&limits, NULL, 0, counters, 64) == LUPINANON_ANSWERED && !sum_of(counters, 64));
    WANT(lupinanon_features(&limits, plan, 8, counters, 64) == LUPINANON_ANSWERED && sum_of(counters, 64) == 1);
    memset(others, 255, 64);
    WANT(lupinanon_features(&limits, plan, 8, others, 64) == LUPINANON_ANSWERED && sum_of(others, 64) == 64 * 255);
    do {
        until_refusal = refused++;
        memcpy(others, counters, 64);
        status = lupinanon_features(&limits, plan, 8, counters, 64);
        if (until_refusal < 0) WANT(status == LUPINANON_OUT_OF_MEMORY && !memcmp(counters, others, 64));
    } while (until_refusal < 0);
    until_refusal = -1;
    WANT(refused > 1 && status == LUPINANON_ANSWERED && sum_of(counters, 64) == 2);
    WANT(memchr(counters, 2, 64));
    return 1;
}

/* The status of a call, or -1 if it is answered after a refusal, or other than the entry says. */
static int32_t answer(const Entry *entry, const LupinanonLimits *limits) {
    uint8_t output[ROOM];
    size_t len = 99, left = 99;
    int32_t status;
    memset(output, 0xaa, sizeof output);
    status = lupinanon_generate_into(limits, entry->input.at, entry->input.len, output, sizeof output, &len, &left);
    if (status != LUPINANON_ANSWERED) return status;
    if (until_refusal < 0 || len != entry->output.len || left != entry->left) return -1;
    return memcmp(output, entry->output.at, len) || !is_untouched(output, len) ? -1 : status;
}

/* Whether the call is out of memory if only its Nth allocation fails, and is answered if it has fewer. */
static int ends_as_it_should(const Entry *entry, long nth) {
    LupinanonLimits limits;
    int is_met = nth <= entry->growths;
    int32_t status;
    entry->set_limits(&limits);
    until_refusal = nth - 1;
    status = is_met ? refusal(&limits, entry->input.at, entry->input.len) : answer(entry, &limits);
    if (status == (is_met ? LUPINANON_OUT_OF_MEMORY : LUPINANON_ANSWERED)) return 1;
    printf("checks.c: %s: status %d with growth %ld of %ld refused\n", entry->name, (int)status, nth, entry->growths);
    return 0;
}

static int growths_are_refused_in_turn(void) {
    const Entry *entry, *end = entries + sizeof entries / sizeof *entries;
    long nth;
    fill_section();
    for (entry = entries; entry < end; entry++)
        for (nth = 1; nth <= entry->growths + 1; nth++)
            if (!ends_as_it_should(entry, nth)) return 0;
    until_refusal = -1;
    return 1;
}

/* Bytes, what is known of them, and the offset of the entry that breaks a rule. */
typedef struct Judged {
    const char *name;
    Bytes component;
    int32_t status;
    size_t offset;
} Judged;

/* The components of examples/command/judged with these names, and bytes that are not one. */
static const Judged judged[] = {
    {"nothing", BYTES(PREAMBLE), LUPINANON_WELL_FORMED, LUPINANON_NO_OFFSET},
    {"a list of the type before it", BYTES(PREAMBLE, 0x07, 0x04, 0x02, 0x7f, 0x70, 0x00), LUPINANON_WELL_FORMED,
     LUPINANON_NO_OFFSET},
    {"a list of itself", BYTES(PREAMBLE, 0x07, 0x04, 0x02, 0x7f, 0x70, 0x01), LUPINANON_ILL_FORMED, 12},
    {"a result of a type that follows, where there is an error",
     BYTES(PREAMBLE, 0x07, 0x07, 0x03, 0x7f, 0x6a, 0x00, 0x01, 0x02, 0x79), LUPINANON_ILL_FORMED, 12},
    {"an import of an instance, whose type is missing",
     BYTES(PREAMBLE, 0x07, 0x03, 0x01, 0x42, 0x00, 0x0a, 0x06, 0x01, 0x00, 0x01, 0x61, 0x05, 0x01),
     LUPINANON_ILL_FORMED, 16},
    {"a lower of a function that is missing",
     BYTES(PREAMBLE, 0x07, 0x05, 0x01, 0x40, 0x00, 0x00, 0x79, 0x0a, 0x06, 0x01, 0x00, 0x01, 0x66, 0x01, 0x00, 0x08,
           0x05, 0x01, 0x01, 0x00, 0x01, 0x00),
     LUPINANON_ILL_FORMED, 26},
    {"a component that imports a function of a type of the component around it",
     BYTES(PREAMBLE, 0x07, 0x05, 0x01, 0x40, 0x00, 0x00, 0x79, 0x04, 0x10, PREAMBLE, 0x0a, 0x06, 0x01, 0x00, 0x01,
           0x66, 0x01, 0x00),
     LUPINANON_ILL_FORMED, 28},
    {"the preamble of a core module", BYTES(0x00, 0x61, 0x73, 0x6d, 0x01, 0x00, 0x00, 0x00), LUPINANON_UNREAD, 0},
    {"a section without a length", BYTES(PREAMBLE, 0x07), LUPINANON_UNREAD, 9},
};

/* Whether a component is judged as it is said, and if its Nth allocation fails, out of memory. */
static int is_judged(const Judged *it) {
    int32_t status;
    size_t offset;
    long nth;
    for (nth = 0;; nth++) {
        offset = 99;
        until_refusal = nth;
        status = lupinanon_check(it->component.at, it->component.len, &offset);
        if (until_refusal >= 0) break;
        WANT(status == LUPINANON_OUT_OF_MEMORY && offset == LUPINANON_NO_OFFSET);
    }
    until_refusal = -1;
    if (status == it->status && offset == it->offset) return 1;
    printf("checks.c: %s: %s at %zu\n", it->name, lupinanon_status_name(status), offset);
    return 0;
}

static int components_are_judged(void) {
    const Judged *it, *end = judged + sizeof judged / sizeof *judged;
    for (it = judged; it < end; it++)
        if (!is_judged(it)) return 0;
    return 1;
}

/* A component, the limits, and its script, or why there is none and the offset. */
typedef struct Scripted {
    const char *name;
    void (*set_limits)(LupinanonLimits *limits);
    Bytes component;
    int32_t status;
    Bytes script;
    size_t offset;
} Scripted;

static void set_default_limits(LupinanonLimits *limits) { lupinanon_default_limits(limits, sizeof *limits); }

static void set_an_import(LupinanonLimits *limits) {
    lupinanon_default_limits(limits, sizeof *limits);
    limits->min_imports = 1;
}

static void set_too_deep(LupinanonLimits *limits) {
    lupinanon_default_limits(limits, sizeof *limits);
    limits->max_nesting_depth = 1001;
}

static void set_no_flag(LupinanonLimits *limits) {
    lupinanon_default_limits(limits, sizeof *limits);
    limits->simd_enabled = 2;
}

#define SCRIPT(...) LUPINANON_ANSWERED, BYTES(__VA_ARGS__), LUPINANON_NO_OFFSET
#define NONE(status, offset) status, {NULL, 0}, offset
#define ELEVEN_TYPES \
    BYTES(PREAMBLE, 0x07, 0x0c, 0x0b, 0x7f, 0x7f, 0x7f, 0x7f, 0x7f, 0x7f, 0x7f, 0x7f, 0x7f, 0x7f, 0x7f)

/* The rows of crates/smith_rows with these names have the scripts. Eleven types differ from ten in the length of their
 * section, and if an import is missing no component is made. */
static const Scripted scripted[] = {
    {"nothing", set_default_limits, BYTES(PREAMBLE), SCRIPT(0x00)},
    {"one type", set_default_limits, BYTES(PREAMBLE, 0x07, 0x02, 0x01, 0x79),
     SCRIPT(0x03, 0x01, 0x00, 0x00, 0x06, 0x00, 0x00)},
    {"an import, a lower and a lift to the same type", set_small_limits,
     BYTES(PREAMBLE, 0x07, 0x08, 0x01, 0x40, 0x01, 0x01, 0x61, 0x79, 0x00, 0x7f, 0x0a, 0x06, 0x01, 0x00, 0x01, 0x62,
           0x01, 0x00, 0x08, 0x0a, 0x02, 0x01, 0x00, 0x00, 0x00, 0x00, 0x00, 0x00, 0x00, 0x00),
     SCRIPT(0x03, 0x01, 0x01, 0x01, 0x01, 0x00, 0x06, 0x00, 0x01, 0x00, 0x00, 0x04, 0x01, 0x01, 0x01, 0x00, 0x00, 0x05,
            0x01, 0x01, 0x01, 0x01, 0x00, 0x07, 0x01, 0x00, 0x00)},
    {"eleven types where there may be ten", set_small_limits, ELEVEN_TYPES, NONE(LUPINANON_NO_SCRIPT, 9)},
    {"no import where there must be one", set_an_import, BYTES(PREAMBLE),
     NONE(LUPINANON_NO_SCRIPT, LUPINANON_NO_OFFSET)},
    {"a list of itself", set_default_limits, BYTES(PREAMBLE, 0x07, 0x04, 0x02, 0x7f, 0x70, 0x01),
     NONE(LUPINANON_ILL_FORMED, LUPINANON_NO_OFFSET)},
    {"the preamble of a core module", set_default_limits, BYTES(0x00, 0x61, 0x73, 0x6d, 0x01, 0x00, 0x00, 0x00),
     NONE(LUPINANON_UNREAD, 0)},
    {"a section without a length", set_default_limits, BYTES(PREAMBLE, 0x07), NONE(LUPINANON_UNREAD, 9)},
    {"limits that nest too deep", set_too_deep, BYTES(PREAMBLE),
     NONE(LUPINANON_INCONSISTENT_LIMITS, LUPINANON_NO_OFFSET)},
    {"a byte that is no flag", set_no_flag, BYTES(PREAMBLE), NONE(LUPINANON_BAD_FLAG, LUPINANON_NO_OFFSET)},
};

/* Whether a component has the script that is said, and if its Nth allocation fails, out of memory. */
static int has_script(const Scripted *it) {
    LupinanonLimits limits;
    uint8_t output[ROOM];
    size_t len, offset;
    int32_t status;
    long nth;
    it->set_limits(&limits);
    for (nth = 0;; nth++) {
        len = offset = 99;
        memset(output, 0xaa, sizeof output);
        until_refusal = nth;
        status = lupinanon_script_into(&limits, it->component.at, it->component.len, output, sizeof output, &len,
                                       &offset);
        if (until_refusal >= 0) break;
        WANT(status == LUPINANON_OUT_OF_MEMORY && !len && offset == LUPINANON_NO_OFFSET && is_untouched(output, 0));
    }
    until_refusal = -1;
    if (status == it->status && offset == it->offset && len == it->script.len && is_untouched(output, len))
        if (!len || !memcmp(output, it->script.at, len)) return 1;
    printf("checks.c: script of %s: %s at %zu, %zu bytes\n", it->name, lupinanon_status_name(status), offset, len);
    return 0;
}

/* Whether the script of what is generated generates it again, and nothing is left. */
static int is_generated_again(const Entry *entry) {
    LupinanonLimits limits;
    uint8_t script[2 * ROOM], output[ROOM];
    size_t script_len, len, left;
    const Bytes *made = &entry->output;
    entry->set_limits(&limits);
    WANT(!lupinanon_script_into(&limits, made->at, made->len, script, sizeof script, &script_len, NULL));
    WANT(!lupinanon_generate_into(&limits, script, script_len, output, sizeof output, &len, &left));
    return !left && len == made->len && !memcmp(output, made->at, len);
}

static int components_have_scripts(void) {
    const Scripted *it, *end = scripted + sizeof scripted / sizeof *scripted;
    const Entry *entry, *last = entries + sizeof entries / sizeof *entries;
    for (it = scripted; it < end; it++)
        if (!has_script(it)) return 0;
    for (entry = entries; entry < last; entry++) WANT(is_generated_again(entry));
    return 1;
}

int main(void) {
    if (!defaults_are_written() || !the_profile_is_written()) return 1;
    if (!nothing_passes_the_room() || !refusals_have_their_statuses()) return 1;
    if (!bad_arguments_are_refused() || !memory_is_refused_in_turn() || !growths_are_refused_in_turn()) return 1;
    if (!older_structs_are_taken() || !newer_structs_are_taken() || !wrong_sizes_are_refused()) return 1;
    if (!limits_overlap_by_their_size() || !limits_arrive()) return 1;
    if (!features_are_refused() || !features_are_counted()) return 1;
    if (!first_bytes_say_limits() || !first_bytes_say_limits_of_each_size() || !bad_arguments_say_no_limits()) return 1;
    if (!left_may_be_null() || !overlaps_are_refused() || !words_are_right() || !components_are_judged()) return 1;
    if (!bad_arguments_have_no_script() || !overlaps_have_no_script() || !components_have_scripts()) return 1;
    puts("checks: all is as lupinanon.h says");
    return 0;
}
