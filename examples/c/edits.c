/* What lupinanon_smaller, lupinanon_next_smaller, lupinanon_without and lupinanon_join write, their statuses, and each
 * allocation refused in turn.
 * To be linked with -Wl,--wrap=malloc,--wrap=realloc. */
#include "checks.h"

#define NOTHING BYTES(PREAMBLE)
#define TYPE BYTES(PREAMBLE, 0x07, 0x02, 0x01, 0x79)
#define NO_TYPE BYTES(PREAMBLE, 0x07, 0x01, 0x00)
#define BOOL BYTES(PREAMBLE, 0x07, 0x02, 0x01, 0x7f)
#define LIST_OF_ITSELF BYTES(PREAMBLE, 0x07, 0x04, 0x02, 0x7f, 0x70, 0x01)
#define CORE_MODULE BYTES(0x00, 0x61, 0x73, 0x6d, 0x01, 0x00, 0x00, 0x00)
/* A function type and an import of it, by the name of a letter. */
#define IMPORT(letter) \
    PREAMBLE, 0x07, 0x05, 0x01, 0x40, 0x00, 0x01, 0x00, 0x0a, 0x06, 0x01, 0x00, 0x01, letter, 0x01, 0x00
#define NONE {NULL, 0}

typedef enum Sort { WITHIN_LIMITS, WITH_A_TYPE, WELL_FORMED, WITHOUT } Sort;

/* A component, which smaller one is asked for, and what is written or why nothing is. */
typedef struct Smaller {
    const char *name;
    Sort sort;
    Bytes component;
    size_t k;
    int32_t status;
    Bytes smaller;
} Smaller;

/* By hand: the items are the section and the type in it, and only the type has a simpler form. */
static const Smaller smaller[] = {
    {"no section", WITHIN_LIMITS, TYPE, 0, LUPINANON_ANSWERED, NOTHING},
    {"no type", WITHIN_LIMITS, TYPE, 1, LUPINANON_ANSWERED, NO_TYPE},
    {"a simpler type", WITHIN_LIMITS, TYPE, 2, LUPINANON_ANSWERED, BOOL},
    {"no fourth", WITHIN_LIMITS, TYPE, 3, LUPINANON_NO_SMALLER, NONE},
    {"a simpler type where there must be one", WITH_A_TYPE, TYPE, 0, LUPINANON_ANSWERED, BOOL},
    {"no second where there must be a type", WITH_A_TYPE, TYPE, 1, LUPINANON_NO_SMALLER, NONE},
    {"whatever the limits", WELL_FORMED, TYPE, 1, LUPINANON_ANSWERED, NO_TYPE},
    {"what is not well formed does not count", WELL_FORMED, LIST_OF_ITSELF, 1, LUPINANON_ANSWERED,
     BYTES(PREAMBLE, 0x07, 0x02, 0x01, 0x7f)},
    {"nothing is no smaller", WELL_FORMED, NOTHING, 0, LUPINANON_NO_SMALLER, NONE},
    {"no component", WITHIN_LIMITS, CORE_MODULE, 0, LUPINANON_UNREAD, NONE},
    {"no component, whatever the limits", WELL_FORMED, CORE_MODULE, 0, LUPINANON_UNREAD, NONE},
    {"without the section", WITHOUT, TYPE, 0, LUPINANON_ANSWERED, NOTHING},
    {"without the type", WITHOUT, TYPE, 1, LUPINANON_ANSWERED, NO_TYPE},
    {"without a third item", WITHOUT, TYPE, 2, LUPINANON_NO_SMALLER, NONE},
    {"without an item of no component", WITHOUT, CORE_MODULE, 0, LUPINANON_UNREAD, NONE},
};

static int32_t call(const Smaller *it, uint8_t *output, size_t room, size_t *len) {
    LupinanonLimits limits;
    const Bytes *of = &it->component;
    lupinanon_default_limits(&limits, sizeof limits);
    limits.min_types = it->sort == WITH_A_TYPE;
    if (it->sort == WITHOUT) return lupinanon_without(of->at, of->len, it->k, output, room, len);
    return lupinanon_smaller(it->sort == WELL_FORMED ? NULL : &limits, of->at, of->len, it->k, output, room, len);
}

/* Whether that many bytes are written, and no others. */
static int is_written(const Bytes *bytes, const uint8_t output[ROOM], size_t len) {
    return len == bytes->len && (!len || !memcmp(output, bytes->at, len)) && is_untouched(output, len);
}

/* Whether what is written is as it is said, with room and without it, and, if its Nth
 * allocation fails, out of memory. */
static int is_right(const Smaller *it) {
    uint8_t output[ROOM];
    size_t len;
    int32_t status;
    long nth;
    for (nth = 0;; nth++) {
        len = 99;
        memset(output, 0xaa, sizeof output);
        until_refusal = nth;
        status = call(it, output, sizeof output, &len);
        if (until_refusal >= 0) break;
        WANT(status == LUPINANON_OUT_OF_MEMORY && !len && is_untouched(output, 0));
    }
    until_refusal = -1;
    if (status != it->status || !is_written(&it->smaller, output, len)) {
        printf("edits.c: %s: %s, %zu bytes\n", it->name, lupinanon_status_name(status), len);
        return 0;
    }
    if (status != LUPINANON_ANSWERED) return 1;
    memset(output, 0xaa, sizeof output);
    WANT(call(it, output, len - 1, &len) == LUPINANON_NO_ROOM && len == it->smaller.len && is_untouched(output, 0));
    return 1;
}

static int components_are_smaller(void) {
    const Smaller *it, *end = smaller + sizeof smaller / sizeof *smaller;
    for (it = smaller; it < end; it++)
        if (!is_right(it)) return 0;
    return 1;
}

/* A component, the step from which a smaller one is looked for, and what is written or why nothing is. */
typedef struct Next {
    const char *name;
    Sort sort;
    Bytes component;
    size_t from;
    int32_t status;
    size_t step;
    Bytes smaller;
} Next;

/* By hand: of the type, steps 0 and 1 remove the items, step 2 would make the section simpler, and step 3 makes the type
 * so. */
static const Next next[] = {
    {"the first step", WITHIN_LIMITS, TYPE, 0, LUPINANON_ANSWERED, 0, NOTHING},
    {"the second one", WITHIN_LIMITS, TYPE, 1, LUPINANON_ANSWERED, 1, NO_TYPE},
    {"a step that leads nowhere", WITHIN_LIMITS, TYPE, 2, LUPINANON_ANSWERED, 3, BOOL},
    {"the last step", WITHIN_LIMITS, TYPE, 3, LUPINANON_ANSWERED, 3, BOOL},
    {"after the last step", WITHIN_LIMITS, TYPE, 4, LUPINANON_NO_SMALLER, 4, NONE},
    {"long after the last step", WITHIN_LIMITS, TYPE, SIZE_MAX, LUPINANON_NO_SMALLER, SIZE_MAX, NONE},
    {"the first step where there must be a type", WITH_A_TYPE, TYPE, 0, LUPINANON_ANSWERED, 3, BOOL},
    {"the second one, whatever the limits", WELL_FORMED, TYPE, 1, LUPINANON_ANSWERED, 1, NO_TYPE},
    {"after the last step, whatever the limits", WELL_FORMED, TYPE, 4, LUPINANON_NO_SMALLER, 4, NONE},
    {"what is not well formed is passed", WELL_FORMED, LIST_OF_ITSELF, 1, LUPINANON_ANSWERED, 2,
     BYTES(PREAMBLE, 0x07, 0x02, 0x01, 0x7f)},
    {"nothing has no steps", WELL_FORMED, NOTHING, 0, LUPINANON_NO_SMALLER, 0, NONE},
    {"no component", WITHIN_LIMITS, CORE_MODULE, 1, LUPINANON_UNREAD, 1, NONE},
    {"no component, whatever the limits", WELL_FORMED, CORE_MODULE, 1, LUPINANON_UNREAD, 1, NONE},
};

static int32_t call_next(const Next *it, size_t *step, uint8_t *output, size_t room, size_t *len) {
    LupinanonLimits limits;
    const Bytes *of = &it->component;
    lupinanon_default_limits(&limits, sizeof limits);
    limits.min_types = it->sort == WITH_A_TYPE;
    *step = it->from;
    return lupinanon_next_smaller(it->sort == WELL_FORMED ? NULL : &limits, of->at, of->len, step, output, room, len);
}

/* The same for a smaller component from a step on. */
static int is_next_right(const Next *it) {
    uint8_t output[ROOM];
    size_t len, step;
    int32_t status;
    long nth;
    for (nth = 0;; nth++) {
        len = 99;
        memset(output, 0xaa, sizeof output);
        until_refusal = nth;
        status = call_next(it, &step, output, sizeof output, &len);
        if (until_refusal >= 0) break;
        WANT(status == LUPINANON_OUT_OF_MEMORY && !len && step == it->from && is_untouched(output, 0));
    }
    until_refusal = -1;
    if (status != it->status || step != it->step || !is_written(&it->smaller, output, len)) {
        printf("edits.c: %s: %s, step %zu, %zu bytes\n", it->name, lupinanon_status_name(status), step, len);
        return 0;
    }
    if (status != LUPINANON_ANSWERED) return 1;
    memset(output, 0xaa, sizeof output);
    WANT(call_next(it, &step, output, len - 1, &len) == LUPINANON_NO_ROOM && len == it->smaller.len && step == it->step);
    WANT(is_untouched(output, 0));
    return 1;
}

static int next_components_are_smaller(void) {
    const Next *it, *end = next + sizeof next / sizeof *next;
    for (it = next; it < end; it++)
        if (!is_next_right(it)) return 0;
    return 1;
}

/* Two components, and the one that they are joined to, or why there is none. */
typedef struct Joined {
    const char *name;
    Bytes first, second;
    int32_t status;
    Bytes joined;
} Joined;

static const Joined joined[] = {
    {"nothing with nothing", NOTHING, NOTHING, LUPINANON_ANSWERED, NOTHING},
    {"a type with nothing", TYPE, NOTHING, LUPINANON_ANSWERED, TYPE},
    {"two types", TYPE, BOOL, LUPINANON_ANSWERED, BYTES(PREAMBLE, 0x07, 0x02, 0x01, 0x79, 0x07, 0x02, 0x01, 0x7f)},
    {"two imports with names of their own", BYTES(IMPORT('a')), BYTES(IMPORT('b')), LUPINANON_ANSWERED,
     BYTES(IMPORT('a'), 0x07, 0x05, 0x01, 0x40, 0x00, 0x01, 0x00, 0x0a, 0x06, 0x01, 0x00, 0x01, 'b', 0x01, 0x01)},
    {"two imports with the same name", BYTES(IMPORT('a')), BYTES(IMPORT('a')), LUPINANON_ANSWERED,
     BYTES(IMPORT('a'), 0x07, 0x05, 0x01, 0x40, 0x00, 0x01, 0x00, 0x0a, 0x07, 0x01, 0x00, 0x02, 'a', '1', 0x01, 0x01)},
    {"the first is no component", CORE_MODULE, TYPE, LUPINANON_UNREAD, NONE},
    {"the second is no component", TYPE, CORE_MODULE, LUPINANON_UNREAD, NONE},
};

static int is_joined(const Joined *it) {
    uint8_t output[ROOM];
    size_t len;
    int32_t status;
    long nth;
    for (nth = 0;; nth++) {
        len = 99;
        memset(output, 0xaa, sizeof output);
        until_refusal = nth;
        status = lupinanon_join(it->first.at, it->first.len, it->second.at, it->second.len, output, sizeof output, &len);
        if (until_refusal >= 0) break;
        WANT(status == LUPINANON_OUT_OF_MEMORY && !len && is_untouched(output, 0));
    }
    until_refusal = -1;
    if (status == it->status && is_written(&it->joined, output, len)) return 1;
    printf("edits.c: %s: %s, %zu bytes\n", it->name, lupinanon_status_name(status), len);
    return 0;
}

static int components_are_joined(void) {
    const Joined *it, *end = joined + sizeof joined / sizeof *joined;
    for (it = joined; it < end; it++)
        if (!is_joined(it)) return 0;
    return 1;
}

static int bad_arguments_are_refused(void) {
    const Bytes type = TYPE;
    LupinanonLimits limits;
    uint8_t output[ROOM];
    size_t len = 99;
    lupinanon_default_limits(&limits, sizeof limits);
    WANT(lupinanon_smaller(&limits, type.at, type.len, 0, output, ROOM, NULL) == LUPINANON_BAD_ARGUMENT);
    WANT(lupinanon_smaller(&limits, NULL, 1, 0, output, ROOM, &len) == LUPINANON_BAD_ARGUMENT && !len);
    WANT(lupinanon_smaller(NULL, NULL, 1, 0, output, ROOM, &len) == LUPINANON_BAD_ARGUMENT && !len);
    WANT(lupinanon_smaller(NULL, type.at, type.len, 0, NULL, 1, &len) == LUPINANON_BAD_ARGUMENT && !len);
    WANT(lupinanon_smaller(NULL, output, ROOM, 0, output, ROOM, &len) == LUPINANON_BAD_ARGUMENT && !len);
    WANT(lupinanon_smaller(&limits, NULL, 0, 0, NULL, 0, &len) == LUPINANON_UNREAD && !len);
    WANT(lupinanon_without(type.at, type.len, 0, output, ROOM, NULL) == LUPINANON_BAD_ARGUMENT);
    WANT(lupinanon_without(NULL, 1, 0, output, ROOM, &len) == LUPINANON_BAD_ARGUMENT && !len);
    WANT(lupinanon_without(output, ROOM, 0, output, ROOM, &len) == LUPINANON_BAD_ARGUMENT && !len);
    WANT(lupinanon_without(NULL, 0, 0, NULL, 0, &len) == LUPINANON_UNREAD && !len);
    WANT(lupinanon_join(type.at, type.len, NULL, 1, output, ROOM, &len) == LUPINANON_BAD_ARGUMENT && !len);
    WANT(lupinanon_join(NULL, 1, type.at, type.len, output, ROOM, &len) == LUPINANON_BAD_ARGUMENT && !len);
    WANT(lupinanon_join(type.at, type.len, output, ROOM, output, ROOM, &len) == LUPINANON_BAD_ARGUMENT && !len);
    WANT(lupinanon_join(type.at, type.len, type.at, type.len, output, ROOM, NULL) == LUPINANON_BAD_ARGUMENT);
    limits.max_nesting_depth = 1001;
    WANT(lupinanon_smaller(&limits, type.at, type.len, 0, output, ROOM, &len) == LUPINANON_INCONSISTENT_LIMITS && !len);
    lupinanon_default_limits(&limits, sizeof limits);
    limits.simd_enabled = 2;
    WANT(lupinanon_smaller(&limits, type.at, type.len, 0, output, ROOM, &len) == LUPINANON_BAD_FLAG && !len);
    return 1;
}

static int bad_arguments_of_steps_are_refused(void) {
    const Bytes type = TYPE;
    LupinanonLimits limits;
    uint8_t output[ROOM];
    size_t len = 99, step = 5, numbers[2] = {0, 0};
    uint8_t *bytes = (uint8_t *)numbers;
    lupinanon_default_limits(&limits, sizeof limits);
    WANT(lupinanon_next_smaller(&limits, type.at, type.len, &step, output, ROOM, NULL) == LUPINANON_BAD_ARGUMENT);
    WANT(lupinanon_next_smaller(&limits, type.at, type.len, NULL, output, ROOM, &len) == LUPINANON_BAD_ARGUMENT && !len);
    WANT(lupinanon_next_smaller(NULL, type.at, type.len, &len, output, ROOM, &len) == LUPINANON_BAD_ARGUMENT && !len);
    WANT(lupinanon_next_smaller(NULL, type.at, type.len, numbers, bytes, 16, &len) == LUPINANON_BAD_ARGUMENT && !len);
    WANT(lupinanon_next_smaller(NULL, bytes, 16, numbers + 1, output, ROOM, &len) == LUPINANON_BAD_ARGUMENT && !len);
    WANT(lupinanon_next_smaller(&limits, bytes, 16, numbers, output, ROOM, &len) == LUPINANON_BAD_ARGUMENT && !len);
    WANT(lupinanon_next_smaller(&limits, NULL, 1, &step, output, ROOM, &len) == LUPINANON_BAD_ARGUMENT && !len);
    WANT(lupinanon_next_smaller(NULL, type.at, type.len, &step, NULL, 1, &len) == LUPINANON_BAD_ARGUMENT && !len);
    WANT(lupinanon_next_smaller(&limits, NULL, 0, &step, NULL, 0, &len) == LUPINANON_UNREAD && !len);
    limits.max_nesting_depth = 1001;
    WANT(lupinanon_next_smaller(&limits, type.at, type.len, &step, output, ROOM, &len) == LUPINANON_INCONSISTENT_LIMITS);
    lupinanon_default_limits(&limits, sizeof limits);
    limits.simd_enabled = 2;
    WANT(lupinanon_next_smaller(&limits, type.at, type.len, &step, output, ROOM, &len) == LUPINANON_BAD_FLAG && !len);
    WANT(step == 5 && !numbers[0] && !numbers[1]);
    return 1;
}

int main(void) {
    if (!components_are_smaller() || !next_components_are_smaller() || !components_are_joined()) return 1;
    if (!bad_arguments_are_refused() || !bad_arguments_of_steps_are_refused()) return 1;
    puts("edits: all is as lupinanon.h says");
    return 0;
}
