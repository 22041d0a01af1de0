/* What lupinanon_change_count, lupinanon_changed, lupinanon_next_changed and lupinanon_next_miswritten write, their
 * statuses, and each allocation refused in turn.
 * To be linked with -Wl,--wrap=malloc,--wrap=realloc. */
#include "checks.h"

/* Types 0 and 1: `bool`, and a list of type 0. */
#define LIST_OF(index) BYTES(PREAMBLE, 0x07, 0x04, 0x02, 0x7f, 0x70, index)
#define OPTION BYTES(PREAMBLE, 0x07, 0x04, 0x02, 0x7f, 0x6b, 0x00)
#define NOTHING BYTES(PREAMBLE)
#define CORE_MODULE BYTES(0x00, 0x61, 0x73, 0x6d, 0x01, 0x00, 0x00, 0x00)
#define NONE {NULL, 0}

/* The number in lupinanon.h of the rule that no type has an index. */
enum { NO_TYPE = 0 };

/* A component, a change, and what is written or why nothing is. */
typedef struct Change {
    const char *name;
    Bytes component;
    size_t number;
    int32_t status;
    Bytes changed;
    int32_t answer;
    size_t rule, offset;
} Change;

/* By hand: the places are the section, type 0 and what it is, type 1, that it is a list, and of what. */
static const Change changes[] = {
    {"the index after", LIST_OF(0), 81, LUPINANON_ANSWERED, LIST_OF(1), LUPINANON_INVALID, NO_TYPE, 12},
    {"an option", LIST_OF(0), 64, LUPINANON_ANSWERED, OPTION, LUPINANON_VALID, LUPINANON_NO_RULE, LUPINANON_NO_OFFSET},
    {"no section", LIST_OF(0), 0, LUPINANON_ANSWERED, NOTHING, LUPINANON_VALID, LUPINANON_NO_RULE, LUPINANON_NO_OFFSET},
    {"no index below 0", LIST_OF(0), 80, LUPINANON_NO_CHANGE, NONE, LUPINANON_OUTSIDE, LUPINANON_NO_RULE,
     LUPINANON_NO_OFFSET},
    {"what is there", LIST_OF(0), 83, LUPINANON_NO_CHANGE, NONE, LUPINANON_OUTSIDE, LUPINANON_NO_RULE,
     LUPINANON_NO_OFFSET},
    {"no such place", LIST_OF(0), 96, LUPINANON_NO_CHANGE, NONE, LUPINANON_OUTSIDE, LUPINANON_NO_RULE,
     LUPINANON_NO_OFFSET},
    {"no component", CORE_MODULE, 0, LUPINANON_UNREAD, NONE, LUPINANON_OUTSIDE, LUPINANON_NO_RULE, LUPINANON_NO_OFFSET},
};

/* What a call writes beside the component. */
typedef struct Told {
    size_t len, rule, offset;
    int32_t answer;
} Told;

static int32_t call(const Change *it, uint8_t *output, size_t room, Told *told) {
    const Bytes *of = &it->component;
    return lupinanon_changed(of->at, of->len, it->number, output, room, &told->len, &told->answer, &told->rule,
                             &told->offset);
}

/* Whether that many bytes are written, and no others. */
static int is_written(const Bytes *bytes, const uint8_t output[ROOM], size_t len) {
    return len == bytes->len && (!len || !memcmp(output, bytes->at, len)) && is_untouched(output, len);
}

/* Whether a call whose Nth allocation fails is out of memory, or else what it says of the component. */
static int is_out_of_memory(int32_t status, const Told *told) {
    if (status == LUPINANON_ANSWERED) return told->answer == LUPINANON_OUT_OF_MEMORY;
    return status == LUPINANON_OUT_OF_MEMORY && !told->len;
}

static int is_right(const Change *it) {
    uint8_t output[ROOM];
    Told told;
    int32_t status;
    long nth;
    for (nth = 0;; nth++) {
        memset(output, 0xaa, sizeof output);
        until_refusal = nth;
        status = call(it, output, sizeof output, &told);
        if (until_refusal >= 0) break;
        WANT(is_out_of_memory(status, &told));
    }
    until_refusal = -1;
    if (status != it->status || !is_written(&it->changed, output, told.len) || told.answer != it->answer ||
        told.rule != it->rule || told.offset != it->offset) {
        printf("changes.c: %s: %s, %zu bytes, %s\n", it->name, lupinanon_status_name(status), told.len,
               lupinanon_status_name(told.answer));
        return 0;
    }
    if (status != LUPINANON_ANSWERED) return 1;
    memset(output, 0xaa, sizeof output);
    WANT(call(it, output, told.len - 1, &told) == LUPINANON_NO_ROOM && told.len == it->changed.len);
    WANT(is_untouched(output, 0) && told.answer == LUPINANON_OUTSIDE && told.rule == LUPINANON_NO_RULE);
    return 1;
}

static int components_are_changed(void) {
    const Change *it, *end = changes + sizeof changes / sizeof *changes;
    for (it = changes; it < end; it++)
        if (!is_right(it)) return 0;
    return 1;
}

typedef int32_t Seek(const uint8_t *bytes, size_t bytes_len, size_t *number, uint8_t *output, size_t output_len,
                     size_t *len);

/* Bytes, the number from which others are looked for, and what is written or why nothing is. */
typedef struct Next {
    const char *name;
    Seek *seek;
    Bytes bytes;
    size_t from;
    int32_t status;
    size_t number;
    Bytes found;
} Next;

/* By hand: of the component with an empty section of types, the cut after 8 bytes is a component; after the cuts come
 * the section's length, its id and its count, and the preamble. */
#define EMPTY BYTES(PREAMBLE, 0x07, 0x01, 0x00)

static const Next next[] = {
    {"a change", lupinanon_next_changed, LIST_OF(0), 65, LUPINANON_ANSWERED, 81, LIST_OF(1)},
    {"the same change", lupinanon_next_changed, LIST_OF(0), 81, LUPINANON_ANSWERED, 81, LIST_OF(1)},
    {"after the last change", lupinanon_next_changed, LIST_OF(0), 86, LUPINANON_NO_CHANGE, 86, NONE},
    {"long after it", lupinanon_next_changed, LIST_OF(0), SIZE_MAX, LUPINANON_NO_CHANGE, SIZE_MAX, NONE},
    {"nothing has no changes", lupinanon_next_changed, NOTHING, 0, LUPINANON_NO_CHANGE, 0, NONE},
    {"no component", lupinanon_next_changed, CORE_MODULE, 1, LUPINANON_UNREAD, 1, NONE},
    {"no preamble", lupinanon_next_miswritten, EMPTY, 0, LUPINANON_ANSWERED, 0, NONE},
    {"no length", lupinanon_next_miswritten, EMPTY, 8, LUPINANON_ANSWERED, 9, BYTES(PREAMBLE, 0x07)},
    {"no contents", lupinanon_next_miswritten, EMPTY, 10, LUPINANON_ANSWERED, 10, BYTES(PREAMBLE, 0x07, 0x01)},
    {"a longer section", lupinanon_next_miswritten, EMPTY, 11, LUPINANON_ANSWERED, 11,
     BYTES(PREAMBLE, 0x07, 0x02, 0x00)},
    {"a shorter section", lupinanon_next_miswritten, EMPTY, 12, LUPINANON_ANSWERED, 12,
     BYTES(PREAMBLE, 0x07, 0x00, 0x00)},
    {"an unknown section", lupinanon_next_miswritten, EMPTY, 13, LUPINANON_ANSWERED, 13,
     BYTES(PREAMBLE, 0x0d, 0x01, 0x00)},
    {"too many entries", lupinanon_next_miswritten, EMPTY, 14, LUPINANON_ANSWERED, 14,
     BYTES(PREAMBLE, 0x07, 0x01, 0xff, 0xff, 0xff, 0xff, 0x0f)},
    {"another preamble", lupinanon_next_miswritten, EMPTY, 15, LUPINANON_ANSWERED, 15,
     BYTES(0x01, 0x61, 0x73, 0x6d, 0x0d, 0x00, 0x01, 0x00, 0x07, 0x01, 0x00)},
    {"after the last one", lupinanon_next_miswritten, EMPTY, 23, LUPINANON_NO_CHANGE, 23, NONE},
    {"no bytes", lupinanon_next_miswritten, NONE, 0, LUPINANON_NO_CHANGE, 0, NONE},
};

static int is_next_right(const Next *it) {
    uint8_t output[ROOM];
    size_t len, number;
    int32_t status;
    long nth;
    for (nth = 0;; nth++) {
        len = 99;
        number = it->from;
        memset(output, 0xaa, sizeof output);
        until_refusal = nth;
        status = it->seek(it->bytes.at, it->bytes.len, &number, output, sizeof output, &len);
        if (until_refusal >= 0) break;
        WANT(status == LUPINANON_OUT_OF_MEMORY && !len && number == it->from && is_untouched(output, 0));
    }
    until_refusal = -1;
    if (status != it->status || number != it->number || !is_written(&it->found, output, len)) {
        printf("changes.c: %s: %s, %zu, %zu bytes\n", it->name, lupinanon_status_name(status), number, len);
        return 0;
    }
    if (status != LUPINANON_ANSWERED || !len) return 1;
    number = it->from;
    memset(output, 0xaa, sizeof output);
    WANT(it->seek(it->bytes.at, it->bytes.len, &number, output, len - 1, &len) == LUPINANON_NO_ROOM);
    WANT(len == it->found.len && number == it->number && is_untouched(output, 0));
    return 1;
}

static int next_bytes_are_found(void) {
    const Next *it, *end = next + sizeof next / sizeof *next;
    for (it = next; it < end; it++)
        if (!is_next_right(it)) return 0;
    return 1;
}

static int changes_are_counted(void) {
    const Bytes list = LIST_OF(0), other = CORE_MODULE;
    size_t count = 99;
    WANT(lupinanon_change_count(list.at, list.len, &count) == LUPINANON_ANSWERED && count == 96);
    WANT(lupinanon_change_count(other.at, other.len, &count) == LUPINANON_UNREAD && !count);
    WANT(lupinanon_change_count(NULL, 0, &count) == LUPINANON_UNREAD && !count);
    WANT(lupinanon_change_count(NULL, 1, &count) == LUPINANON_BAD_ARGUMENT && !count);
    WANT(lupinanon_change_count(list.at, list.len, NULL) == LUPINANON_BAD_ARGUMENT);
    return 1;
}

static int bad_arguments_are_refused(void) {
    const Bytes list = LIST_OF(0);
    uint8_t output[ROOM];
    size_t len = 99, number = 5, numbers[2] = {0, 0};
    uint8_t *bytes = (uint8_t *)numbers;
    Seek *seeks[2] = {lupinanon_next_changed, lupinanon_next_miswritten}, **seek;
    for (seek = seeks; seek < seeks + 2; seek++) {
        WANT((*seek)(list.at, list.len, &number, output, ROOM, NULL) == LUPINANON_BAD_ARGUMENT);
        WANT((*seek)(list.at, list.len, NULL, output, ROOM, &len) == LUPINANON_BAD_ARGUMENT && !len);
        WANT((*seek)(list.at, list.len, &len, output, ROOM, &len) == LUPINANON_BAD_ARGUMENT && !len);
        WANT((*seek)(list.at, list.len, numbers, bytes, 16, &len) == LUPINANON_BAD_ARGUMENT && !len);
        WANT((*seek)(bytes, 16, numbers, output, ROOM, &len) == LUPINANON_BAD_ARGUMENT && !len);
        WANT((*seek)(NULL, 1, &number, output, ROOM, &len) == LUPINANON_BAD_ARGUMENT && !len);
        WANT((*seek)(list.at, list.len, &number, NULL, 1, &len) == LUPINANON_BAD_ARGUMENT && !len);
    }
    WANT(lupinanon_changed(list.at, list.len, 64, output, ROOM, NULL, NULL, NULL, NULL) == LUPINANON_BAD_ARGUMENT);
    WANT(lupinanon_changed(NULL, 1, 64, output, ROOM, &len, NULL, NULL, NULL) == LUPINANON_BAD_ARGUMENT && !len);
    WANT(lupinanon_changed(list.at, list.len, 64, NULL, 1, &len, NULL, NULL, NULL) == LUPINANON_BAD_ARGUMENT);
    WANT(lupinanon_changed(list.at, list.len, 64, output, ROOM, &len, NULL, &len, NULL) == LUPINANON_BAD_ARGUMENT);
    WANT(lupinanon_changed(list.at, list.len, 64, output, ROOM, &len, NULL, NULL, NULL) == LUPINANON_ANSWERED);
    WANT(len == 14 && number == 5 && !numbers[0] && !numbers[1]);
    return 1;
}

int main(void) {
    if (!components_are_changed() || !next_bytes_are_found() || !changes_are_counted()) return 1;
    if (!bad_arguments_are_refused()) return 1;
    puts("changes: all is as lupinanon.h says");
    return 0;
}
