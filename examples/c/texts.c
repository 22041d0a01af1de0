/* What lupinanon_print writes, its statuses, and each allocation refused in turn.
 * To be linked with -Wl,--wrap=malloc,--wrap=realloc. */
#include "checks.h"

#define CORE_MODULE 0x00, 0x61, 0x73, 0x6d, 0x01, 0x00, 0x00, 0x00
#define TYPE BYTES(PREAMBLE, 0x07, 0x02, 0x01, 0x79)

static const char text_of_type[] = "(component\n  (type (;0;) u32)\n)\n";

/* A component, and its text, or why there is none. */
typedef struct Text {
    const char *name;
    Bytes component;
    int32_t status;
    const char *text;
} Text;

/* By hand, from the text format. The last core modules have a section of functions, which has none. */
static const Text texts[] = {
    {"nothing", BYTES(PREAMBLE), LUPINANON_ANSWERED, "(component)\n"},
    {"a type", TYPE, LUPINANON_ANSWERED, text_of_type},
    {"a list of itself", BYTES(PREAMBLE, 0x07, 0x04, 0x02, 0x7f, 0x70, 0x01), LUPINANON_ANSWERED,
     "(component\n  (type (;0;) bool)\n  (type (;1;) (list 1))\n)\n"},
    {"a name", BYTES(PREAMBLE, 0x00, 0x05, 0x02, 0x22, 0x0a, 0x41, 0x00), LUPINANON_ANSWERED,
     "(component\n  (@custom \"\\22\\0a\" \"A\\00\")\n)\n"},
    {"a core module in a component", BYTES(PREAMBLE, 0x04, 0x12, PREAMBLE, 0x01, 0x08, CORE_MODULE), LUPINANON_ANSWERED,
     "(component\n  (component (;0;)\n    (core module (;0;))\n  )\n)\n"},
    {"a core module of another sort", BYTES(PREAMBLE, 0x01, 0x0b, CORE_MODULE, 0x03, 0x01, 0x00), LUPINANON_NO_TEXT, ""},
    {"the same in a component", BYTES(PREAMBLE, 0x04, 0x15, PREAMBLE, 0x01, 0x0b, CORE_MODULE, 0x03, 0x01, 0x00),
     LUPINANON_NO_TEXT, ""},
    {"a core module alone", BYTES(CORE_MODULE), LUPINANON_UNREAD, ""},
    {"a section without a length", BYTES(PREAMBLE, 0x07), LUPINANON_UNREAD, ""},
    {"no bytes", {NULL, 0}, LUPINANON_UNREAD, ""},
};

static int32_t call(const Text *it, uint8_t *output, size_t room, size_t *len) {
    *len = 99;
    memset(output, 0xaa, ROOM);
    return lupinanon_print(it->component.at, it->component.len, output, room, len);
}

/* Whether a component has the text that is said, and if its Nth allocation fails, out of memory. */
static int has_text(const Text *it) {
    uint8_t output[ROOM];
    size_t len, wanted = strlen(it->text);
    int32_t status;
    long nth;
    for (nth = 0;; nth++) {
        until_refusal = nth;
        status = call(it, output, sizeof output, &len);
        if (until_refusal >= 0) break;
        WANT(status == LUPINANON_OUT_OF_MEMORY && !len && is_untouched(output, 0));
    }
    until_refusal = -1;
    if (status != it->status || len != wanted || memcmp(output, it->text, len) || !is_untouched(output, len)) {
        printf("texts.c: %s: %s, %zu bytes\n", it->name, lupinanon_status_name(status), len);
        return 0;
    }
    if (status != LUPINANON_ANSWERED) return 1;
    WANT(call(it, output, len, &len) == LUPINANON_ANSWERED && len == wanted && is_untouched(output, len));
    WANT(call(it, output, wanted - 1, &len) == LUPINANON_NO_ROOM && len == wanted && is_untouched(output, 0));
    return 1;
}

static int components_have_texts(void) {
    const Text *it, *end = texts + sizeof texts / sizeof *texts;
    for (it = texts; it < end; it++)
        if (!has_text(it)) return 0;
    return 1;
}

static int bad_arguments_are_refused(void) {
    const Bytes type = TYPE;
    uint8_t output[ROOM];
    size_t len = 99, numbers[2] = {0, 0};
    uint8_t *bytes = (uint8_t *)numbers;
    WANT(lupinanon_print(type.at, type.len, output, ROOM, NULL) == LUPINANON_BAD_ARGUMENT);
    WANT(lupinanon_print(NULL, 1, output, ROOM, &len) == LUPINANON_BAD_ARGUMENT && !len);
    WANT(lupinanon_print(type.at, type.len, NULL, 1, &len) == LUPINANON_BAD_ARGUMENT && !len);
    WANT(lupinanon_print(type.at, SIZE_MAX, output, ROOM, &len) == LUPINANON_BAD_ARGUMENT && !len);
    WANT(lupinanon_print(type.at, type.len, output, SIZE_MAX, &len) == LUPINANON_BAD_ARGUMENT && !len);
    WANT(lupinanon_print(output, ROOM, output + ROOM - 1, 1, &len) == LUPINANON_BAD_ARGUMENT && !len);
    WANT(lupinanon_print(bytes, 16, output, ROOM, numbers + 1) == LUPINANON_BAD_ARGUMENT);
    WANT(lupinanon_print(type.at, type.len, bytes, 16, numbers) == LUPINANON_BAD_ARGUMENT);
    WANT(lupinanon_print(NULL, 0, NULL, 0, &len) == LUPINANON_UNREAD && !len);
    WANT(lupinanon_print(type.at, type.len, NULL, 0, &len) == LUPINANON_NO_ROOM && len == strlen(text_of_type));
    return 1;
}

int main(void) {
    if (!components_have_texts() || !bad_arguments_are_refused()) return 1;
    puts("texts: all is as lupinanon.h says");
    return 0;
}
