/* dictionary: prints words for inputs of the target, as libFuzzer and AFL++ read them. Each is what the input of a
 * component has more if there is one more section, or one more type, and is found by the scripts of both. They are words
 * of the first sections, after which an input may not finish the component yet. */
#include "input_limits.h"
#include <stdio.h>
#include <string.h>

struct Bytes {
    const char *at;
    size_t len;
};

/* A component without something and with it, as the bytes of its sections, and how many bytes of a script follow it. */
struct Word {
    const char *name;
    size_t after;
    struct Bytes without, with;
};

/* Eight sections without types, each with a script of two bytes: as many sections as a component has at least. */
#define EMPTY "\x07\x01\x00\x07\x01\x00\x07\x01\x00\x07\x01\x00"
#define LAST EMPTY EMPTY

/* After them a script has a byte, and after the last type of a section one more. */
enum { AFTER_SECTION = 2 * 8 + 1, AFTER_TYPE, ROOM = 256 };

#define BYTES(text) {text, sizeof(text) - 1}
#define SECTION(name, before, section) {name, AFTER_SECTION, BYTES(before LAST), BYTES(before section LAST)}
#define TYPE(name, len, type) {name, AFTER_TYPE, BYTES("\x07\x02\x01\x7f" LAST), BYTES("\x07" len "\x02\x7f" type LAST)}

#define FUNCTION "\x07\x05\x01\x40\x00\x00\x79"
#define IMPORT FUNCTION "\x0a\x06\x01\x00\x01" "a\x01\x00"
#define LOWER IMPORT "\x08\x05\x01\x01\x00\x00\x00"

static const struct Word words[] = {
    SECTION("custom", "", "\x00\x02\x01" "a"),
    SECTION("module", "", "\x01\x08\x00" "asm\x01\x00\x00\x00"),
    SECTION("core_function_type", "", "\x03\x04\x01\x60\x00\x00"),
    SECTION("module_type", "", "\x03\x03\x01\x50\x00"),
    SECTION("component", "", "\x04\x20\x00" "asm\x0d\x00\x01\x00" LAST),
    SECTION("types", "", FUNCTION),
    SECTION("import", FUNCTION, "\x0a\x06\x01\x00\x01" "a\x01\x00"),
    SECTION("lower", IMPORT, "\x08\x05\x01\x01\x00\x00\x00"),
    SECTION("lift", LOWER, "\x08\x06\x01\x00\x00\x00\x00\x00"),
    SECTION("export", IMPORT, "\x0b\x07\x01\x00\x01" "a\x01\x00\x00"),
    TYPE("u32", "\x03", "\x79"),
    TYPE("string", "\x03", "\x73"),
    TYPE("record", "\x07", "\x72\x01\x01" "a\x7f"),
    TYPE("variant", "\x08", "\x71\x01\x01" "a\x00\x00"),
    TYPE("list", "\x04", "\x70\x7f"),
    TYPE("tuple", "\x05", "\x6f\x01\x7f"),
    TYPE("flags", "\x06", "\x6e\x01\x01" "a"),
    TYPE("enum", "\x06", "\x6d\x01\x01" "a"),
    TYPE("option", "\x04", "\x6b\x7f"),
    TYPE("result", "\x05", "\x6a\x00\x00"),
    TYPE("function", "\x09", "\x40\x01\x01" "a\x7f\x00\x7f"),
    TYPE("component_type", "\x04", "\x41\x00"),
    TYPE("instance_type", "\x04", "\x42\x00"),
};

/* Writes the script of a component of these sections, within the limits of the target, and returns its length or 0. */
static size_t script_of(struct Bytes sections, uint8_t script[ROOM]) {
    uint8_t component[ROOM] = {0x00, 0x61, 0x73, 0x6d, 0x0d, 0x00, 0x01, 0x00};
    LupinanonLimits limits;
    size_t len;
    lupinanon_fuzz_limits(&limits, sizeof limits);
    limits.must_validate = MUST_VALIDATE;
    memcpy(component + 8, sections.at, sections.len);
    return lupinanon_script_into(&limits, component, 8 + sections.len, script, ROOM, &len, NULL) ? 0 : len;
}

/* Prints a word, and returns whether both components have a script. */
static int print_word(const struct Word *word) {
    uint8_t without[ROOM], with[ROOM];
    size_t at = script_of(word->without, without), end = script_of(word->with, with);
    if (!at || end <= at) return 0;
    printf("%s=\"", word->name);
    for (at -= word->after; at < end - word->after; at++) printf("\\x%02x", with[at]);
    printf("\"\n");
    return 1;
}

int main(void) {
    size_t place;
    for (place = 0; place < sizeof words / sizeof *words; place++) {
        if (!print_word(&words[place])) {
            fprintf(stderr, "dictionary: no script with: %s\n", words[place].name);
            return 1;
        }
    }
    return fflush(stdout) ? 1 : 0;
}
