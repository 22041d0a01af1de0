/* What lupinanon_validate says of bytes, the words of its rules, and each allocation refused in turn.
 * To be linked with -Wl,--wrap=malloc,--wrap=realloc. */
#include "checks.h"

#define MODULE 0x00, 0x61, 0x73, 0x6d, 0x01, 0x00, 0x00, 0x00
#define TEN(byte) byte, byte, byte, byte, byte, byte, byte, byte, byte, byte
#define FIFTY(byte) TEN(byte), TEN(byte), TEN(byte), TEN(byte), TEN(byte)
#define HUNDRED(byte) FIFTY(byte), FIFTY(byte)

/* What bytes are, by which rule and where, and the rule in words. */
typedef struct Row {
    const char *name;
    Bytes bytes;
    int32_t status;
    size_t rule, offset;
    const char *text;
} Row;

#define VALID(name, bytes) {name, bytes, LUPINANON_VALID, LUPINANON_NO_RULE, LUPINANON_NO_OFFSET, "unknown rule"}

/* By hand: the preamble takes eight bytes, and a section's id, length and count one each. */
static const Row rows[] = {
    VALID("nothing", BYTES(PREAMBLE)),
    VALID("a type", BYTES(PREAMBLE, 0x07, 0x02, 0x01, 0x79)),
    VALID("a core module", BYTES(PREAMBLE, 0x01, 0x08, MODULE)),
    {"a list of itself", BYTES(PREAMBLE, 0x07, 0x04, 0x02, 0x7f, 0x70, 0x01), LUPINANON_INVALID, 0, 12,
     "no type has that index"},
    {"a lower of nothing", BYTES(PREAMBLE, 0x08, 0x05, 0x01, 0x01, 0x00, 0x00, 0x00), LUPINANON_INVALID, 1, 11,
     "no function has that index"},
    {"an enum of nothing", BYTES(PREAMBLE, 0x07, 0x03, 0x01, 0x6d, 0x00), LUPINANON_INVALID, 7, 11,
     "there are no members, or too many"},
    {"a function of an enum without a name", BYTES(PREAMBLE, 0x07, 0x0c, 0x02, 0x6d, 0x01, 0x01, 0x61, 0x40, 0x01, 0x01,
     0x61, 0x00, 0x01, 0x00, 0x0a, 0x06, 0x01, 0x00, 0x01, 0x61, 0x01, 0x01), LUPINANON_INVALID, 100, 25,
     "an import or an export is of a type that is not named"},
    {"a memory with its minimum above its maximum", BYTES(PREAMBLE, 0x01, 0x0e, MODULE, 0x05, 0x04, 0x01, 0x01, 0x06,
     0x05), LUPINANON_INVALID, 101, 10, "a core module has a memory with limits that are out of range"},
    {"no bytes", {NULL, 0}, LUPINANON_INVALID, 102, 0, "a preamble is missing"},
    {"section 13", BYTES(PREAMBLE, 0x0d, 0x01, 0x00), LUPINANON_INVALID, 103, 8, "no section has that id"},
    {"more types than bytes", BYTES(PREAMBLE, 0x07, 0x02, 0x04, 0x7f), LUPINANON_INVALID, 105, 12,
     "the count of a list is no number, or more than the bytes behind it"},
    {"a tuple of tuples of a million", BYTES(PREAMBLE, 0x07, 0xb3, 0x02, 0x03, 0x6f, 0x64, HUNDRED(0x79), 0x6f, 0x64,
     HUNDRED(0x00), 0x6f, 0x64, HUNDRED(0x01)), LUPINANON_BOUND, 200, 216,
     "the effective size of a type is 1000000 or more"},
    {"an equal type", BYTES(PREAMBLE, 0x07, 0x02, 0x01, 0x79, 0x0a, 0x07, 0x01, 0x00, 0x01, 0x74, 0x03, 0x00, 0x00),
     LUPINANON_OUTSIDE, 305, 15, "an import is of a type that is equal to another"},
    {"a capital", BYTES(PREAMBLE, 0x07, 0x05, 0x01, 0x6d, 0x01, 0x01, 0x41), LUPINANON_OUTSIDE, 309, 11,
     "a name is not in kebab case"},
    {"a padded length", BYTES(PREAMBLE, 0x07, 0x82, 0x00, 0x01, 0x7f), LUPINANON_OUTSIDE, 401, 9,
     "a number is padded, too great or negative"},
    {"a resource type", BYTES(PREAMBLE, 0x07, 0x02, 0x01, 0x3f), LUPINANON_OUTSIDE, 403, 11,
     "a byte has no meaning here"},
    {"a core module by itself", BYTES(MODULE), LUPINANON_OUTSIDE, 500, 0, "a core module is not judged"},
    {"a concrete reference", BYTES(PREAMBLE, 0x03, 0x06, 0x01, 0x60, 0x01, 0x64, 0x05, 0x00), LUPINANON_OUTSIDE, 501,
     11, "a concrete reference is not judged"},
};

/* Whether the answer is as it is said and, if its Nth allocation fails, out of memory. */
static int is_right(const Row *it) {
    size_t rule, offset;
    int32_t status;
    long nth;
    for (nth = 0;; nth++) {
        rule = offset = 99;
        until_refusal = nth;
        status = lupinanon_validate(it->bytes.at, it->bytes.len, &rule, &offset);
        if (until_refusal >= 0) break;
        WANT(status == LUPINANON_OUT_OF_MEMORY && rule == LUPINANON_NO_RULE && offset == LUPINANON_NO_OFFSET);
    }
    until_refusal = -1;
    if (status == it->status && rule == it->rule && offset == it->offset)
        if (!strcmp(lupinanon_rule_text(rule), it->text)) return 1;
    printf("answers.c: %s: %s, rule %zu (%s) at %zu\n", it->name, lupinanon_status_name(status), rule,
           lupinanon_rule_text(rule), offset);
    return 0;
}

static int bytes_are_answered(void) {
    const Row *it, *end = rows + sizeof rows / sizeof *rows;
    for (it = rows; it < end; it++)
        if (!is_right(it)) return 0;
    return 1;
}

static int bad_arguments_are_refused(void) {
    static const uint8_t padded[] = {PREAMBLE, 0x07, 0x82, 0x00, 0x01, 0x7f};
    size_t rule = 99, offset = 99, numbers[2] = {0, 0};
    const uint8_t *bytes = (const uint8_t *)numbers;
    WANT(lupinanon_validate(NULL, 8, &rule, &offset) == LUPINANON_BAD_ARGUMENT);
    WANT(rule == LUPINANON_NO_RULE && offset == LUPINANON_NO_OFFSET);
    WANT(lupinanon_validate(padded, SIZE_MAX, &rule, &offset) == LUPINANON_BAD_ARGUMENT);
    WANT(lupinanon_validate(padded, sizeof padded, &rule, &rule) == LUPINANON_BAD_ARGUMENT);
    WANT(lupinanon_validate(bytes, 9, &rule, numbers + 1) == LUPINANON_BAD_ARGUMENT);
    WANT(lupinanon_validate(bytes, 9, numbers + 1, &offset) == LUPINANON_BAD_ARGUMENT);
    WANT(lupinanon_validate(padded, sizeof padded, NULL, &offset) == LUPINANON_OUTSIDE && offset == 9);
    WANT(lupinanon_validate(padded, sizeof padded, &rule, NULL) == LUPINANON_OUTSIDE && rule == 401);
    WANT(lupinanon_validate(padded, sizeof padded, NULL, NULL) == LUPINANON_OUTSIDE);
    return 1;
}

static int words_are_right(void) {
    WANT(!strcmp(lupinanon_status_name(LUPINANON_INVALID), "invalid"));
    WANT(!strcmp(lupinanon_status_name(LUPINANON_BOUND), "beyond a bound"));
    WANT(!strcmp(lupinanon_status_name(LUPINANON_OUTSIDE), "not judged"));
    WANT(!strcmp(lupinanon_rule_text(16), "unknown rule"));
    WANT(!strcmp(lupinanon_rule_text(LUPINANON_NO_RULE), "unknown rule"));
    return 1;
}

int main(void) {
    if (!bytes_are_answered() || !bad_arguments_are_refused() || !words_are_right()) return 1;
    puts("answers: all is as lupinanon.h says");
    return 0;
}
