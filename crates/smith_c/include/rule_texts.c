/* The rules of lupinanon_validate in words. */
#include "lupinanon.h"

typedef struct RuleText {
    size_t number;
    const char *text;
} RuleText;

/* `examples/rules --write` writes them. */
static const RuleText rule_texts[] = {
    {0, "no type has that index"},
    {1, "no function has that index"},
    {2, "the type is of another sort"},
    {3, "the type of a value is no type of values"},
    {4, "an outer alias names nothing"},
    {5, "an import is of a type that is equal to another"},
    {6, "an instance type has imports"},
    {7, "there are no members, or too many"},
    {8, "a function has more than 16 parameters"},
    {9, "a name is not in kebab case"},
    {10, "a name is used twice"},
    {11, "a tag has results"},
    {12, "a memory is shared, of 64 bits or out of bounds"},
    {13, "a table is of another type, of 64 bits or out of bounds"},
    {14, "a function that does not flatten is lowered"},
    {15, "a lift does not flatten to the type of what it lifts"},
    {100, "an import or an export is of a type that is not named"},
    {101, "a core module has a memory with limits that are out of range"},
    {102, "a preamble is missing"},
    {103, "no section has that id"},
    {104, "the length of a section is no number, or more than the bytes behind it"},
    {105, "the count of a list is no number, or more than the bytes behind it"},
    {200, "the effective size of a type is 1000000 or more"},
    {201, "there are too many entries of one sort"},
    {202, "a core module has, or a module type imports, more than 100 memories"},
    {203, "a module type imports more than 100 tables"},
    {204, "a name, a core function type or a module type is too long"},
    {205, "a core module has too many types, or one that is too long"},
    {300, "no type has that index"},
    {301, "no function has that index"},
    {302, "the type is of another sort"},
    {303, "the type of a value is no type of values"},
    {304, "an outer alias names nothing"},
    {305, "an import is of a type that is equal to another"},
    {306, "an instance type has imports"},
    {307, "there are no members, or too many"},
    {308, "a function has more than 16 parameters"},
    {309, "a name is not in kebab case"},
    {310, "a name is used twice"},
    {311, "a tag has results"},
    {312, "a memory is shared, of 64 bits or out of bounds"},
    {313, "a table is of another type, of 64 bits or out of bounds"},
    {314, "a function that does not flatten is lowered"},
    {315, "a lift does not flatten to the type of what it lifts"},
    {400, "the bytes end too soon"},
    {401, "a number is padded, too great or negative"},
    {402, "a name is not UTF-8"},
    {403, "a byte has no meaning here"},
    {404, "a preamble is missing"},
    {405, "Lupinanon has no such section"},
    {406, "Lupinanon has no canonical options"},
    {407, "bytes are left over"},
    {408, "scopes are nested too deep"},
    {500, "a core module is not judged"},
    {501, "a concrete reference is not judged"},
};

const char *lupinanon_rule_text(size_t rule) {
    const RuleText *it, *end = rule_texts + sizeof rule_texts / sizeof *rule_texts;
    for (it = rule_texts; it < end; it++)
        if (it->number == rule) return it->text;
    return "unknown rule";
}
