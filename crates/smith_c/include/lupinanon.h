/* WebAssembly components from a fuzzer's bytes.
 *
 * Nineteen functions are proved: those that lupinanon_default_limits, lupinanon_fuzz_limits, lupinanon_swarm_limits,
 * lupinanon_generate_into, lupinanon_features, lupinanon_check, lupinanon_validate, lupinanon_print, lupinanon_script_into,
 * lupinanon_smaller, lupinanon_next_smaller, lupinanon_without, lupinanon_join, lupinanon_change_count,
 * lupinanon_changed, lupinanon_next_changed and lupinanon_next_miswritten call after a check of their arguments. That
 * check, and all else, is plain C, with what takes memory for them: from malloc, or from what the caller lends.
 *
 * What the caller owes, and nothing checks:
 *  - A pointer that is not NULL points to what its type says, and a length says how much lies there. Limits are as many
 *    bytes as their size says.
 *  - `output` may hold anything. What else is passed is not written elsewhere while a call runs.
 *  - malloc, realloc and free come from one allocator, and a block is aligned to each power of two up to 16 that
 *    divides its size. A hook or a signal handler that runs inside a call touches nothing of what is passed.
 *  - No call is made from a signal handler, or in the forked child of a process with threads, and none is left by
 *    longjmp.
 *  - The stack has room for LUPINANON_STACK, which is measured and not proved.
 *
 * The library keeps no state between calls, so calls in several threads at once are fine if each has its own output and
 * its own lent memory.
 * It is built for 64 bits.
 */
#ifndef LUPINANON_H
#define LUPINANON_H

#include <stddef.h>
#include <stdint.h>
#include <stdlib.h>

#ifdef __cplusplus
extern "C" {
#endif

/* The version of this header and of the library that it belongs to. */
#define LUPINANON_VERSION "0.1.0"
#define LUPINANON_VERSION_NUMBER 100 /* 10000 * major + 100 * minor + patch */

/* The limits of what is made. A minimum is met by every component of the tree, and components nest at most 1000 deep. A
 * feature is on if it is 1, and off if it is 0. lupinanon_default_limits writes the values in brackets.
 *
 * Later versions may add limits at the end, or in place of reserved bytes. A program that is built with the header of
 * one version may be linked with the library of another: a limit that only the library has is at its default, and one
 * that only the program has must be 0, which is what lupinanon_default_limits then sets. */
typedef struct LupinanonLimits {
    /* sizeof(LupinanonLimits) by the program's header. lupinanon_default_limits sets it. */
    size_t size;
    /* The fewest types of a component. They can always be added. [0] */
    size_t min_types;
    /* The fewest imports of a component. If they cannot be added, it is refused with LUPINANON_MINIMUM_NOT_MET. [0] */
    size_t min_imports;
    /* The fewest functions of a component: imported ones, lifts and lowers together. If they cannot be added, it is
     * refused with LUPINANON_MINIMUM_NOT_MET. [0] */
    size_t min_funcs;
    /* The fewest memories of a core module. [0] */
    size_t min_memories;
    /* The most types of a component, and the most core types. [100] */
    size_t max_types;
    /* The most imports of a component. [100] */
    size_t max_imports;
    /* The most functions of a component: imported ones, lifts and lowers together. [100] */
    size_t max_funcs;
    /* The most exports of a component. They are functions of it too, and are not counted against max_funcs. [0] */
    size_t max_exports;
    /* The most globals that a module type imports and exports. [100] */
    size_t max_globals;
    /* The most tables that a module type imports and exports. [100] */
    size_t max_tables;
    /* The most tags that a module type imports and exports. [100] */
    size_t max_tags;
    /* The most memories of a core module, and the most that a module type imports and exports. [1] */
    size_t max_memories;
    /* The most core modules of the whole tree, embedded and imported. [10] */
    size_t max_modules;
    /* The most components of the whole tree below the root, nested and imported. [10] */
    size_t max_components;
    /* The most instances that the whole tree imports. [10] */
    size_t max_instances;
    /* How deep components nest, the root at 1. A limit of 0 counts as 1. [10] */
    size_t max_nesting_depth;
    /* The fuel of a type: the most members and declarations that it has at all depths. [1000] */
    uint32_t max_type_size;
    /* Whether a core function may have several results. [1] */
    uint8_t multi_value_enabled;
    /* Whether there are tags. [1] */
    uint8_t exceptions_enabled;
    /* Whether there are reference types as core value types. [1] */
    uint8_t reference_types_enabled;
    /* Whether there is the core value type v128. [1] */
    uint8_t simd_enabled;
    /* Whether there are the core value types f32 and f64. [1] */
    uint8_t allow_floats;
    /* Whether core modules count their data segments in a section. [1] */
    uint8_t bulk_memory_enabled;
    /* Whether a validator accepts each component: what it imports and exports is of types that it names, and effective
     * sizes and counts are below the bounds of wasmparser. [0] */
    uint8_t must_validate;
    /* Reserved, and 0. */
    uint8_t reserved[5];
    /* The fewest sections that a component has when the input finishes it. If no input is left, it is finished whatever
     * it has. [0] */
    size_t finish_after;
    /* How many bytes of a name are read at most. Digits that make it new, and an a where a word is missing, come on
     * top. At most 100. The name of a custom section does not count. [100] */
    size_t max_name_length;
    /* How many of the lowest bits of a byte are 0 where a loop ends, as one over types or fields: with 1 every second
     * byte ends it, with 2 every fourth, with 8 one in 256. At most 8; a limit of 0 counts as 1. [1] */
    size_t loop_bits;
} LupinanonLimits;

/* How a call ended. */
enum LupinanonStatus {
    LUPINANON_ANSWERED = 0,            /* what was asked for is written */
    LUPINANON_WELL_FORMED = 0,         /* of lupinanon_check: the bytes are a component that is well formed */
    LUPINANON_VALID = 0,               /* of lupinanon_validate: the bytes are a valid component */
    LUPINANON_INCONSISTENT_LIMITS = 1, /* a minimum passes its maximum, or a limit the most that it may be */
    LUPINANON_MINIMUM_NOT_MET = 2,     /* no more imports or functions of a minimum can be added */
    LUPINANON_MODULE_REFUSED = 3,      /* a core module is chosen, and min_memories passes max_memories */
    LUPINANON_TOO_LONG = 4,            /* a length or a count in the bytes would pass 4,294,967,295 */
    LUPINANON_OUT_OF_MEMORY = 5,       /* malloc or realloc returned NULL, too little memory is lent, or an index of an
                                        * edit exceeds 32 bits */
    LUPINANON_PARTS_DISAGREE = 6,      /* no call of this library returns it */
    LUPINANON_NO_ROOM = 7,             /* the output is too short; *bytes_len or *script_len, or the like, is how
                                        * long it has to be */
    LUPINANON_BAD_FLAG = 8,            /* a feature is neither 0 nor 1 */
    LUPINANON_BAD_ARGUMENT = 9,        /* NULL where there has to be memory, a length of half the memory or more, memory
                                        * to write that overlaps what else is passed, limits of a wrong size, or limits
                                        * with anything but 0 where the library has no limit */
    LUPINANON_ILL_FORMED = 10,         /* the bytes are a component that is not well formed */
    LUPINANON_UNREAD = 11,             /* the bytes are no component, or it nests too deep */
    LUPINANON_NO_SCRIPT = 12,          /* the bytes are a component that is well formed, but no input produces it
                                        * within the limits */
    LUPINANON_NO_SMALLER = 13,         /* there is no k-th smaller component, none from a step on, or no k-th item */
    LUPINANON_INVALID = 14,            /* no validator may accept the bytes */
    LUPINANON_BOUND = 15,              /* the bytes are a well-formed component beyond a bound of a validator's own */
    LUPINANON_OUTSIDE = 16,            /* the bytes are not judged: a validator may accept or refuse them */
    LUPINANON_NO_CHANGE = 17,          /* the change leads to nothing, or none from that number on to something */
    LUPINANON_NO_TEXT = 18             /* a core module in the component has more than function types and memories */
};

/* How many bytes of stack a call takes at most, with a fifth to spare: within limits of that max_nesting_depth, and at
 * 1000 also lupinanon_check, lupinanon_validate, lupinanon_print and lupinanon_script_into of any bytes: theirs grows
 * with how deep the bytes nest, whatever the limits. At 1000, the greatest depth, that is 2 MiB. */
#define LUPINANON_STACK(max_nesting_depth) (49152 + 2048 * (size_t)(max_nesting_depth))

/* How many bytes of lent memory are enough, which is measured and not proved: for lupinanon_generate_in with an input of
 * `len` bytes within the default limits or those of the profile `fuzz`, and for lupinanon_check_in and
 * lupinanon_validate_in of `len` bytes. lupinanon_script_in of `len` bytes takes up to three times as many, and within
 * other limits lupinanon_generate_in up to eight times as many, most of all if each byte begins a component. */
#define LUPINANON_SCRATCH(len) (32768 + 256 * (size_t)(len))

/* What lupinanon_check, lupinanon_validate and lupinanon_script_into write if they know no offset. */
#define LUPINANON_NO_OFFSET SIZE_MAX

/* What lupinanon_validate writes if there is no rule. */
#define LUPINANON_NO_RULE SIZE_MAX

/* LUPINANON_VERSION of the library, which differs from this header's if the two do not belong together. */
const char *lupinanon_version(void);

/* A status in words, as "out of memory"; "unknown status" of any other number. Neither string is ever freed. */
const char *lupinanon_status_name(int32_t status);

/* What lupinanon_validate found by that number, in words, as "no type has that index"; "unknown rule" of any other
 * number. Neither string is ever freed. */
const char *lupinanon_rule_text(size_t rule);

/* Writes the default limits, and their size: lupinanon_default_limits(&limits, sizeof limits). What the library has no
 * limit for is set to 0.
 *
 * LUPINANON_ANSWERED: all `size` bytes are written, and none after them.
 * LUPINANON_BAD_ARGUMENT: `limits` is NULL, or the size is wrong: it ends within a field, before the first limit, or
 * after 4096 bytes. Nothing is written. */
int32_t lupinanon_default_limits(LupinanonLimits *limits, size_t size);

/* The same with the limits of the profile `fuzz`, with which an input of a fuzzer says more in fewer bytes: max_exports
 * is 10, finish_after and max_name_length are 8, and loop_bits is 2. Set must_validate too if what takes the components
 * refuses the others. */
int32_t lupinanon_fuzz_limits(LupinanonLimits *limits, size_t size);

/* Replaces limits by the ones that the first bytes of the input say, so that one run tries many limits (swarm testing).
 * Twenty limits take one byte each, in this order, and a byte after the end of the input counts as 0:
 *  - max_types, max_imports, max_funcs, max_exports, max_globals, max_tables, max_tags: that byte,
 *  - max_memories modulo 16; max_modules, max_components and max_instances modulo 32; max_nesting_depth modulo 16;
 *    max_type_size: that byte,
 *  - multi_value_enabled, exceptions_enabled, reference_types_enabled, simd_enabled, allow_floats and
 *    bulk_memory_enabled modulo 2; finish_after modulo 16.
 * The others stay as they are: the minima, so that the limits may no longer fit together, must_validate,
 * max_name_length and loop_bits. Limits that an older header does not have are dropped.
 *
 * LUPINANON_ANSWERED: the limits are written, and *taken bytes of the input are theirs: 20, or all of a shorter one. What
 * follows them is the input of a component.
 * LUPINANON_BAD_FLAG, LUPINANON_BAD_ARGUMENT: the limits are as they were, and *taken is 0.
 *
 * The input may be NULL if its length is 0. */
int32_t lupinanon_swarm_limits(LupinanonLimits *limits, const uint8_t *input, size_t input_len, size_t *taken);

/* Makes the component that the input produces within the limits, and writes its bytes to the front of the output.
 *
 * LUPINANON_ANSWERED: *bytes_len bytes are written, and *left bytes at the end of the input were not used.
 * LUPINANON_NO_ROOM: both counts are returned, and no other byte is written. Otherwise both are 0, and no other byte is
 * written.
 *
 * `input_len` and `output_len` are in bytes. Input and output may be NULL if their length is 0, and `left` if it
 * is not needed. Equal limits and equal input produce equal bytes, always. */
int32_t lupinanon_generate_into(const LupinanonLimits *limits, const uint8_t *input, size_t input_len, uint8_t *output,
                                size_t output_len, size_t *bytes_len, size_t *left);

/* Makes the component in a block of its own, which the caller frees with free. NULL as limits are the default
 * limits, and `left` may be NULL. If the status is not LUPINANON_ANSWERED, *bytes is NULL, and *bytes_len and *left
 * are 0. */
int32_t lupinanon_generate(const LupinanonLimits *limits, const uint8_t *input, size_t input_len, uint8_t **bytes,
                           size_t *bytes_len, size_t *left);

/* lupinanon_generate_into, lupinanon_check, lupinanon_validate and lupinanon_script_into with memory that the caller
 * lends: all that the call takes is in the `scratch_len` bytes at `scratch`, of any alignment and with any contents. It
 * calls no malloc, realloc or free. The memory is lent until the call returns: meanwhile nothing else may use it, and
 * then nothing is kept there. Calls in several threads at once each need their own.
 *
 * LUPINANON_OUT_OF_MEMORY: there is too little of it. LUPINANON_SCRATCH says how much is enough.
 * LUPINANON_BAD_ARGUMENT: also if it overlaps what else is passed.
 * All else, the output too, is as of the function without lent memory.
 *
 * `scratch` may be NULL if its length is 0. */
int32_t lupinanon_generate_in(const LupinanonLimits *limits, const uint8_t *input, size_t input_len, uint8_t *output,
                              size_t output_len, size_t *bytes_len, size_t *left, void *scratch, size_t scratch_len);
int32_t lupinanon_check_in(const uint8_t *bytes, size_t bytes_len, size_t *offset, void *scratch, size_t scratch_len);
int32_t lupinanon_validate_in(const uint8_t *bytes, size_t bytes_len, size_t *rule, size_t *offset, void *scratch,
                              size_t scratch_len);
int32_t lupinanon_script_in(const LupinanonLimits *limits, const uint8_t *bytes, size_t bytes_len, uint8_t *output,
                            size_t output_len, size_t *script_len, size_t *offset, void *scratch, size_t scratch_len);

/* Counts what is in the component that the input produces within the limits, for a fuzzer that takes counters as coverage,
 * such as the extra counters of libFuzzer. Each combination in it, of a thing with what it is in and what it refers to
 * (docs/FORMATS.md), has one of the counters, which depends on `counters_len` and on nothing else. To each of them 1 is
 * added, once for each combination, but none passes 255.
 *
 * LUPINANON_ANSWERED: they are counted. Otherwise the counters are as they were, and the status is that of
 * lupinanon_generate_into, or says that memory ran out.
 * LUPINANON_UNREAD: no call of this library returns it here.
 *
 * Input and counters may be NULL if their length is 0. */
int32_t lupinanon_features(const LupinanonLimits *limits, const uint8_t *input, size_t input_len, uint8_t *counters,
                           size_t counters_len);

/* Whether bytes are a component that is well formed, by the rules of docs/JUDGEMENT.md.
 *
 * LUPINANON_WELL_FORMED: they are.
 * LUPINANON_ILL_FORMED: they are a component that breaks a rule. *offset is where the entry of a section begins that
 * breaks it: what precedes the entry is well formed, and what ends with it is not.
 * LUPINANON_UNREAD: they are no component of the grammar, or one whose scopes are nested more than 1001 deep. *offset
 * is where that was seen, at most `bytes_len`.
 * LUPINANON_OUT_OF_MEMORY, LUPINANON_BAD_ARGUMENT: nothing is known. *offset is then LUPINANON_NO_OFFSET, as of a
 * component that is well formed.
 *
 * Bytes may be NULL if their length is 0, and `offset` if it is not needed. */
int32_t lupinanon_check(const uint8_t *bytes, size_t bytes_len, size_t *offset);

/* What bytes are to whoever tests a validator. docs/JUDGEMENT.md says more.
 *
 * LUPINANON_VALID: they are a component that a validator has to accept, if it has all features and no lower bounds than
 * wasmparser.
 * LUPINANON_INVALID: no validator may accept them. *rule says why, and *offset where: 0 to 99, a rule of well-formed
 * components; 100 to 199, anything else of the standard, such as the length of a section.
 * LUPINANON_BOUND: they are a well-formed component beyond a bound of wasmparser's own, 200 to 299.
 * LUPINANON_OUTSIDE: nothing is known. 300 to 399 are rules of well-formed components that the standard may not have,
 * 400 to 499 say why bytes are no component of the grammar, as with LUPINANON_UNREAD, and from 500 on why one is not
 * judged.
 * LUPINANON_OUT_OF_MEMORY, LUPINANON_BAD_ARGUMENT: the call failed. *rule is then LUPINANON_NO_RULE, and *offset
 * LUPINANON_NO_OFFSET, as of a component that is valid. Otherwise *offset is at most `bytes_len`.
 *
 * A number keeps its meaning in all later versions, which may add others at the end of each group.
 * Bytes may be NULL if their length is 0, and `rule` and `offset` if they are not needed. */
int32_t lupinanon_validate(const uint8_t *bytes, size_t bytes_len, size_t *rule, size_t *offset);

/* Writes the component that bytes are, well formed or not, in the text format to the front of the output, with indexes
 * as comments. The text ends in a line feed, and no 0 follows it.
 *
 * LUPINANON_ANSWERED: *text_len bytes are written.
 * LUPINANON_NO_ROOM: *text_len is how long the text is, and otherwise it is 0. Nothing is written to the output.
 * LUPINANON_NO_TEXT: it has no text here, since a core module in it has more than function types and memories.
 * LUPINANON_UNREAD: as of lupinanon_check.
 *
 * Bytes and output may be NULL if their length is 0. */
int32_t lupinanon_print(const uint8_t *bytes, size_t bytes_len, uint8_t *output, size_t output_len, size_t *text_len);

/* Writes the script of the component that bytes are to the front of the output: an input from which
 * lupinanon_generate_into produces these bytes, within the same limits, with nothing left. Each component
 * that can be generated has one. docs/SCRIPTS.md says more.
 *
 * LUPINANON_ANSWERED: *script_len bytes are written.
 * LUPINANON_NO_ROOM: *script_len is how long the script is, and otherwise it is 0. Nothing is written to the output.
 * LUPINANON_NO_SCRIPT: no input produces the component within the limits, unless finish_after is above 0 and the input
 * ends in it. *offset is where what its script produces first differs, so far as there is one, or LUPINANON_NO_OFFSET.
 * LUPINANON_UNREAD: as of lupinanon_check, with its *offset.
 * LUPINANON_ILL_FORMED: as of lupinanon_check, which also knows the entry.
 * *offset is LUPINANON_NO_OFFSET if the status is another.
 *
 * `bytes_len` and `output_len` are in bytes. Bytes and output may be NULL if their length is 0, and `offset` if
 * it is not needed. */
int32_t lupinanon_script_into(const LupinanonLimits *limits, const uint8_t *bytes, size_t bytes_len, uint8_t *output,
                              size_t output_len, size_t *script_len, size_t *offset);

/* Writes the k-th, from 0, of the components that are smaller by a step than the component of the bytes and can be
 * generated within the limits to the front of the output. NULL as limits: that are well formed, whatever the limits. The
 * steps are, in this order: without each item, as lupinanon_without has it, and with each item made simpler, if it can
 * be: a custom section without contents, the empty core module, a nested component in place of the whole, the type bool
 * in place of a value type, a shorter name. docs/REDUCING.md says more.
 *
 * LUPINANON_ANSWERED: *smaller_len bytes are written.
 * LUPINANON_NO_ROOM: *smaller_len is how long the component is, and otherwise it is 0. Nothing is written to the output.
 * LUPINANON_NO_SMALLER: there are no more than k such components.
 * LUPINANON_UNREAD: as of lupinanon_check.
 *
 * Bytes and output may be NULL if their length is 0. It takes the time of a script, or of a check, for each step up
 * to the k-th. A loop over k repeats these; one over lupinanon_next_smaller does not. */
int32_t lupinanon_smaller(const LupinanonLimits *limits, const uint8_t *bytes, size_t bytes_len, size_t k,
                          uint8_t *output, size_t output_len, size_t *smaller_len);

/* Finds the first step, from number *step on, that leads to a component that can be generated within the limits; or,
 * with NULL as limits, to one that is well formed. Writes that component to the front of the output, and the step's
 * number to *step. The steps are lupinanon_smaller's. All of them are numbered, from 0, also the ones that lead to no
 * such component.
 *
 * LUPINANON_ANSWERED: *smaller_len bytes are written, and *step.
 * LUPINANON_NO_ROOM: *smaller_len is how long the component is, and *step is written; nothing is written to the output.
 * Otherwise *smaller_len is 0, and *step is as it was.
 * LUPINANON_NO_SMALLER: no step from *step on leads to such a component.
 * LUPINANON_UNREAD: as of lupinanon_check.
 *
 * Bytes and output may be NULL if their length is 0. It takes the time of a script, or of a check, for each step
 * from *step to the one that is found. So a loop that goes on from there tries each step once:
 *
 *     while (lupinanon_next_smaller(limits, best, best_len, &step, next, sizeof next, &len) == LUPINANON_ANSWERED) {
 *         if (still_fails(next, len))
 *             memcpy(best, next, best_len = len);
 *         else
 *             step++;
 *     } */
int32_t lupinanon_next_smaller(const LupinanonLimits *limits, const uint8_t *bytes, size_t bytes_len, size_t *step,
                               uint8_t *output, size_t output_len, size_t *smaller_len);

/* Writes the component of the bytes without its k-th item, from 0, to the front of the output. All that refers to what
 * is removed is removed too, and other indexes are renumbered. Items are sections, their entries, the declarations of
 * types, and the members of types, counted in the order of their bytes.
 *
 * LUPINANON_ANSWERED: *less_len bytes are written. They are well formed if the component is, and no more.
 * LUPINANON_NO_ROOM: *less_len is how long the component is, and otherwise it is 0. Nothing is written to the output.
 * LUPINANON_NO_SMALLER: there are no more than k items.
 * LUPINANON_UNREAD: as of lupinanon_check.
 *
 * Bytes and output may be NULL if their length is 0. */
int32_t lupinanon_without(const uint8_t *bytes, size_t bytes_len, size_t k, uint8_t *output, size_t output_len,
                          size_t *less_len);

/* Writes a component with the sections of the first and then of the second to the front of the output. Indexes of
 * the second are renumbered, and its imports and exports get names that are new.
 *
 * LUPINANON_ANSWERED: *joined_len bytes are written. They are well formed if both components are.
 * LUPINANON_NO_ROOM: *joined_len is how long the component is, and otherwise it is 0. Nothing is written to the output.
 * LUPINANON_TOO_LONG: a length or a count in it would pass 4,294,967,295.
 * LUPINANON_UNREAD: as of lupinanon_check, of the first or the second.
 *
 * The first, the second and the output may be NULL if their length is 0. The first and the second may overlap. */
int32_t lupinanon_join(const uint8_t *first, size_t first_len, const uint8_t *second, size_t second_len,
                       uint8_t *output, size_t output_len, size_t *joined_len);

/* Counts the changes of the component that bytes are: 0 to *count - 1 are the numbers for lupinanon_changed.
 *
 * LUPINANON_ANSWERED: *count is written. Otherwise it is 0.
 * LUPINANON_UNREAD: as of lupinanon_check.
 *
 * Bytes may be NULL if their length is 0. */
int32_t lupinanon_change_count(const uint8_t *bytes, size_t bytes_len, size_t *count);

/* Writes the component of the bytes after the change of that number to the front of the output. In it one token, or one
 * list of entries, is another: an entry is left out or doubled, an index is one less or more, a name, a sort or a type
 * is another. Nothing is renumbered, so that it is often not valid. Sixteen changes belong to each place, in the order
 * of the bytes; not all of them lead to something.
 *
 * LUPINANON_ANSWERED: *changed_len bytes are written. What lupinanon_validate returns of them is written to *answer,
 * with its *rule and *offset.
 * LUPINANON_NO_ROOM: *changed_len is how long the component is, and otherwise it is 0. Nothing is written to the output.
 * LUPINANON_NO_CHANGE: the change leads to nothing.
 * LUPINANON_UNREAD: as of lupinanon_check.
 * Unless it is LUPINANON_ANSWERED, *answer is LUPINANON_OUTSIDE, *rule LUPINANON_NO_RULE and *offset
 * LUPINANON_NO_OFFSET.
 *
 * Bytes and output may be NULL if their length is 0, and `answer`, `rule` and `offset` if they are not needed. */
int32_t lupinanon_changed(const uint8_t *bytes, size_t bytes_len, size_t number, uint8_t *output, size_t output_len,
                          size_t *changed_len, int32_t *answer, size_t *rule, size_t *offset);

/* Finds the first change, from *number on, that leads to a component other than that of the bytes. Writes it to the
 * front of the output, and the number of the change to *number.
 *
 * LUPINANON_ANSWERED: *changed_len bytes are written, and *number.
 * LUPINANON_NO_ROOM: *changed_len is how long the component is, and *number is written; nothing else is.
 * Otherwise *changed_len is 0, and *number is as it was.
 * LUPINANON_NO_CHANGE: no change from *number on leads to something.
 * LUPINANON_UNREAD: as of lupinanon_check.
 *
 * Bytes and output may be NULL if their length is 0. */
int32_t lupinanon_next_changed(const uint8_t *bytes, size_t bytes_len, size_t *number, uint8_t *output,
                               size_t output_len, size_t *changed_len);

/* Finds the first candidate, from *number on, that no reader of the standard takes for a component: for
 * lupinanon_validate it is LUPINANON_INVALID, or LUPINANON_OUTSIDE if it is a core module. Writes it to the front of the
 * output, and its number to *number. The candidates are, in this order: the bytes cut off after each number of bytes,
 * from 0 to bytes_len - 1; those with a section whose length is one more or one less, whose id is 13, or whose count is
 * 4,294,967,295; and those with a byte of the preamble changed. The bytes need not be a component.
 *
 * LUPINANON_ANSWERED, LUPINANON_NO_ROOM, LUPINANON_NO_CHANGE: as of lupinanon_next_changed.
 *
 * Bytes and output may be NULL if their length is 0. */
int32_t lupinanon_next_miswritten(const uint8_t *bytes, size_t bytes_len, size_t *number, uint8_t *output,
                                  size_t output_len, size_t *miswritten_len);

#ifdef __cplusplus
}
#endif
#endif
