/* What of lupinanon.h is plain C: the check of the arguments before the proved functions, a block for the bytes, memory
 * that is lent, and words. A contract can say neither that a pointer is NULL, nor what is at one that is returned. */
#include "lupinanon.h"
#include <string.h>

/* The proved functions. No pointer is NULL, no memory that is written overlaps any other that is passed, and no length
 * is more than PTRDIFF_MAX. Their limits are a whole LupinanonLimits without the size before them. */
void lupinanon_proved_default_limits(void *limits);
void lupinanon_proved_fuzz_limits(void *limits);
int32_t lupinanon_proved_swarm_limits(void *limits, const uint8_t *input, size_t input_len, size_t *taken);
int32_t lupinanon_proved_generate_into(const void *limits, const uint8_t *input, size_t input_len, uint8_t *output,
                                       size_t output_len, size_t *bytes_len, size_t *left);
int32_t lupinanon_proved_features(const void *limits, const uint8_t *input, size_t input_len, uint8_t *counters,
                                  size_t counters_len);
int32_t lupinanon_proved_check(const uint8_t *bytes, size_t bytes_len, size_t *offset);
int32_t lupinanon_proved_validate(const uint8_t *bytes, size_t bytes_len, size_t *rule, size_t *offset);
int32_t lupinanon_proved_print(const uint8_t *bytes, size_t bytes_len, uint8_t *output, size_t output_len,
                               size_t *text_len);
int32_t lupinanon_proved_script_into(const void *limits, const uint8_t *bytes, size_t bytes_len, uint8_t *output,
                                     size_t output_len, size_t *script_len, size_t *offset);
int32_t lupinanon_proved_smaller(const void *limits, const uint8_t *bytes, size_t bytes_len, size_t k, uint8_t *output,
                                 size_t output_len, size_t *smaller_len);
int32_t lupinanon_proved_smaller_formed(const uint8_t *bytes, size_t bytes_len, size_t k, uint8_t *output,
                                        size_t output_len, size_t *smaller_len);
int32_t lupinanon_proved_next_smaller(const void *limits, const uint8_t *bytes, size_t bytes_len, size_t *step,
                                      uint8_t *output, size_t output_len, size_t *smaller_len);
int32_t lupinanon_proved_next_smaller_formed(const uint8_t *bytes, size_t bytes_len, size_t *step, uint8_t *output,
                                             size_t output_len, size_t *smaller_len);
int32_t lupinanon_proved_without(const uint8_t *bytes, size_t bytes_len, size_t k, uint8_t *output, size_t output_len,
                                 size_t *less_len);
int32_t lupinanon_proved_join(const uint8_t *first, size_t first_len, const uint8_t *second, size_t second_len,
                              uint8_t *output, size_t output_len, size_t *joined_len);
int32_t lupinanon_proved_change_count(const uint8_t *bytes, size_t bytes_len, size_t *count);
int32_t lupinanon_proved_changed(const uint8_t *bytes, size_t bytes_len, size_t number, uint8_t *output,
                                 size_t output_len, size_t *changed_len);
int32_t lupinanon_proved_next_changed(const uint8_t *bytes, size_t bytes_len, size_t *number, uint8_t *output,
                                      size_t output_len, size_t *changed_len);
int32_t lupinanon_proved_next_miswritten(const uint8_t *bytes, size_t bytes_len, size_t *number, uint8_t *output,
                                         size_t output_len, size_t *miswritten_len);

enum { FIRST_SIZE = 4096, MOST_LIMITS_SIZE = 4096 };

/* Memory that is passed. */
typedef struct Memory {
    const void *at;
    size_t len;
} Memory;

#define MEMORY_OF(pointer) {pointer, sizeof *(pointer)}

static uintptr_t start_of(Memory it) { return (uintptr_t)it.at; }

static uintptr_t end_of(Memory it) { return (uintptr_t)it.at + it.len; }

/* No memory that is there wraps around. */
static int is_there(Memory it) { return it.len <= PTRDIFF_MAX && end_of(it) >= start_of(it) && (it.at || !it.len); }

/* Whether no byte is in both. */
static int is_apart(Memory one, Memory other) {
    return end_of(one) <= start_of(other) || end_of(other) <= start_of(one) || !one.len || !other.len;
}

/* Whether what is written is apart from what is read, and from what else is written. */
static inline int are_apart(const Memory *written, size_t written_count, const Memory *read, size_t read_count) {
    size_t one, other;
    for (one = 0; one < written_count; one++) {
        for (other = 0; other < one; other++)
            if (!is_apart(written[one], written[other])) return 0;
        for (other = 0; other < read_count; other++)
            if (!is_apart(written[one], read[other])) return 0;
    }
    return 1;
}

#define END_OF(field) (offsetof(LupinanonLimits, field) + sizeof(((LupinanonLimits *)0)->field))

/* The limits as the proved functions take them. */
#define WITHOUT_SIZE(limits) ((uint8_t *)(limits) + END_OF(size))

/* Where the fields end, and so where the struct of an older header may end. */
static const size_t ends[] = {
    END_OF(min_types),
    END_OF(min_imports),
    END_OF(min_funcs),
    END_OF(min_memories),
    END_OF(max_types),
    END_OF(max_imports),
    END_OF(max_funcs),
    END_OF(max_exports),
    END_OF(max_globals),
    END_OF(max_tables),
    END_OF(max_tags),
    END_OF(max_memories),
    END_OF(max_modules),
    END_OF(max_components),
    END_OF(max_instances),
    END_OF(max_nesting_depth),
    END_OF(max_type_size),
    END_OF(multi_value_enabled),
    END_OF(exceptions_enabled),
    END_OF(reference_types_enabled),
    END_OF(simd_enabled),
    END_OF(allow_floats),
    END_OF(bulk_memory_enabled),
    END_OF(must_validate),
    END_OF(reserved),
    END_OF(finish_after),
    END_OF(max_name_length),
    END_OF(loop_bits),
};

static int is_limits_size(size_t size) {
    size_t place;
    if (size > sizeof(LupinanonLimits)) return size <= MOST_LIMITS_SIZE;
    for (place = sizeof ends / sizeof *ends; place > 0; place--)
        if (size == ends[place - 1]) return 1;
    return 0;
}

/* As many bytes as the limits say, or memory that is not there if no limits have that size. */
static Memory memory_of_limits(const LupinanonLimits *limits) {
    Memory it = {limits, limits->size}, none = {NULL, 1};
    return is_limits_size(it.len) ? it : none;
}

/* Writes the limits that a proved function writes, which may write anything to the reserved bytes. */
static void set_limits(LupinanonLimits *limits, void (*proved)(void *limits)) {
    proved(WITHOUT_SIZE(limits));
    memset(limits->reserved, 0, sizeof limits->reserved);
    limits->size = sizeof *limits;
}

static void set_defaults(LupinanonLimits *limits) { set_limits(limits, lupinanon_proved_default_limits); }

/* As many bytes as the limits say, if there are any. */
#define OF_LIMITS(limits) {limits, limits ? (limits)->size : 0}

static int is_zero(const uint8_t *bytes, size_t len) {
    while (len)
        if (bytes[--len]) return 0;
    return 1;
}

static size_t lesser(size_t one, size_t other) { return one < other ? one : other; }

/* Copies what a caller has of the limits over the defaults. Returns whether its other bytes are 0. */
static int complete(LupinanonLimits *limits, Memory given) {
    size_t known = lesser(given.len, sizeof *limits);
    set_defaults(limits);
    memcpy(limits, given.at, known);
    if (!is_zero(limits->reserved, sizeof limits->reserved)) return 0;
    return is_zero((const uint8_t *)given.at + known, given.len - known);
}

/* The limits to pass on: the caller's own if they are whole, so that nothing is copied then, and else the ones in the
 * room. NULL if they, what else is read or what is written, an output and numbers, may not be passed on. */
static inline const LupinanonLimits *good_limits(LupinanonLimits *room, const LupinanonLimits *limits, Memory input,
                                          const Memory *written, size_t written_count) {
    Memory read[2];
    read[0] = memory_of_limits(limits);
    read[1] = input;
    if (!is_there(written[0]) || !is_there(read[0]) || !is_there(read[1])) return NULL;
    if (!are_apart(written, written_count, read, 2)) return NULL;
    if (limits->size == sizeof *limits) return is_zero(limits->reserved, sizeof limits->reserved) ? limits : NULL;
    return complete(room, read[0]) ? room : NULL;
}

/* Whether what is read and what is written, an output and numbers, may be passed on. */
static int may_pass(const Memory *read, size_t read_count, const Memory *written, size_t written_count) {
    size_t place;
    for (place = 0; place < read_count; place++)
        if (!is_there(read[place])) return 0;
    return is_there(written[0]) && are_apart(written, written_count, read, read_count);
}

/* The memory that a caller lends to the call that runs in this thread. Blocks lie in it one after another, each at a
 * multiple of 16. Only the last one grows in place or is given back. */
typedef struct Lent {
    uintptr_t last; /* the last block, even if it is given back, or 0 if there is none */
    uintptr_t end;  /* the last place for `next` */
    uintptr_t next; /* where the next one would be, or 0 if nothing is lent */
} Lent;

enum { ALIGNMENT = 16 };

static _Thread_local Lent lent;

/* What a pointer that must not be NULL is to, if there is no memory. */
static char nowhere;

static uintptr_t aligned(uintptr_t at) { return (at + ALIGNMENT - 1) & ~(uintptr_t)(ALIGNMENT - 1); }

/* Makes a place of lent memory the last block, with that size. If it has no room, returns NULL and changes nothing. */
static void *set_last(uintptr_t block, size_t size) {
    size_t span = aligned(size);
    if (span > lent.end - block) return NULL;
    lent.last = block;
    lent.next = block + span;
    return (void *)block;
}

static void *moved(const void *block, size_t kept, size_t size) {
    void *other = set_last(lent.next, size);
    return other ? memcpy(other, block, kept) : NULL;
}

/* What the proved functions take memory from and give it back to, in place of what the kit has over malloc, realloc and
 * free. An alignment divides ALIGNMENT, a size is at most PTRDIFF_MAX, and no more bytes are kept than it. */
typedef struct Tried {
    _Bool is_there;
    void *block;
} Tried;

Tried rattle_alloc(size_t size, size_t alignment);
Tried rattle_realloc(void *block, size_t kept, size_t size, size_t alignment);
void rattle_dealloc(void *block);

static Tried tried(void *block) {
    Tried it = {block != NULL, block ? block : &nowhere};
    return it;
}

/* What rattle_alloc does if nothing is lent, if no byte is wanted, or if what is lent has no room. */
static Tried alloc_otherwise(size_t size, size_t alignment) {
    if (!size) size = alignment;
    return tried(lent.next ? set_last(lent.next, size) : malloc(size));
}

/* One comparison says whether it is not the usual case: it wraps around for no bytes, and no room is left if nothing is
 * lent. */
Tried rattle_alloc(size_t size, size_t alignment) {
    uintptr_t block = lent.next;
    size_t span = aligned(size);
    Tried it = {1, (void *)block};
    if (__builtin_expect(span - 1 >= lent.end - block, 0)) return alloc_otherwise(size, alignment);
    lent.last = block;
    lent.next = block + span;
    return it;
}

Tried rattle_realloc(void *block, size_t kept, size_t size, size_t alignment) {
    if (!size) size = alignment;
    if (!lent.next) return tried(realloc(block, size));
    return tried((uintptr_t)block == lent.last ? set_last(lent.last, size) : moved(block, kept, size));
}

void rattle_dealloc(void *block) {
    if (!lent.next)
        free(block);
    else if ((uintptr_t)block == lent.last)
        lent.next = lent.last;
}

/* Moves that many bytes at the start and that many at the end, which may have some in common: all are read first. */
static inline void move_ends(uint8_t *to, const uint8_t *from, size_t len, size_t each) {
    uint8_t start[16], end[16];
    memcpy(start, from, each);
    memcpy(end, from + len - each, each);
    memcpy(to, start, each);
    memcpy(to + len - each, end, each);
}

/* Moves one to three bytes: the first, the middle and the last, some of which may be the same. */
static inline void move_few(uint8_t *to, const uint8_t *from, size_t len) {
    uint8_t first = from[0], middle = from[len / 2], last = from[len - 1];
    to[0] = first;
    to[len / 2] = middle;
    to[len - 1] = last;
}

/* What the proved functions call in place of memmove, which takes longer over the few bytes that they mostly move. If
 * nothing is lent it is called all the same, so that a sanitizer sees it. */
void *lupinanon_move(void *to, const void *from, size_t len);

void *lupinanon_move(void *to, const void *from, size_t len) {
    if (len > 32 || !lent.next) return memmove(to, from, len);
    if (len >= 16)
        move_ends(to, from, len, 16);
    else if (len >= 8)
        move_ends(to, from, len, 8);
    else if (len >= 4)
        move_ends(to, from, len, 4);
    else if (len)
        move_few(to, from, len);
    return to;
}

/* Whether memory can be lent: it is there, and apart from all else that is passed. If not, the function without lent
 * memory is called with what it refuses, so that it writes what it writes then. */
static int may_lend(Memory scratch, const Memory *others, size_t count) {
    return is_there(scratch) && are_apart(&scratch, 1, others, count);
}

/* Lends memory, of any alignment, to the call that follows. Returns what was lent before, for after that call. */
static Lent lend(Memory scratch) {
    Lent before = lent;
    uintptr_t at = (uintptr_t)(scratch.at ? scratch.at : &nowhere);
    lent.last = 0;
    lent.next = aligned(at);
    lent.end = (at + scratch.len) & ~(uintptr_t)(ALIGNMENT - 1);
    if (lent.end < lent.next) lent.end = lent.next;
    return before;
}

const char *lupinanon_version(void) { return LUPINANON_VERSION; }

const char *lupinanon_status_name(int32_t status) {
    switch (status) {
    case LUPINANON_ANSWERED: return "answered";
    case LUPINANON_INCONSISTENT_LIMITS: return "inconsistent limits";
    case LUPINANON_MINIMUM_NOT_MET: return "minimum not met";
    case LUPINANON_MODULE_REFUSED: return "module refused";
    case LUPINANON_TOO_LONG: return "too long";
    case LUPINANON_OUT_OF_MEMORY: return "out of memory";
    case LUPINANON_PARTS_DISAGREE: return "parts disagree";
    case LUPINANON_NO_ROOM: return "no room";
    case LUPINANON_BAD_FLAG: return "bad flag";
    case LUPINANON_BAD_ARGUMENT: return "bad argument";
    case LUPINANON_ILL_FORMED: return "ill formed";
    case LUPINANON_UNREAD: return "unread";
    case LUPINANON_NO_SCRIPT: return "no script";
    case LUPINANON_NO_SMALLER: return "no smaller component";
    case LUPINANON_INVALID: return "invalid";
    case LUPINANON_BOUND: return "beyond a bound";
    case LUPINANON_OUTSIDE: return "not judged";
    case LUPINANON_NO_CHANGE: return "no change";
    case LUPINANON_NO_TEXT: return "no text";
    default: return "unknown status";
    }
}

/* Writes what a struct of that size has of those limits. */
static int32_t write_limits(LupinanonLimits *limits, size_t size, void (*proved)(void *limits)) {
    LupinanonLimits whole;
    if (!limits || !is_limits_size(size)) return LUPINANON_BAD_ARGUMENT;
    set_limits(&whole, proved);
    whole.size = size;
    memset(limits, 0, size);
    memcpy(limits, &whole, lesser(size, sizeof whole));
    return LUPINANON_ANSWERED;
}

int32_t lupinanon_default_limits(LupinanonLimits *limits, size_t size) {
    return write_limits(limits, size, lupinanon_proved_default_limits);
}

int32_t lupinanon_fuzz_limits(LupinanonLimits *limits, size_t size) {
    return write_limits(limits, size, lupinanon_proved_fuzz_limits);
}

int32_t lupinanon_swarm_limits(LupinanonLimits *limits, const uint8_t *input, size_t input_len, size_t *taken) {
    LupinanonLimits whole;
    uint8_t nothing = 0;
    int32_t status;
    size_t known;
    if (taken) *taken = 0;
    if (!taken || !limits) return LUPINANON_BAD_ARGUMENT;
    {
        Memory given = memory_of_limits(limits), read = {input, input_len};
        Memory written[] = {given, MEMORY_OF(taken)};
        if (!is_there(given) || !is_there(read) || !are_apart(written, 2, &read, 1)) return LUPINANON_BAD_ARGUMENT;
        if (!complete(&whole, given)) return LUPINANON_BAD_ARGUMENT;
        known = lesser(given.len, sizeof whole);
    }
    status = lupinanon_proved_swarm_limits(WITHOUT_SIZE(&whole), input ? input : &nothing, input_len, taken);
    memset(whole.reserved, 0, sizeof whole.reserved); /* the proved function may write anything there */
    if (status == LUPINANON_ANSWERED) memcpy(limits, &whole, known);
    return status;
}

/* What lupinanon_generate_into does. lupinanon_generate_in inlines it, which an exported function never is. */
static inline int32_t generate_into(const LupinanonLimits *limits, const uint8_t *input, size_t input_len,
                                    uint8_t *output, size_t output_len, size_t *bytes_len, size_t *left) {
    LupinanonLimits room;
    uint8_t nothing = 0;
    size_t not_needed;
    if (!left) left = &not_needed;
    *left = 0;
    if (bytes_len) *bytes_len = 0;
    if (!bytes_len || !limits) return LUPINANON_BAD_ARGUMENT;
    {
        Memory written[] = {{output, output_len}, MEMORY_OF(bytes_len), MEMORY_OF(left)}, read = {input, input_len};
        limits = good_limits(&room, limits, read, written, 3);
    }
    if (!limits) return LUPINANON_BAD_ARGUMENT;
    return lupinanon_proved_generate_into(WITHOUT_SIZE(limits), input ? input : &nothing, input_len,
                                          output ? output : &nothing, output_len, bytes_len, left);
}

int32_t lupinanon_generate_into(const LupinanonLimits *limits, const uint8_t *input, size_t input_len, uint8_t *output,
                                size_t output_len, size_t *bytes_len, size_t *left) {
    return generate_into(limits, input, input_len, output, output_len, bytes_len, left);
}

int32_t lupinanon_generate(const LupinanonLimits *limits, const uint8_t *input, size_t input_len, uint8_t **bytes,
                           size_t *bytes_len, size_t *left) {
    LupinanonLimits standard;
    size_t size = FIRST_SIZE, not_needed;
    int32_t status;
    uint8_t *block;
    if (!left) left = &not_needed;
    *left = 0;
    if (bytes_len) *bytes_len = 0;
    if (bytes) *bytes = NULL;
    if (!bytes || !bytes_len) return LUPINANON_BAD_ARGUMENT;
    if (!limits) {
        set_defaults(&standard);
        limits = &standard;
    }
    {
        Memory written[] = {MEMORY_OF(bytes), MEMORY_OF(bytes_len), MEMORY_OF(left)};
        Memory read[] = {memory_of_limits(limits), {input, input_len}};
        if (!is_there(read[0]) || !is_there(read[1])) return LUPINANON_BAD_ARGUMENT;
        if (!are_apart(written, 3, read, 2)) return LUPINANON_BAD_ARGUMENT;
    }
    while ((block = (uint8_t *)malloc(size)) != NULL) {
        status = lupinanon_generate_into(limits, input, input_len, block, size, bytes_len, left);
        if (status == LUPINANON_ANSWERED) {
            *bytes = block;
            return status;
        }
        free(block);
        if (status != LUPINANON_NO_ROOM) return status;
        size = *bytes_len;
    }
    *bytes_len = *left = 0;
    return LUPINANON_OUT_OF_MEMORY;
}

int32_t lupinanon_generate_in(const LupinanonLimits *limits, const uint8_t *input, size_t input_len, uint8_t *output,
                              size_t output_len, size_t *bytes_len, size_t *left, void *scratch, size_t scratch_len) {
    Memory others[] = {OF_LIMITS(limits), {input, input_len}, {output, output_len}, MEMORY_OF(bytes_len),
                       MEMORY_OF(left)};
    Memory own = {scratch, scratch_len};
    int32_t status;
    Lent before;
    if (!may_lend(own, others, 5)) return lupinanon_generate_into(NULL, NULL, 0, NULL, 0, bytes_len, left);
    before = lend(own);
    status = generate_into(limits, input, input_len, output, output_len, bytes_len, left);
    lent = before;
    return status;
}

int32_t lupinanon_features(const LupinanonLimits *limits, const uint8_t *input, size_t input_len, uint8_t *counters,
                           size_t counters_len) {
    LupinanonLimits room;
    uint8_t nothing = 0;
    if (!limits) return LUPINANON_BAD_ARGUMENT;
    {
        Memory written = {counters, counters_len}, read = {input, input_len};
        limits = good_limits(&room, limits, read, &written, 1);
    }
    if (!limits) return LUPINANON_BAD_ARGUMENT;
    return lupinanon_proved_features(WITHOUT_SIZE(limits), input ? input : &nothing, input_len,
                                     counters ? counters : &nothing, counters_len);
}

int32_t lupinanon_check(const uint8_t *bytes, size_t bytes_len, size_t *offset) {
    uint8_t nothing = 0;
    size_t not_needed;
    if (!offset) offset = &not_needed;
    *offset = LUPINANON_NO_OFFSET;
    {
        Memory written = MEMORY_OF(offset), read = {bytes, bytes_len};
        if (!is_there(read) || !is_apart(written, read)) return LUPINANON_BAD_ARGUMENT;
    }
    return lupinanon_proved_check(bytes ? bytes : &nothing, bytes_len, offset);
}

int32_t lupinanon_check_in(const uint8_t *bytes, size_t bytes_len, size_t *offset, void *scratch, size_t scratch_len) {
    Memory others[] = {{bytes, bytes_len}, MEMORY_OF(offset)}, own = {scratch, scratch_len};
    int32_t status;
    Lent before;
    if (!may_lend(own, others, 2)) return lupinanon_check(NULL, 1, offset);
    before = lend(own);
    status = lupinanon_check(bytes, bytes_len, offset);
    lent = before;
    return status;
}

int32_t lupinanon_validate(const uint8_t *bytes, size_t bytes_len, size_t *rule, size_t *offset) {
    uint8_t nothing = 0;
    size_t no_rule, no_offset;
    if (!rule) rule = &no_rule;
    if (!offset) offset = &no_offset;
    *rule = LUPINANON_NO_RULE;
    *offset = LUPINANON_NO_OFFSET;
    {
        Memory written[] = {MEMORY_OF(rule), MEMORY_OF(offset)}, read = {bytes, bytes_len};
        if (!may_pass(&read, 1, written, 2)) return LUPINANON_BAD_ARGUMENT;
    }
    return lupinanon_proved_validate(bytes ? bytes : &nothing, bytes_len, rule, offset);
}

int32_t lupinanon_validate_in(const uint8_t *bytes, size_t bytes_len, size_t *rule, size_t *offset, void *scratch,
                              size_t scratch_len) {
    Memory others[] = {{bytes, bytes_len}, MEMORY_OF(rule), MEMORY_OF(offset)}, own = {scratch, scratch_len};
    int32_t status;
    Lent before;
    if (!may_lend(own, others, 3)) return lupinanon_validate(NULL, 1, rule, offset);
    before = lend(own);
    status = lupinanon_validate(bytes, bytes_len, rule, offset);
    lent = before;
    return status;
}

int32_t lupinanon_print(const uint8_t *bytes, size_t bytes_len, uint8_t *output, size_t output_len, size_t *text_len) {
    uint8_t nothing = 0;
    if (text_len) *text_len = 0;
    if (!text_len) return LUPINANON_BAD_ARGUMENT;
    {
        Memory written[] = {{output, output_len}, MEMORY_OF(text_len)}, read = {bytes, bytes_len};
        if (!may_pass(&read, 1, written, 2)) return LUPINANON_BAD_ARGUMENT;
    }
    return lupinanon_proved_print(bytes ? bytes : &nothing, bytes_len, output ? output : &nothing, output_len,
                                  text_len);
}

int32_t lupinanon_script_into(const LupinanonLimits *limits, const uint8_t *bytes, size_t bytes_len, uint8_t *output,
                              size_t output_len, size_t *script_len, size_t *offset) {
    LupinanonLimits room;
    uint8_t nothing = 0;
    size_t not_needed;
    if (!offset) offset = &not_needed;
    *offset = LUPINANON_NO_OFFSET;
    if (script_len) *script_len = 0;
    if (!script_len || !limits) return LUPINANON_BAD_ARGUMENT;
    {
        Memory written[] = {{output, output_len}, MEMORY_OF(script_len), MEMORY_OF(offset)}, read = {bytes, bytes_len};
        limits = good_limits(&room, limits, read, written, 3);
    }
    if (!limits) return LUPINANON_BAD_ARGUMENT;
    return lupinanon_proved_script_into(WITHOUT_SIZE(limits), bytes ? bytes : &nothing, bytes_len,
                                        output ? output : &nothing, output_len, script_len, offset);
}

int32_t lupinanon_script_in(const LupinanonLimits *limits, const uint8_t *bytes, size_t bytes_len, uint8_t *output,
                            size_t output_len, size_t *script_len, size_t *offset, void *scratch, size_t scratch_len) {
    Memory others[] = {OF_LIMITS(limits), {bytes, bytes_len}, {output, output_len}, MEMORY_OF(script_len),
                       MEMORY_OF(offset)};
    Memory own = {scratch, scratch_len};
    int32_t status;
    Lent before;
    if (!may_lend(own, others, 5)) return lupinanon_script_into(NULL, NULL, 0, NULL, 0, script_len, offset);
    before = lend(own);
    status = lupinanon_script_into(limits, bytes, bytes_len, output, output_len, script_len, offset);
    lent = before;
    return status;
}

int32_t lupinanon_smaller(const LupinanonLimits *limits, const uint8_t *bytes, size_t bytes_len, size_t k,
                          uint8_t *output, size_t output_len, size_t *smaller_len) {
    LupinanonLimits room;
    uint8_t nothing = 0;
    if (smaller_len) *smaller_len = 0;
    if (!smaller_len) return LUPINANON_BAD_ARGUMENT;
    {
        Memory written[] = {{output, output_len}, MEMORY_OF(smaller_len)}, read = {bytes, bytes_len};
        int has_limits = limits != NULL;
        if (has_limits) limits = good_limits(&room, limits, read, written, 2);
        if (has_limits ? !limits : !may_pass(&read, 1, written, 2)) return LUPINANON_BAD_ARGUMENT;
    }
    if (!bytes) bytes = &nothing;
    if (!output) output = &nothing;
    if (!limits) return lupinanon_proved_smaller_formed(bytes, bytes_len, k, output, output_len, smaller_len);
    return lupinanon_proved_smaller(WITHOUT_SIZE(limits), bytes, bytes_len, k, output, output_len, smaller_len);
}

int32_t lupinanon_next_smaller(const LupinanonLimits *limits, const uint8_t *bytes, size_t bytes_len, size_t *step,
                               uint8_t *output, size_t output_len, size_t *smaller_len) {
    LupinanonLimits room;
    uint8_t nothing = 0;
    if (smaller_len) *smaller_len = 0;
    if (!smaller_len || !step) return LUPINANON_BAD_ARGUMENT;
    {
        Memory written[] = {{output, output_len}, MEMORY_OF(smaller_len), MEMORY_OF(step)}, read = {bytes, bytes_len};
        int has_limits = limits != NULL;
        if (has_limits) limits = good_limits(&room, limits, read, written, 3);
        if (has_limits ? !limits : !may_pass(&read, 1, written, 3)) return LUPINANON_BAD_ARGUMENT;
    }
    if (!bytes) bytes = &nothing;
    if (!output) output = &nothing;
    if (!limits) return lupinanon_proved_next_smaller_formed(bytes, bytes_len, step, output, output_len, smaller_len);
    return lupinanon_proved_next_smaller(WITHOUT_SIZE(limits), bytes, bytes_len, step, output, output_len, smaller_len);
}

int32_t lupinanon_without(const uint8_t *bytes, size_t bytes_len, size_t k, uint8_t *output, size_t output_len,
                          size_t *less_len) {
    uint8_t nothing = 0;
    if (less_len) *less_len = 0;
    if (!less_len) return LUPINANON_BAD_ARGUMENT;
    {
        Memory written[] = {{output, output_len}, MEMORY_OF(less_len)}, read = {bytes, bytes_len};
        if (!may_pass(&read, 1, written, 2)) return LUPINANON_BAD_ARGUMENT;
    }
    return lupinanon_proved_without(bytes ? bytes : &nothing, bytes_len, k, output ? output : &nothing, output_len,
                                    less_len);
}

int32_t lupinanon_join(const uint8_t *first, size_t first_len, const uint8_t *second, size_t second_len,
                       uint8_t *output, size_t output_len, size_t *joined_len) {
    uint8_t nothing = 0;
    if (joined_len) *joined_len = 0;
    if (!joined_len) return LUPINANON_BAD_ARGUMENT;
    {
        Memory written[] = {{output, output_len}, MEMORY_OF(joined_len)};
        Memory read[] = {{first, first_len}, {second, second_len}};
        if (!may_pass(read, 2, written, 2)) return LUPINANON_BAD_ARGUMENT;
    }
    return lupinanon_proved_join(first ? first : &nothing, first_len, second ? second : &nothing, second_len,
                                 output ? output : &nothing, output_len, joined_len);
}

int32_t lupinanon_change_count(const uint8_t *bytes, size_t bytes_len, size_t *count) {
    uint8_t nothing = 0;
    if (!count) return LUPINANON_BAD_ARGUMENT;
    *count = 0;
    {
        Memory written = MEMORY_OF(count), read = {bytes, bytes_len};
        if (!may_pass(&read, 1, &written, 1)) return LUPINANON_BAD_ARGUMENT;
    }
    return lupinanon_proved_change_count(bytes ? bytes : &nothing, bytes_len, count);
}

int32_t lupinanon_changed(const uint8_t *bytes, size_t bytes_len, size_t number, uint8_t *output, size_t output_len,
                          size_t *changed_len, int32_t *answer, size_t *rule, size_t *offset) {
    uint8_t nothing = 0;
    size_t no_rule, no_offset;
    int32_t status, no_answer;
    if (!answer) answer = &no_answer;
    if (!rule) rule = &no_rule;
    if (!offset) offset = &no_offset;
    *answer = LUPINANON_OUTSIDE;
    *rule = LUPINANON_NO_RULE;
    *offset = LUPINANON_NO_OFFSET;
    if (changed_len) *changed_len = 0;
    if (!changed_len) return LUPINANON_BAD_ARGUMENT;
    {
        Memory written[] = {{output, output_len}, MEMORY_OF(changed_len), MEMORY_OF(answer), MEMORY_OF(rule),
                            MEMORY_OF(offset)};
        Memory read = {bytes, bytes_len};
        if (!may_pass(&read, 1, written, 5)) return LUPINANON_BAD_ARGUMENT;
    }
    if (!output) output = &nothing;
    status = lupinanon_proved_changed(bytes ? bytes : &nothing, bytes_len, number, output, output_len, changed_len);
    if (status == LUPINANON_ANSWERED) *answer = lupinanon_proved_validate(output, *changed_len, rule, offset);
    return status;
}

/* Whether what is passed may be passed on to a search for the next bytes from a number on. */
static int may_seek(Memory bytes, Memory output, size_t *number, size_t *len) {
    Memory written[] = {output, MEMORY_OF(len), MEMORY_OF(number)};
    return may_pass(&bytes, 1, written, 3);
}

int32_t lupinanon_next_changed(const uint8_t *bytes, size_t bytes_len, size_t *number, uint8_t *output,
                               size_t output_len, size_t *changed_len) {
    uint8_t nothing = 0;
    Memory read = {bytes, bytes_len}, room = {output, output_len};
    if (changed_len) *changed_len = 0;
    if (!changed_len || !number || !may_seek(read, room, number, changed_len)) return LUPINANON_BAD_ARGUMENT;
    return lupinanon_proved_next_changed(bytes ? bytes : &nothing, bytes_len, number, output ? output : &nothing,
                                         output_len, changed_len);
}

int32_t lupinanon_next_miswritten(const uint8_t *bytes, size_t bytes_len, size_t *number, uint8_t *output,
                                  size_t output_len, size_t *miswritten_len) {
    uint8_t nothing = 0;
    Memory read = {bytes, bytes_len}, room = {output, output_len};
    if (miswritten_len) *miswritten_len = 0;
    if (!miswritten_len || !number || !may_seek(read, room, number, miswritten_len)) return LUPINANON_BAD_ARGUMENT;
    return lupinanon_proved_next_miswritten(bytes ? bytes : &nothing, bytes_len, number, output ? output : &nothing,
                                            output_len, miswritten_len);
}
