/* Two threads make components at once, each in an output of its own, and produce the same bytes; so do four with memory
 * that is lent, which also judge the components and write their scripts. Then the deepest components are made, counted,
 * checked, validated and printed, and made again from their scripts, in a thread whose stack is as lupinanon.h says.
 * Built with -fsanitize=thread if the compiler has it. */
#include "lupinanon.h"
#include <pthread.h>
#include <stdio.h>
#include <stdlib.h>
#include <string.h>

enum { INPUT = 512, OUTPUT = 1 << 16, TEXT = 1 << 18, RUNS = 200, MOST_DEPTH = 1000, DEEP_INPUT = 4096 };

static uint8_t input[INPUT];

struct Made {
    uint8_t output[OUTPUT];
    size_t len, left;
    int32_t status;
};

static void *make(void *argument) {
    struct Made *made = (struct Made *)argument;
    LupinanonLimits limits;
    int run;
    lupinanon_default_limits(&limits, sizeof limits);
    for (run = 0; run < RUNS; run++) {
        made->status = lupinanon_generate_into(&limits, input, INPUT, made->output, OUTPUT, &made->len, &made->left);
        if (made->status) break;
    }
    return NULL;
}

/* What a thread that is lent memory makes, and whether it is as it should be in each run. */
struct Lent {
    uint8_t scratch[LUPINANON_SCRATCH(INPUT)], output[OUTPUT], script[OUTPUT];
    size_t len, left;
    int is_right;
};

static int make_lent_once(struct Lent *lent, const LupinanonLimits *limits) {
    size_t room = sizeof lent->scratch, script_len;
    if (lupinanon_generate_in(limits, input, INPUT, lent->output, OUTPUT, &lent->len, &lent->left, lent->scratch, room))
        return 0;
    if (lupinanon_check_in(lent->output, lent->len, NULL, lent->scratch, room)) return 0;
    if (lupinanon_validate_in(lent->output, lent->len, NULL, NULL, lent->scratch, room) == LUPINANON_OUT_OF_MEMORY)
        return 0;
    return !lupinanon_script_in(limits, lent->output, lent->len, lent->script, OUTPUT, &script_len, NULL, lent->scratch,
                                room);
}

static void *make_lent(void *argument) {
    struct Lent *lent = (struct Lent *)argument;
    LupinanonLimits limits;
    int run;
    lupinanon_default_limits(&limits, sizeof limits);
    lent->is_right = 1;
    for (run = 0; run < RUNS && lent->is_right; run++) lent->is_right = make_lent_once(lent, &limits);
    return NULL;
}

static int four_threads_are_lent_memory(void) {
    static struct Lent lent[4];
    static struct Made made;
    pthread_t threads[4];
    int place;
    for (place = 0; place < 4; place++)
        if (pthread_create(&threads[place], NULL, make_lent, &lent[place])) return 0;
    make(&made);
    for (place = 0; place < 4; place++)
        if (pthread_join(threads[place], NULL)) return 0;
    for (place = 0; place < 4; place++) {
        if (!lent[place].is_right || lent[place].len != made.len || lent[place].left != made.left) return 0;
        if (memcmp(lent[place].output, made.output, made.len)) return 0;
    }
    printf("threads: %zu bytes four times, with lent memory\n", made.len);
    return 1;
}

static int two_threads_make_the_same(void) {
    static struct Made made[2];
    pthread_t threads[2];
    int place;
    for (place = 0; place < INPUT; place++) input[place] = (uint8_t)((place * 7 + 3) % 251);
    for (place = 0; place < 2; place++)
        if (pthread_create(&threads[place], NULL, make, &made[place])) return 0;
    for (place = 0; place < 2; place++)
        if (pthread_join(threads[place], NULL)) return 0;
    if (made[0].status || made[1].status || made[0].len != made[1].len) return 0;
    if (made[0].left != made[1].left || memcmp(made[0].output, made[1].output, made[0].len)) return 0;
    printf("threads: %zu bytes twice\n", made[0].len);
    return 1;
}

/* An input whose component nests as deep as its limits allow, and what becomes of it. */
struct Deep {
    size_t depth;
    uint8_t input[DEEP_INPUT];
    size_t input_len, len;
    int32_t made, counted, checked, validated, printed, scripted, made_again, too_deep;
    int is_same;
};

static void put(struct Deep *deep, uint8_t byte) { deep->input[deep->input_len++] = byte; }

/* Bool, and types of components (2) or of instances (3) in one another, the last of which has an alias of bool. */
static void put_types(struct Deep *deep, uint8_t choice) {
    static const uint8_t first[] = {3, 1, 0, 0, 0, 1};
    size_t place;
    for (place = 0; place < sizeof first; place++) put(deep, first[place]);
    put(deep, choice);
    for (place = 2; place < deep->depth; place++) {
        put(deep, 1);
        put(deep, 2);
        put(deep, choice);
    }
    put(deep, 1);
    put(deep, 2);
    for (place = 0; place < deep->depth; place++) put(deep, 0);
}

/* Components in one another. */
static void put_components(struct Deep *deep) {
    size_t place;
    for (place = 1; place < deep->depth; place++) put(deep, 7);
}

static void *make_and_check(void *argument) {
    static uint8_t output[OUTPUT], text[TEXT], script[OUTPUT], again[OUTPUT], counters[OUTPUT];
    struct Deep *deep = (struct Deep *)argument;
    size_t text_len, script_len, again_len;
    LupinanonLimits limits;
    lupinanon_default_limits(&limits, sizeof limits);
    limits.max_nesting_depth = deep->depth;
    limits.max_components = MOST_DEPTH;
    limits.max_type_size = 10 * MOST_DEPTH;
    deep->made = lupinanon_generate_into(&limits, deep->input, deep->input_len, output, OUTPUT, &deep->len, NULL);
    deep->counted = lupinanon_features(&limits, deep->input, deep->input_len, counters, sizeof counters);
    deep->checked = lupinanon_check(output, deep->len, NULL);
    deep->validated = lupinanon_validate(output, deep->len, NULL, NULL);
    deep->printed = lupinanon_print(output, deep->len, text, TEXT, &text_len);
    deep->scripted = lupinanon_script_into(&limits, output, deep->len, script, OUTPUT, &script_len, NULL);
    deep->made_again = lupinanon_generate_into(&limits, script, script_len, again, OUTPUT, &again_len, NULL);
    deep->is_same = again_len == deep->len && !memcmp(again, output, again_len);
    limits.max_nesting_depth--;
    deep->too_deep = lupinanon_script_into(&limits, output, deep->len, script, OUTPUT, &script_len, NULL);
    return NULL;
}

static int has_room(struct Deep *deep, size_t len) {
    size_t size = LUPINANON_STACK(deep->depth) / 6 * 5; /* a fifth is to spare */
    pthread_attr_t attributes;
    pthread_t thread;
    if (pthread_attr_init(&attributes) || pthread_attr_setstacksize(&attributes, size)) return 0;
    if (pthread_create(&thread, &attributes, make_and_check, deep) || pthread_join(thread, NULL)) return 0;
    pthread_attr_destroy(&attributes);
    printf("threads: %zu bytes, %zu deep, in %zu bytes of stack\n", deep->len, deep->depth, size);
    if (deep->made || deep->counted || deep->checked != LUPINANON_WELL_FORMED || deep->len != len) return 0;
    if (deep->validated != LUPINANON_VALID || deep->printed != LUPINANON_ANSWERED) return 0;
    return !deep->scripted && !deep->made_again && deep->is_same && deep->too_deep == LUPINANON_NO_SCRIPT;
}

/* Types take 12 bytes before them, 3 each, and 4 more for the last; of 1000 deep, a length and a count have a byte
 * more. Components take 8 bytes for the root and 10 each, but 11 if the length passes 127: of all but the inner 12. */
static int the_stack_is_enough(void) {
    static struct Deep deep[] = {{.depth = 10},         {.depth = 10},         {.depth = 10},
                                 {.depth = MOST_DEPTH}, {.depth = MOST_DEPTH}, {.depth = MOST_DEPTH}};
    static const size_t len[] = {43, 43, 98, 3015, 3015, 10985};
    int place;
    for (place = 0; place < 6; place += 3) {
        put_types(&deep[place], 2);
        put_types(&deep[place + 1], 3);
        put_components(&deep[place + 2]);
    }
    for (place = 0; place < 6; place++)
        if (!has_room(&deep[place], len[place])) return 0;
    return 1;
}

int main(void) {
    return two_threads_make_the_same() && four_threads_are_lent_memory() && the_stack_is_enough() ? 0 : 1;
}
