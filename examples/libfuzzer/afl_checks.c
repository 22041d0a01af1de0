/* afl_checks MIXING COMPONENTS: calls the two custom mutators as AFL++ does, on inputs that are the same each time, and
 * compares what they pass on and trim with what lupinanon_generate makes. */
#include "input_limits.h"
#include "lupinanon.h"
#include "random.h"
#include <dlfcn.h>
#include <stdio.h>
#include <stdlib.h>
#include <string.h>

enum { INPUTS = 20, MOST_INPUT = 512, TYPES = 7, TOO_LARGE = 1 << 18, NEARLY_NOTHING = 16 };

/* The functions of a custom mutator, and what they keep. */
typedef struct Mutator {
    void *own;
    size_t (*fuzz)(void *own, uint8_t *input, size_t len, uint8_t **output, uint8_t *other, size_t other_len,
                   size_t most);
    int (*init_trim)(void *own, uint8_t *input, size_t len);
    size_t (*trim)(void *own, uint8_t **output);
    int (*post_trim)(void *own, unsigned char success);
    size_t (*post_process)(void *own, uint8_t *input, size_t len, uint8_t **output);
    void (*deinit)(void *own);
} Mutator;

typedef struct Input {
    uint8_t at[MOST_INPUT];
    size_t len;
} Input;

#define WANT(x)                                            \
    do {                                                   \
        if (!(x)) {                                        \
            printf("line %d: not so: %s\n", __LINE__, #x); \
            return 0;                                      \
        }                                                  \
    } while (0)

/* ISO C has no cast from an object pointer to one of a function. */
#define LOAD(library, mutator, name)                             \
    do {                                                         \
        void *found = dlsym(library, "afl_custom_" #name);       \
        memcpy(&(mutator)->name, &found, sizeof(mutator)->name); \
    } while (0)

static int load(Mutator *mutator, const char *path) {
    void *library = dlopen(path, RTLD_NOW), *found;
    void *(*init)(void *afl, unsigned int seed);
    WANT(library && (found = dlsym(library, "afl_custom_init")));
    memcpy(&init, &found, sizeof init);
    LOAD(library, mutator, fuzz);
    LOAD(library, mutator, init_trim);
    LOAD(library, mutator, trim);
    LOAD(library, mutator, post_trim);
    LOAD(library, mutator, post_process);
    LOAD(library, mutator, deinit);
    WANT(mutator->fuzz && mutator->init_trim && mutator->trim && mutator->post_trim && mutator->deinit);
    WANT((mutator->own = init(NULL, 1)));
    return 1;
}

static void draw(Input *input, uint64_t *state) {
    size_t k;
    input->len = 1 + (random_byte(state) << 8 | random_byte(state)) % MOST_INPUT;
    for (k = 0; k < input->len; k++) input->at[k] = random_byte(state);
}

/* The component that lupinanon_generate makes of an input, in a block, or NULL. */
static uint8_t *component_of(const uint8_t *input, size_t len, size_t *component_len, size_t *left) {
    LupinanonLimits limits;
    uint8_t *bytes;
    size_t front = limits_of_input(&limits, input, len);
    lupinanon_generate(&limits, input + front, len - front, &bytes, component_len, left);
    return bytes;
}

/* Whether the mutator passes on the component of the input, and that component as it is. */
static int passes_on(const Mutator *mutator, Input *input) {
    size_t len, left;
    uint8_t *component, *output = NULL;
    WANT((component = component_of(input->at, input->len, &len, &left)));
    WANT(mutator->post_process(mutator->own, input->at, input->len, &output) == len && !memcmp(output, component, len));
    WANT(mutator->post_process(mutator->own, component, len, &output) == len && !memcmp(output, component, len));
    free(component);
    return 1;
}

/* Whether an input whose component is too large is passed on as the empty component. */
static int passes_on_no_more_than_has_room(const Mutator *mutator) {
    static uint8_t input[TOO_LARGE];
    uint8_t *output = NULL;
    size_t at;
    input[0] = 1; /* a custom section, without a name */
    for (at = 3; at + 1 < sizeof input; at += 2) input[at] = 1;
    WANT(mutator->post_process(mutator->own, input, sizeof input, &output) == 8 && output);
    WANT(lupinanon_check(output, 8, NULL) == LUPINANON_WELL_FORMED);
    return 1;
}

/* The component that runs if AFL++ has this input, in a block, or NULL. */
static uint8_t *passed_on(const Mutator *mutator, uint8_t *input, size_t len, size_t *component_len) {
    uint8_t *output, *component;
    size_t left;
    if (!mutator->post_process) return component_of(input, len, component_len, &left);
    *component_len = mutator->post_process(mutator->own, input, len, &output);
    component = malloc(*component_len);
    return component ? memcpy(component, output, *component_len) : NULL;
}

/* What inputs are trimmed for: any component, none, or one whose first section is of types. */
typedef enum Wanted { ANY, NONE, FIRST_TYPES } Wanted;

static int is_wanted(Wanted wanted, const uint8_t *component, size_t len) {
    return wanted == ANY || (wanted == FIRST_TYPES && len > 8 && component[8] == TYPES);
}

/* Trims the input as AFL++ does. Returns whether each that is tried is no longer than the input and makes a component
 * no longer than that of the last one that was wanted, and whether there is an end. */
static int trim(const Mutator *mutator, Input *input, Wanted wanted) {
    size_t best, len, tried_len, given = input->len;
    int at = 0, steps, is_good;
    free(passed_on(mutator, input->at, input->len, &best));
    steps = mutator->init_trim(mutator->own, input->at, input->len);
    while (at < steps) {
        uint8_t *tried = NULL, *component;
        tried_len = mutator->trim(mutator->own, &tried);
        WANT(tried && tried_len && tried_len <= given);
        WANT((component = passed_on(mutator, tried, tried_len, &len)) && len <= best);
        if ((is_good = is_wanted(wanted, component, len))) {
            memcpy(input->at, tried, input->len = tried_len);
            best = len;
        }
        free(component);
        at = mutator->post_trim(mutator->own, (unsigned char)is_good);
    }
    return 1;
}

/* Whether an input is trimmed if that keeps what is wanted. If all is wanted, a component becomes nearly nothing. */
static int trims(const Mutator *mutator, const Input *input) {
    Input trimmed = *input;
    size_t len;
    uint8_t *component;
    int had;
    WANT(trim(mutator, &trimmed, NONE) && trimmed.len == input->len && !memcmp(trimmed.at, input->at, input->len));
    WANT((component = passed_on(mutator, trimmed.at, trimmed.len, &len)));
    had = is_wanted(FIRST_TYPES, component, len);
    free(component);
    WANT(trim(mutator, &trimmed, FIRST_TYPES));
    WANT((component = passed_on(mutator, trimmed.at, trimmed.len, &len)));
    WANT(!had || is_wanted(FIRST_TYPES, component, len));
    free(component);
    WANT(trim(mutator, &trimmed, ANY));
    WANT((component = passed_on(mutator, trimmed.at, trimmed.len, &len)));
    WANT(len <= NEARLY_NOTHING || !mutator->post_process);
    free(component);
    return 1;
}

/* Whether an input is mutated to one within the room whose component is well formed. */
static int mutates(const Mutator *mutator, Input *input, Input *other, Input *mutated) {
    uint8_t *output = NULL, *component;
    size_t len;
    mutated->len = mutator->fuzz(mutator->own, input->at, input->len, &output, other->at, other->len, MOST_INPUT);
    WANT(output && mutated->len && mutated->len <= MOST_INPUT);
    memcpy(mutated->at, output, mutated->len);
    WANT((component = passed_on(mutator, mutated->at, mutated->len, &len)));
    WANT(lupinanon_check(component, len, NULL) == LUPINANON_WELL_FORMED);
    free(component);
    return 1;
}

/* Whether the mutator for components does well with one: it takes it for an input, and trims it. */
static int takes_component(const Mutator *mutator, Input *input, Input *other) {
    Input component, mutated;
    size_t len, left;
    uint8_t *bytes = component_of(input->at, input->len, &len, &left);
    WANT(bytes);
    if (len > sizeof component.at) {
        free(bytes);
        return 1;
    }
    memcpy(component.at, bytes, component.len = len);
    free(bytes);
    return mutates(mutator, &component, other, &mutated) && trims(mutator, &component);
}

static int check(const char *mixing, const char *components) {
    static Mutator one, other;
    static Input input, next, mutated;
    uint64_t state = RANDOM_START;
    int k;
    WANT(load(&one, mixing) && load(&other, components) && !one.post_process && other.post_process);
    draw(&next, &state);
    for (k = 0; k < INPUTS; k++) {
        input = next;
        draw(&next, &state);
        WANT(mutates(&one, &input, &next, &mutated) && trims(&one, &input));
        WANT(mutates(&other, &input, &next, &mutated) && passes_on(&other, &input));
        WANT(takes_component(&other, &input, &next));
    }
    WANT(passes_on_no_more_than_has_room(&other));
    one.deinit(one.own);
    other.deinit(other.own);
    return 1;
}

int main(int count, char **words) {
    if (count != 3) {
        fprintf(stderr, "usage: afl_checks MIXING COMPONENTS\n");
        return 2;
    }
    return !check(words[1], words[2]);
}
