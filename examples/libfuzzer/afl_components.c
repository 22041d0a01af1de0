/* A custom mutator for AFL++ and any program that reads a component, with no target written for it: a shared library,
 * which AFL_CUSTOM_MUTATOR_LIBRARY names. What runs is given the component of each input, and AFL++ keeps that one as
 * an input. So an input that is a component is taken as it is: it is mutated by way of its script, and trimmed by the
 * steps of lupinanon_next_smaller. */

/* A component does not say within which limits it was made, so that they are always the same. Each has a script. */
#undef SWARM
#undef FINISH_AFTER
#define FINISH_AFTER 0
#include "mix.h"

enum { MOST_TRIED = 1000, MOST_CHANGES = 4 };

/* What is kept between the calls. */
typedef struct Mutator {
    LupinanonLimits limits, edited; /* of inputs, and of scripts: for these no number of sections is the least */
    Bytes passed_on;
    /* Mutation: the components of inputs, and the script of the outcome. */
    Bytes component, second;
    uint8_t script[ROOM];
    /* Trimming: the smallest component so far, and the next one that is tried. */
    Bytes smallest, next;
    size_t step, tried;
} Mutator;

void *afl_custom_init(void *afl, unsigned int seed) {
    Mutator *own = malloc(sizeof(Mutator));
    (void)afl;
    state = seed | 1;
    if (own) {
        limits_of_input(&own->limits, NULL, 0);
        own->edited = own->limits;
        own->edited.finish_after = 0;
    }
    return own;
}

void afl_custom_deinit(Mutator *own) { free(own); }

/* Writes the component that the input is, or else the one that it produces, and returns whether it has room. */
static int read_component(const Mutator *own, Bytes *component, const uint8_t *input, size_t len) {
    if (len <= ROOM && lupinanon_check(input, len, NULL) == LUPINANON_WELL_FORMED) {
        memcpy(component->at, input, component->len = len);
        return 1;
    }
    return lupinanon_generate_into(&own->limits, input, len, component->at, ROOM, &component->len, NULL) ==
           LUPINANON_ANSWERED;
}

/* Passes on the component of an input; if that has no room, the empty one, since some versions stop if given none. */
size_t afl_custom_post_process(Mutator *own, uint8_t *input, size_t len, uint8_t **output) {
    static const uint8_t empty[] = {0x00, 0x61, 0x73, 0x6d, 0x0d, 0x00, 0x01, 0x00};
    Bytes *made = &own->passed_on;
    if (!read_component(own, made, input, len)) memcpy(made->at, empty, made->len = sizeof empty);
    *output = made->at;
    return made->len;
}

/* Sets, inserts or removes a byte of the script, and returns how long it is then. */
static size_t change_byte(uint8_t *script, size_t len, size_t room) {
    size_t at = random_below(len);
    switch (random_below(3)) {
    case 0:
        script[at] = (uint8_t)random_below(256);
        return len;
    case 1:
        if (len == room) return len;
        memmove(script + at + 1, script + at, len - at);
        script[at] = (uint8_t)random_below(256);
        return len + 1;
    default:
        memmove(script + at, script + at + 1, len - at - 1);
        return len - 1;
    }
}

/* Half of the inputs are mutated as components, and the others byte by byte in their script. The outcome is a
 * component, or the input if there is none or no room for it. */
size_t afl_custom_fuzz(Mutator *own, uint8_t *input, size_t len, uint8_t **output, uint8_t *other, size_t other_len,
                       size_t most) {
    size_t room = most < ROOM ? most : ROOM, made, changes = 1 + random_below(MOST_CHANGES);
    int is_mixed = random_below(2) != 0, is_joined;
    *output = input;
    if (!read_component(own, &own->component, input, len)) return len;
    is_joined = is_mixed && random_below(2) && other && read_component(own, &own->second, other, other_len);
    if (is_mixed) mix_components(&own->component, is_joined ? &own->second : NULL);
    made = write_script(&own->edited, &own->component, own->script, ROOM);
    while (!is_mixed && made > 1 && changes--) made = change_byte(own->script, made, ROOM);
    if (!made || lupinanon_generate_into(&own->edited, own->script, made, own->component.at, room, &own->component.len,
                                         NULL) != LUPINANON_ANSWERED)
        return len;
    *output = own->component.at;
    return own->component.len;
}

/* Looks for the next smaller component from that step on. */
static int find_next(Mutator *own) {
    return own->tried++ < MOST_TRIED &&
           lupinanon_next_smaller(&own->edited, own->smallest.at, own->smallest.len, &own->step, own->next.at, ROOM,
                                  &own->next.len) == LUPINANON_ANSWERED;
}

/* Returns 1 if there is something to try, and else 0. Only components are trimmed: what is tried is no longer then. */
int afl_custom_init_trim(Mutator *own, uint8_t *input, size_t len) {
    if (len > ROOM || lupinanon_check(input, len, NULL) != LUPINANON_WELL_FORMED) return 0;
    memcpy(own->smallest.at, input, own->smallest.len = len);
    own->step = own->tried = 0;
    return find_next(own);
}

size_t afl_custom_trim(Mutator *own, uint8_t **output) {
    *output = own->next.at;
    return own->next.len;
}

/* Returns 0 if there is more to try, and else 1. */
int afl_custom_post_trim(Mutator *own, unsigned char success) {
    if (success)
        own->smallest = own->next;
    else
        own->step++;
    return !find_next(own);
}
