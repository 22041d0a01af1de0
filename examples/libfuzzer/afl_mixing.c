/* A custom mutator for AFL++ and the target: a shared library, which AFL_CUSTOM_MUTATOR_LIBRARY names. Inputs are
 * changed by AFL++'s own mutations too, so that each of these is a component's script, or as it was. An input is
 * trimmed to the script of its component, and then by the steps of lupinanon_next_smaller. */
#include "mix.h"

enum { MOST_TRIED = 1000 };

/* Whether the input produces a component that has room. Writes the limits that it is read within, and how many bytes at
 * its front they take. */
static int generated(Bytes *component, LupinanonLimits *limits, size_t *front, const uint8_t *input, size_t len) {
    *front = limits_of_input(limits, input, len);
    return lupinanon_generate_into(limits, input + *front, len - *front, component->at, ROOM, &component->len, NULL) ==
           LUPINANON_ANSWERED;
}

/* Writes an input of the component of the first input without some of its items, within the limits of that input; if
 * there is a second one, some of the items of its component are joined to it. Returns how long the input is, or 0. */
static size_t mix(const uint8_t *input, size_t len, const uint8_t *other, size_t other_len, uint8_t *output,
                  size_t room) {
    static Bytes component, second;
    LupinanonLimits limits, others;
    size_t front, others_front, made;
    int is_joined;
    if (!generated(&component, &limits, &front, input, len)) return 0;
    if ((front && front == len) || front > room) return 0; /* not all of the limits are there, or there is no room */
    is_joined = other && generated(&second, &others, &others_front, other, other_len);
    mix_components(&component, is_joined ? &second : NULL);
    made = write_script(&limits, &component, output + front, room - front);
    memcpy(output, input, front);
    return made ? front + made : 0;
}

/* What is kept between the calls. */
typedef struct Mutator {
    uint8_t mixed[ROOM];
    /* Trimming: the smallest component so far, the next one that is tried, and its input, with limits in front. */
    Bytes smallest, next;
    uint8_t trimmed[ROOM];
    LupinanonLimits limits;
    size_t front, script_len;
    size_t most_script; /* so that no input gets longer */
    size_t step, tried;
} Mutator;

void *afl_custom_init(void *afl, unsigned int seed) {
    (void)afl;
    state = seed | 1;
    return malloc(sizeof(Mutator));
}

void afl_custom_deinit(Mutator *own) { free(own); }

size_t afl_custom_fuzz(Mutator *own, uint8_t *input, size_t len, uint8_t **output, uint8_t *other, size_t other_len,
                       size_t most) {
    size_t room = most < ROOM ? most : ROOM, made;
    if (!other || !other_len) {
        other = input;
        other_len = len;
    }
    made = mix(input, len, random_below(2) ? other : NULL, other_len, own->mixed, room);
    *output = made ? own->mixed : input;
    return made ? made : len;
}

/* Writes the input of the next component, and returns whether it is there and no longer than the input was. */
static int write_next(Mutator *own) {
    own->script_len = write_script(&own->limits, &own->next, own->trimmed + own->front, own->most_script);
    return own->script_len > 0;
}

/* Looks for the next smaller component, from that step on, whose input is no longer than the input was. */
static int find_next(Mutator *own) {
    while (own->tried++ < MOST_TRIED &&
           lupinanon_next_smaller(&own->limits, own->smallest.at, own->smallest.len, &own->step, own->next.at, ROOM,
                                  &own->next.len) == LUPINANON_ANSWERED) {
        if (write_next(own)) return 1;
        own->step++;
    }
    return 0;
}

/* Returns 1 if there is something to try, and else 0. First tried is the component itself, without what of the input it
 * leaves. */
int afl_custom_init_trim(Mutator *own, uint8_t *input, size_t len) {
    if (!generated(&own->smallest, &own->limits, &own->front, input, len)) return 0;
    if (len > ROOM || own->front == len) return 0;
    memcpy(own->trimmed, input, own->front);
    own->most_script = len - own->front;
    own->step = own->tried = 0;
    own->next = own->smallest;
    return write_next(own) || find_next(own);
}

size_t afl_custom_trim(Mutator *own, uint8_t **output) {
    *output = own->trimmed;
    return own->front + own->script_len;
}

/* Returns 0 if there is more to try, and else 1. */
int afl_custom_post_trim(Mutator *own, unsigned char success) {
    if (success)
        own->smallest = own->next;
    else
        own->step++;
    return !find_next(own);
}
