/* What the custom mutators share: items of a component are removed, or it is joined with another, and the script of the
 * outcome is a new input. */
#ifndef MIX_H
#define MIX_H

#include "input_limits.h"
#include "lupinanon.h"
#include <stdlib.h>
#include <string.h>

enum { ROOM = 1 << 16, MOST_REMOVED = 4 };

/* Bytes of a component or of an input, and how many there are. */
typedef struct Bytes {
    uint8_t at[ROOM];
    size_t len;
} Bytes;

/* A state that is never 0. */
static uint64_t state = 1;

/* The next number of a xorshift generator, below `below`. */
static size_t random_below(size_t below) {
    state ^= state << 13;
    state ^= state >> 7;
    state ^= state << 17;
    return below ? (size_t)(state >> 8) % below : 0;
}

/* Writes the script of the component within the limits, and returns how long it is, or 0 if there is none or no room
 * for it. */
static size_t write_script(const LupinanonLimits *limits, const Bytes *component, uint8_t *output, size_t room) {
    size_t len;
    if (lupinanon_script_into(limits, component->at, component->len, output, room, &len, NULL) != LUPINANON_ANSWERED)
        return 0;
    return len;
}

/* Removes an item, if there is one. Which ones there are is not known: one at random below a bound, which is halved as
 * long as there is none. */
static void remove_item(Bytes *component) {
    static Bytes less;
    size_t bound;
    for (bound = component->len; bound > 0; bound /= 2) {
        size_t k = random_below(bound);
        if (lupinanon_without(component->at, component->len, k, less.at, ROOM, &less.len) == LUPINANON_ANSWERED) {
            memcpy(component->at, less.at, component->len = less.len);
            return;
        }
    }
}

static void remove_items(Bytes *component, size_t count) {
    while (count--) remove_item(component);
}

/* Joins the component with another, if the outcome has room. */
static void join(Bytes *component, const Bytes *other) {
    static Bytes joined;
    if (lupinanon_join(component->at, component->len, other->at, other->len, joined.at, ROOM, &joined.len) ==
        LUPINANON_ANSWERED)
        memcpy(component->at, joined.at, component->len = joined.len);
}

/* Removes some items of the component; if there is a second one, what is left of it by the same is joined before. */
static void mix_components(Bytes *component, Bytes *second) {
    if (second) {
        remove_items(second, random_below(MOST_REMOVED));
        join(component, second);
    }
    remove_items(component, 1 + random_below(MOST_REMOVED));
}

#endif
