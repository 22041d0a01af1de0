/* The limits that an input is read within: the same in the target, in replay and in the custom mutator, which are built
 * with the same SWARM, MUST_VALIDATE and FINISH_AFTER. They are those of the profile `fuzz`, and a validator accepts each
 * component unless MUST_VALIDATE is 0. With FINISH_AFTER an input may finish a component that has so many sections: 0 is
 * for the custom mutators, since a component with fewer has no script.
 *
 * With SWARM the first bytes of the input encode limits over them, so that one run tries many, and components without
 * some kinds of parts (swarm testing): lupinanon_swarm_limits has which. */
#ifndef INPUT_LIMITS_H
#define INPUT_LIMITS_H

#include "lupinanon.h"

#ifndef MUST_VALIDATE
#define MUST_VALIDATE 1
#endif

/* Writes the limits, and returns how many bytes at the front of the input they take. */
static inline size_t limits_of_input(LupinanonLimits *limits, const uint8_t *data, size_t size) {
    size_t taken = 0;
    lupinanon_fuzz_limits(limits, sizeof *limits);
    limits->must_validate = MUST_VALIDATE;
#ifdef FINISH_AFTER
    limits->finish_after = FINISH_AFTER;
#endif
#ifdef SWARM
    if (lupinanon_swarm_limits(limits, data, size, &taken)) abort();
#else
    (void)data;
    (void)size;
#endif
    return taken;
}

#endif
