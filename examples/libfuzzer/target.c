/* A target of libFuzzer and of AFL++: each input makes a component, which is passed to use_component, a function of yours.
 *
 * The library has no coverage of its own. So the target counts as coverage, for libFuzzer, the combinations that it sees
 * in a component: each thing with what it is in and what it refers to. */
#include "input_limits.h"
#include "lupinanon.h"
#include <stdlib.h>

/* What is done with a component, in another file. An answer other than 0 is a finding. */
int use_component(const uint8_t *bytes, size_t len);

#ifdef __has_attribute
#if defined(__linux__) && defined(__clang__)
__attribute__((section("__libfuzzer_extra_counters")))
#endif
#endif
static uint8_t seen[1 << 15];

/* The longest input for whose component there is always enough memory, unless the input says its limits. */
enum { MOST_INPUT = 1 << 14 };

/* Returns -1, so that the input is not kept, if its component is too large for this target, or memory runs out. */
int LLVMFuzzerTestOneInput(const uint8_t *data, size_t size) {
    static uint8_t output[1 << 16], scratch[LUPINANON_SCRATCH(MOST_INPUT)];
    size_t len, left, front;
    LupinanonLimits limits;
    int32_t status;
    front = limits_of_input(&limits, data, size);
    status = lupinanon_generate_in(&limits, data + front, size - front, output, sizeof output, &len, &left, scratch,
                                   sizeof scratch);
    if (status == LUPINANON_NO_ROOM || status == LUPINANON_OUT_OF_MEMORY) return -1;
    if (status != LUPINANON_ANSWERED || left > size - front) abort();
    status = lupinanon_features(&limits, data + front, size - front, seen, sizeof seen);
    if (status == LUPINANON_OUT_OF_MEMORY) return -1;
    if (status != LUPINANON_ANSWERED) abort();
    if (use_component(output, len)) abort();
    return 0;
}
