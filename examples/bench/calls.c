/* calls PASSES LENGTH FILE [SECTIONS]: takes the file's bytes as inputs of that many bytes each, and calls generate, check
 * and script in that many passes over all of them. For each it prints how many components it does a second, and how many of
 * their bytes. SECTIONS is finish_after, 0 if it is left out. */
#include "measure.h"

static struct Inputs inputs;
static uint8_t output[1 << 22];

/* The components of the inputs, one after another, and how long each is. */
static uint8_t components[MOST];
static size_t lengths[MOST / 16];
static size_t number, total;

/* Makes the component of each input once, and returns whether none is refused and there is room. */
static int make_components(const LupinanonLimits *limits) {
    size_t at, length = inputs.length;
    for (at = 0; at + length <= inputs.len; at += length) {
        if (number == MOST / 16) return 0;
        if (lupinanon_generate_into(limits, inputs.bytes + at, length, components + total, MOST - total, lengths + number, NULL))
            return 0;
        total += lengths[number++];
    }
    return number > 0;
}

static int generates(const LupinanonLimits *limits, size_t index, const uint8_t *component) {
    size_t len;
    (void)component;
    return !lupinanon_generate_into(limits, inputs.bytes + index * inputs.length, inputs.length, output, sizeof output, &len, NULL);
}

static int checks(const LupinanonLimits *limits, size_t index, const uint8_t *component) {
    (void)limits;
    return lupinanon_check(component, lengths[index], NULL) == LUPINANON_WELL_FORMED;
}

/* With finish_after an input may end within a component, which then has a script only without it. */
static int scripts(const LupinanonLimits *limits, size_t index, const uint8_t *component) {
    LupinanonLimits all = *limits;
    size_t len;
    all.finish_after = 0;
    return !lupinanon_script_into(&all, component, lengths[index], output, sizeof output, &len, NULL);
}

/* Calls it for each component in that many passes, and prints how fast it is. */
static int measure(const char *name, int (*call)(const LupinanonLimits *, size_t, const uint8_t *), long passes,
                   const LupinanonLimits *limits) {
    double took, start = seconds();
    size_t index, at;
    long pass;
    for (pass = 0; pass < passes; pass++) {
        for (index = at = 0; index < number; at += lengths[index++]) {
            if (!call(limits, index, components + at)) return 0;
        }
    }
    took = seconds() - start;
    printf("%-8s %10.0f components a second, %6.1f MB of them\n", name, (double)number * (double)passes / took,
           (double)total * (double)passes / took / 1e6);
    return 1;
}

int main(int count, char **words) {
    LupinanonLimits limits;
    long passes = read_words(count, words, &inputs, &limits);
    if (!passes) {
        fprintf(stderr, "usage: calls PASSES LENGTH FILE [SECTIONS]\n");
        return 2;
    }
    if (!make_components(&limits) || !measure("generate", generates, passes, &limits) ||
        !measure("check", checks, passes, &limits) || !measure("script", scripts, passes, &limits)) {
        fprintf(stderr, "calls: an input or a component was refused\n");
        return 1;
    }
    return 0;
}
