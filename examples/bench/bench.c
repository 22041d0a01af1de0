/* bench PASSES LENGTH FILE [SECTIONS [LENT]]: takes the file's bytes as inputs of that many bytes each, makes a component of
 * each in that many passes, and prints inputs a second, and bytes in and out. SECTIONS is finish_after, 0 if it is left out.
 * LENT is how many bytes of memory are lent to each call; if it is left out, or 0, the memory is malloc's. */
#include "measure.h"

static struct Inputs inputs;
static uint8_t output[1 << 20];

/* What is lent, or NULL, and how long it is. */
static uint8_t *scratch;
static size_t scratch_len;

static int32_t generate(const LupinanonLimits *limits, const uint8_t *input, size_t *len, size_t *left) {
    if (!scratch) return lupinanon_generate_into(limits, input, inputs.length, output, sizeof output, len, left);
    return lupinanon_generate_in(limits, input, inputs.length, output, sizeof output, len, left, scratch, scratch_len);
}

struct Counts {
    uint64_t inputs, bytes_in, bytes_out;
};

/* One pass over the inputs. */
static int pass(const LupinanonLimits *limits, struct Counts *counts) {
    size_t at, len, left, length = inputs.length;
    for (at = 0; at + length <= inputs.len; at += length) {
        if (generate(limits, inputs.bytes + at, &len, &left)) return 0;
        counts->inputs++;
        counts->bytes_in += length - left;
        counts->bytes_out += len;
    }
    return 1;
}

int main(int count, char **words) {
    struct Counts counts = {0, 0, 0};
    LupinanonLimits limits;
    double start, took;
    long passes = read_words(count == 6 ? 5 : count, words, &inputs, &limits);
    if (!passes) {
        fprintf(stderr, "usage: bench PASSES LENGTH FILE [SECTIONS [LENT]]\n");
        return 2;
    }
    scratch_len = count == 6 ? (size_t)atol(words[5]) : 0;
    if (scratch_len && !(scratch = malloc(scratch_len))) return 1;
    start = seconds();
    while (passes--) {
        if (!pass(&limits, &counts)) {
            fprintf(stderr, "bench: an input was refused\n");
            return 1;
        }
    }
    took = seconds() - start;
    printf("%.0f inputs a second; of %zu bytes, %.1f used; %.1f bytes each\n", (double)counts.inputs / took, inputs.length,
           (double)counts.bytes_in / (double)counts.inputs, (double)counts.bytes_out / (double)counts.inputs);
    return 0;
}
