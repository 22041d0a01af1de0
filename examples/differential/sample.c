/* A validator that looks at nothing but the preamble: the first change of a later byte that matters is a finding. */
#include <stddef.h>
#include <stdint.h>
#include <string.h>

int accepts(const uint8_t *bytes, size_t len);

int accepts(const uint8_t *bytes, size_t len) {
    static const uint8_t preamble[8] = {0x00, 0x61, 0x73, 0x6d, 0x0d, 0x00, 0x01, 0x00};
    return len >= sizeof preamble && !memcmp(bytes, preamble, sizeof preamble);
}
