/* What is done with a component if USE names nothing else. An answer other than 0 is a finding. */
#include <stddef.h>
#include <stdint.h>
#include <string.h>

static int use_component(const uint8_t *bytes, size_t len) {
    static const uint8_t preamble[8] = {0x00, 0x61, 0x73, 0x6d, 0x0d, 0x00, 0x01, 0x00};
    return len < sizeof preamble || memcmp(bytes, preamble, sizeof preamble);
}
