/* What is done with a component: put a call of what you test here. An answer other than 0 is a finding. */
#include "lupinanon.h"

int use_component(const uint8_t *bytes, size_t len);

int use_component(const uint8_t *bytes, size_t len) {
    int32_t status = lupinanon_check(bytes, len, NULL);
    return status != LUPINANON_WELL_FORMED && status != LUPINANON_OUT_OF_MEMORY;
}
