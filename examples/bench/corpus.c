/* corpus LENGTH: writes that many bytes on standard output, the same each time. */
#include "random.h"
#include <stdio.h>
#include <stdlib.h>

int main(int count, char **words) {
    uint64_t state = RANDOM_START;
    long length = count == 2 ? atol(words[1]) : 0;
    while (length-- > 0) putchar(random_byte(&state));
    return fflush(stdout) ? 1 : 0;
}
