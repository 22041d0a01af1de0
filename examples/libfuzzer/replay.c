/* replay FILE: makes the component that the target makes of the file's bytes, and writes it to FILE.wasm. */
#include "files.h"
#include "input_limits.h"
#include <string.h>

/* Writes the component of an input, and prints its name and length. Returns whether that was done. */
static int replay(const char *path, const uint8_t *input, size_t input_len) {
    LupinanonLimits limits;
    uint8_t *bytes;
    size_t len, left, front = limits_of_input(&limits, input, input_len);
    int32_t status = lupinanon_generate(&limits, input + front, input_len - front, &bytes, &len, &left);
    if (status != LUPINANON_ANSWERED) {
        fprintf(stderr, "replay: %s\n", lupinanon_status_name(status));
        return 0;
    }
    if (!write_file(path, bytes, len)) {
        perror(path);
        free(bytes);
        return 0;
    }
    printf("%s: %zu bytes, %zu left\n", path, len, left);
    free(bytes);
    return 1;
}

int main(int count, char **words) {
    char path[4096];
    uint8_t *input;
    size_t len;
    int is_done;
    if (count != 2 || strlen(words[1]) + sizeof ".wasm" > sizeof path) {
        fprintf(stderr, "usage: replay FILE\n");
        return 2;
    }
    input = read_file(words[1], &len);
    if (!input) {
        perror(words[1]);
        return 2;
    }
    snprintf(path, sizeof path, "%s.wasm", words[1]);
    is_done = replay(path, input, len);
    free(input);
    return !is_done;
}
