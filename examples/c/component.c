/* component FILE: makes a component of the file's bytes, writes it to FILE.wasm, and prints what is left. */
#include "files.h"
#include "lupinanon.h"
#include <string.h>

int main(int count, char **words) {
    char path[4096];
    uint8_t *input, *bytes;
    size_t input_len, bytes_len, left;
    int32_t status;
    if (count != 2 || strlen(words[1]) + sizeof ".wasm" > sizeof path) {
        fprintf(stderr, "usage: component FILE\n");
        return 2;
    }
    input = read_file(words[1], &input_len);
    if (!input) {
        perror(words[1]);
        return 2;
    }
    status = lupinanon_generate(NULL, input, input_len, &bytes, &bytes_len, &left);
    free(input);
    if (status != LUPINANON_ANSWERED) {
        fprintf(stderr, "%s: %s\n", words[1], lupinanon_status_name(status));
        return 1;
    }
    snprintf(path, sizeof path, "%s.wasm", words[1]);
    if (!write_file(path, bytes, bytes_len)) {
        perror(path);
        free(bytes);
        return 2;
    }
    printf("%s: %zu bytes, %zu left\n", path, bytes_len, left);
    free(bytes);
    return 0;
}
