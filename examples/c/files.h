/* Files as blocks of bytes. */
#ifndef FILES_H
#define FILES_H

#include <stddef.h>
#include <stdint.h>
#include <stdio.h>
#include <stdlib.h>

/* The file's bytes in a block, or NULL. */
static inline uint8_t *read_file(const char *path, size_t *len) {
    FILE *file = fopen(path, "rb");
    uint8_t *bytes = NULL;
    size_t room = 0, got;
    *len = 0;
    if (!file) return NULL;
    do {
        if (*len == room) {
            uint8_t *more = (uint8_t *)realloc(bytes, room = room ? 2 * room : 65536);
            if (!more) break;
            bytes = more;
        }
        got = fread(bytes + *len, 1, room - *len, file);
        *len += got;
    } while (got);
    if (ferror(file) || !feof(file)) {
        free(bytes);
        bytes = NULL;
    }
    fclose(file);
    return bytes;
}

/* Whether the bytes are written to the file. */
static inline int write_file(const char *path, const uint8_t *bytes, size_t len) {
    FILE *file = fopen(path, "wb");
    int written;
    if (!file) return 0;
    written = fwrite(bytes, 1, len, file) == len;
    return !fclose(file) && written;
}

#endif
