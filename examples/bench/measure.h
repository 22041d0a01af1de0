/* What the programs here share: the clock, and the inputs. */
#ifndef MEASURE_H
#define MEASURE_H

#include "lupinanon.h"
#include <stdio.h>
#include <time.h>

enum { MOST = 1 << 26 };

/* The bytes of a file, taken as inputs of `length` bytes each. */
struct Inputs {
    uint8_t bytes[MOST];
    size_t len, length;
};

/* How much time of a processor this process has taken. */
static double seconds(void) {
    struct timespec now;
    clock_gettime(CLOCK_PROCESS_CPUTIME_ID, &now);
    return (double)now.tv_sec + (double)now.tv_nsec * 1e-9;
}

/* Reads PASSES LENGTH FILE [SECTIONS], the words after the program's name. Returns how many passes there are, or 0 if
 * the words are others. SECTIONS is finish_after, 0 if it is left out. */
static long read_words(int count, char **words, struct Inputs *inputs, LupinanonLimits *limits) {
    long passes;
    FILE *file;
    if ((count != 4 && count != 5) || (passes = atol(words[1])) < 1 || atol(words[2]) < 1) return 0;
    if (!(file = fopen(words[3], "rb"))) return 0;
    inputs->length = (size_t)atol(words[2]);
    inputs->len = fread(inputs->bytes, 1, MOST, file);
    fclose(file);
    lupinanon_default_limits(limits, sizeof *limits);
    limits->finish_after = count == 5 ? (size_t)atol(words[4]) : 0;
    return passes;
}

#endif
