/* Inputs of any length and answers, for programs that are asked many times in one run. Each stands after a 4-byte little-endian length. */
#ifndef ANY_INPUT_H
#define ANY_INPUT_H

#include <stdio.h>
#include <stdlib.h>
#include "calls.h"

static void fail(const char *what) {
    fprintf(stderr, "%s\n", what);
    exit(2);
}

/* Reads an input as the listing program has them, and places its streams; 0 after the last. */
static uint8_t *read_input(struct input *in) {
    uint32_t length;
    int end = 0;
    if (fread(&length, sizeof length, 1, stdin) != 1) return 0;
    uint8_t *data = calloc(length + 1ul, 1);
    if (!data || fread(data, 1, length, stdin) != length) fail("an input that is cut");
    if (sscanf((char *)data, "tables=%zu\nstrings=%zu\nblob=%zu%n", &in->tables.length, &in->strings.length, &in->blob.length, &end) != 3)
        fail("a malformed input");
    in->tables.at = data + end + 1;
    in->strings.at = in->tables.at + in->tables.length;
    in->blob.at = in->strings.at + in->strings.length;
    if (in->blob.at + in->blob.length != data + length) fail("an input of another length");
    return data;
}

static void write_answer(const void *data, size_t n) {
    uint32_t length = (uint32_t)n;
    fwrite(&length, sizeof length, 1, stdout), fwrite(data, 1, n, stdout), fflush(stdout);
}

#endif
