/* What the programs share that hold answers against recorded ones: files and their cases, and the counts of what agreed and differed. */
#ifndef RECORDED_H
#define RECORDED_H

#include <stdio.h>
#include <stdlib.h>
#include <string.h>
#include "dotnet_tables.h"

typedef struct {
    uint8_t *at;
    size_t len;
} bytes;

enum { SHOWN = 10 }; /* lines that are printed, of those that are not as they should be */

static size_t agreed, differed;
static int wrong; /* whether what is replayed is wrong on purpose */

static inline bytes read_file(const char *path) {
    FILE *file = fopen(path, "rb");
    bytes all = {NULL, 0};
    if (!file || fseek(file, 0, SEEK_END)) exit((perror(path), 2));
    all.len = (size_t)ftell(file);
    all.at = malloc(all.len + 1);
    rewind(file);
    if (!all.at || fread(all.at, 1, all.len, file) != all.len) exit((perror(path), 2));
    all.at[all.len] = 0;
    fclose(file);
    return all;
}

static inline uint32_t word(const uint8_t *at) {
    return at[0] | (uint32_t)at[1] << 8 | (uint32_t)at[2] << 16 | (uint32_t)at[3] << 24;
}

/* Cuts the case at a place of a file into its input and its text, and goes past it; 0 after the last. */
static inline int next_case(bytes file, size_t *at, bytes *input, bytes *text) {
    if (*at + 8 > file.len) return 0;
    *input = (bytes){file.at + *at + 8, word(file.at + *at)};
    *text = (bytes){input->at + input->len, word(file.at + *at + 4)};
    *at += 8 + input->len + text->len;
    if (*at > file.len) exit(2);
    return 1;
}

static inline int zero_from(const uint8_t *buf, size_t from, size_t len) {
    while (from < len)
        if (buf[from++]) return 0;
    return 1;
}

/* Counts an answer, and prints it where it is not as it should be. */
static void tally(int agrees, const char *what) {
    size_t count = agrees ? ++agreed : ++differed;
    if (agrees == wrong && count <= SHOWN) printf("FAIL  %s\n", what);
}

/* Prints the counts, and answers whether there was something and all was as it should be. */
static int report(const char *what) {
    printf("%s%s: %zu agreed, %zu differed\n", what, wrong ? ", wrong on purpose" : "", agreed, differed);
    int well = wrong ? differed && !agreed : agreed && !differed;
    agreed = differed = 0;
    return well;
}

static inline int replay(const char *path, void (*each)(bytes), const char *what, int is_wrong) {
    bytes file = read_file(path);
    wrong = is_wrong;
    each(file);
    free(file.at);
    return report(what);
}

#endif
