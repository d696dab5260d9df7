/* Recorded inputs of the listing program, with their listings: the streams that a C program hands to the calls. */
#ifndef LISTED_H
#define LISTED_H

#include "calls.h"
#include "recorded.h"

/* Places the streams of an input. One that is no bundle, refusal 8, never reaches the library. */
static int open_streams(bytes input, bytes text, struct input *in) {
    size_t t, s, b;
    int head;
    if (text.len == 10 && !memcmp(text.at, "refused=8\n", 10)) return 0;
    if (sscanf((char *)input.at, "tables=%zu\nstrings=%zu\nblob=%zu%n", &t, &s, &b, &head) != 3) return 0;
    const uint8_t *at = input.at + head + 1;
    *in = (struct input){{at, t}, {at + t, s}, {at + t + s, b}, 0, NULL};
    return (size_t)head + 1 + t + s + b == input.len;
}

#endif
