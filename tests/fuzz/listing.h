/* The listing of an input, by the library's calls for C: the same text as the listing program writes, in memory. */
#ifndef LISTING_H
#define LISTING_H

#include <stdio.h>
#include <stdlib.h>
#include <string.h>
#include "calls.h"

#define LONGEST 4096 /* bytes of a value that is listed */

struct listing { const struct input *in; char *text; size_t length, room; };

static void put(struct listing *to, const void *data, size_t n) {
    if (to->length + n > to->room) {
        to->text = realloc(to->text, to->room = 2 * (to->length + n));
        if (!to->text) abort();
    }
    memcpy(to->text + to->length, data, n);
    to->length += n;
}

static void put_number(struct listing *to, const char *key, uint64_t n) {
    char digits[20], *at = digits + sizeof digits;
    do *--at = (char)('0' + n % 10);
    while (n /= 10);
    put(to, key, strlen(key)), put(to, at, (size_t)(digits + sizeof digits - at)), put(to, "\n", 1);
}

static uint64_t number_of(struct listing *to, int call, const uint32_t *r) {
    dn_reply reply = calls[call].ask(to->in, r, (struct buffer){ 0, 0 });
    return reply.refusal ? 0 : reply.value;
}

/* A line with a number that may be missing: then it is the key alone. */
static void put_if_there(struct listing *to, const char *key, int call, const uint32_t *r) {
    dn_reply reply = calls[call].ask(to->in, r, (struct buffer){ 0, 0 });
    if (reply.refusal) put(to, key, strlen(key)), put(to, "\n", 1);
    else put_number(to, key, reply.value);
}

/* A value as it is written: a byte below 0x22, above 0x7E, or equal to 0x25 as a percent sign and two digits. */
static void put_value(struct listing *to, const uint8_t *value, size_t n) {
    static const char digits[] = "0123456789ABCDEF";
    for (size_t i = 0; i < n; i++) {
        uint8_t b = value[i];
        if (b < 0x22 || b > 0x7E || b == '%') put(to, (const char[]){ '%', digits[b / 16], digits[b % 16] }, 3);
        else put(to, value + i, 1);
    }
}

/* A line with a name: 5 is the key alone, 6 a name that is too long, 11 one that takes too many steps. */
static void put_name(struct listing *to, const char *key, int call, const uint32_t *r) {
    uint8_t value[LONGEST];
    dn_reply reply = calls[call].ask(to->in, r, (struct buffer){ value, sizeof value });
    put(to, key, strlen(key));
    if (reply.refusal == DN_BUFFER_TOO_SMALL || reply.refusal == DN_TOO_MANY_STEPS) put(to, "!", 1);
    if (!reply.refusal) put_value(to, value, reply.value);
    put(to, "\n", 1);
}

/* Names that take too many steps have one line, which is that of the first. */
static void put_names(struct listing *to, const char *key, int counts, int call, uint32_t *r, int place) {
    dn_reply count = calls[counts].ask(to->in, r, (struct buffer){ 0, 0 });
    uint64_t n = count.refusal == DN_TOO_MANY_STEPS ? 1 : count.value;
    for (r[place] = 0; r[place] < n; r[place]++) put_name(to, key, call, r);
    r[place] = 0;
}

static void list_method(struct listing *to, uint32_t *r) {
    put_name(to, "method=", METHOD_NAME, r);
    put_number(to, "mflags=", number_of(to, METHOD_FLAGS, r));
    put_names(to, "mgeneric=", METHOD_GENERIC_COUNT, METHOD_GENERIC_NAME, r, 2);
    put_name(to, "returns=", RETURN_TYPE, r);
    uint64_t n = number_of(to, PARAM_COUNT, r);
    for (r[2] = 0; r[2] < n; r[2]++) put_name(to, "ptype=", PARAM_TYPE, r), put_name(to, "pname=", PARAM_NAME, r);
    r[2] = 0;
}

static void list_class(struct listing *to, uint32_t *r) {
    put_name(to, "class=", CLASS_NAME, r);
    put_number(to, "flags=", number_of(to, CLASS_FLAGS, r));
    put_if_there(to, "packing=", CLASS_PACKING, r), put_if_there(to, "size=", CLASS_SIZE, r);
    put_names(to, "generic=", GENERIC_COUNT, GENERIC_NAME, r, 1);
    put_names(to, "base=", BASE_COUNT, BASE_NAME, r, 1);
    uint64_t n = number_of(to, METHOD_COUNT, r);
    for (r[1] = 0; r[1] < n; r[1]++) list_method(to, r);
    r[1] = 0;
}

static void list(struct listing *to) {
    uint32_t r[3] = { 0, 0, 0 };
    dn_reply stop = calls[WALK_STOP].ask(to->in, r, (struct buffer){ 0, 0 });
    if (stop.refusal) {
        put_number(to, "refused=", stop.refusal);
        return;
    }
    uint64_t n = number_of(to, CLASS_COUNT, r);
    put_number(to, "stop=", stop.value), put_number(to, "classes=", n);
    for (r[0] = 0; r[0] < n; r[0]++) list_class(to, r);
}

#define MOST 65536 /* bytes of an input of the listing program */

/* A line `key=N`, N in decimal without leading zeros; the bytes after it, or 0 where there is no such line. */
static const uint8_t *number_line(const uint8_t *at, const uint8_t *end, const char *key, size_t *n) {
    size_t size = strlen(key);
    if ((size_t)(end - at) <= size || memcmp(at, key, size)) return 0;
    at += size, *n = 0;
    const uint8_t *first = at;
    for (; at < end && *at >= '0' && *at <= '9' && *n <= MOST; at++) *n = *n * 10 + (size_t)(*at - '0');
    if (at == first || at == end || *at != '\n' || (*first == '0' && at - first > 1)) return 0;
    return at + 1;
}

/* Whether an input is well formed; places its streams. */
static int open_input(const uint8_t *data, size_t n, struct input *in) {
    const uint8_t *end = data + n, *at = data;
    size_t t, s, b;
    if (n > MOST || !(at = number_line(at, end, "tables=", &t)) || !(at = number_line(at, end, "strings=", &s))) return 0;
    if (!(at = number_line(at, end, "blob=", &b)) || (size_t)(end - at) != t + s + b) return 0;
    *in = (struct input){ { at, t }, { at + t, s }, { at + t + s, b }, 0, 0 };
    return 1;
}

#endif
