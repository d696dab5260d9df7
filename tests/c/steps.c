/* How many steps the calls of include/dotnet_tables.h take (2026-06), for many streams in one run; tests/steps asks it:

     steps [--taker]

   Standard input holds for each case a 4-byte length and so many bytes: a ceiling, 8 bytes, the lengths of the three streams, 4 bytes each,
   and the streams; all numbers are little-endian. Standard output gets for each a 4-byte length and the text that the oracle prints by
   --steps: `class=C steps=N` for what base_count takes of each class, `method=C,M steps=N` for what param_count takes of each method, and
   `!` in place of a number above the ceiling; or `refused=N` alone. With --taker the streams are opened with DN_TAKER (2026-09), as
   tests/modes asks it.

   Where the number is not above the ceiling, every call of that class or method, by its name and by its question, is asked with other
   allowances: one less, just as many, a few more, any number below, the most that there is. A line `wrong: ..` follows for each reply, left
   allowance or buffer that is not what the count says: 11, nothing left and zeros exactly where the count exceeds the allowance; else the
   reply with the most, and the count taken, but nothing taken by a 4. Of what is not there nothing is taken, whatever the allowance. */
#include <stdarg.h>
#include <stdio.h>
#include <stdlib.h>
#include <string.h>
#include "dotnet_tables.h"

enum { FEW = 3 };      /* places that are asked for from either end of a list */
enum { ROOM = 4096 };  /* of a buffer that holds most names */
enum { WRONG = 20 };   /* lines that a text has at most */

static dn_streams streams;

/* The text of an answer. */

static char *text;
static size_t used, room;
static int wrongs;

static void put(const char *form, ...) {
    if (used + 300 > room && !(text = realloc(text, room = 2 * room + 300))) exit(2);
    va_list parts;
    va_start(parts, form);
    used += (size_t)vsnprintf(text + used, 300, form, parts);
    va_end(parts);
}

/* Chance, the same in each run. */

static uint64_t chance = 0x9E3779B97F4A7C15;

static uint64_t below(uint64_t n) {
    chance ^= chance << 13, chance ^= chance >> 7, chance ^= chance << 17;
    return n ? chance % n : 0;
}

/* Calls, each under one form. */

typedef struct call call;
struct call {
    const char *name;
    uint32_t question;
    int is_name;
    dn_reply (*ask)(uint64_t *steps, const uint32_t *r, uint8_t *buf, size_t len);
};

#define S DN_STREAMS(streams), steps
#define FORM(name, ...) \
    static dn_reply ask_##name(uint64_t *steps, const uint32_t *r, uint8_t *buf, size_t len) { \
        (void)buf, (void)len; \
        return dn_##name(__VA_ARGS__); \
    }

FORM(base_count, S, r[0])
FORM(base_name, S, r[0], r[1], buf, len)
FORM(return_type, S, r[0], r[1], buf, len)
FORM(param_count, S, r[0], r[1])
FORM(param_type, S, r[0], r[1], r[2], buf, len)
FORM(param_name, S, r[0], r[1], r[2], buf, len)

static const call base_count = { "base_count", DN_ASK_BASE_COUNT, 0, ask_base_count };
static const call base_name = { "base_name", DN_ASK_BASE_NAME, 1, ask_base_name };
static const call return_type = { "return_type", DN_ASK_RETURN_TYPE, 1, ask_return_type };
static const call param_count = { "param_count", DN_ASK_PARAM_COUNT, 0, ask_param_count };
static const call param_type = { "param_type", DN_ASK_PARAM_TYPE, 1, ask_param_type };
static const call param_name = { "param_name", DN_ASK_PARAM_NAME, 1, ask_param_name };

/* Calls that count nothing: they take an allowance by their question alone. */
static const call uncounted[] = {
    { "class_count", DN_ASK_CLASS_COUNT, 0, 0 },          { "class_flags", DN_ASK_CLASS_FLAGS, 0, 0 },
    { "generic_count", DN_ASK_GENERIC_COUNT, 0, 0 },      { "method_count", DN_ASK_METHOD_COUNT, 0, 0 },
    { "method_flags", DN_ASK_METHOD_FLAGS, 0, 0 },        { "method_generic_count", DN_ASK_METHOD_GENERIC_COUNT, 0, 0 },
    { "class_packing", DN_ASK_CLASS_PACKING, 0, 0 },      { "class_size", DN_ASK_CLASS_SIZE, 0, 0 },
    { "class_name", DN_ASK_CLASS_NAME, 1, 0 },            { "generic_name", DN_ASK_GENERIC_NAME, 1, 0 },
    { "method_name", DN_ASK_METHOD_NAME, 1, 0 },          { "method_generic_name", DN_ASK_METHOD_GENERIC_NAME, 1, 0 },
};
enum { UNCOUNTED = sizeof uncounted / sizeof *uncounted };

/* A call with an allowance, in a buffer that held other bytes before: the reply, what is left, and the whole buffer. */

typedef struct asked {
    dn_reply reply;
    uint64_t left;
    size_t len;
    uint8_t buf[ROOM];
} asked;

static void ask(asked *a, const call *c, int by_question, const uint32_t *r, uint64_t allowance, size_t len) {
    memset(a->buf, 0xAA, ROOM);
    a->left = allowance, a->len = c->is_name ? len : 0;
    if (!by_question) a->reply = c->ask(&a->left, r, a->buf, a->len);
    else if (c->is_name) a->reply = dn_ask_name(DN_STREAMS(streams), &a->left, c->question, r[0], r[1], r[2], a->buf, a->len);
    else a->reply = dn_ask_number(DN_STREAMS(streams), &a->left, c->question, r[0], r[1], r[2]);
}

static int is(dn_reply a, size_t value, size_t refusal) { return a.value == value && a.refusal == refusal && !a.reason; }

static int zeros(const asked *a) {
    for (size_t i = 0; i < a->len; i++)
        if (a->buf[i]) return 0;
    return 1;
}

static int same(const asked *a, const asked *b) {
    return is(a->reply, b->reply.value, b->reply.refusal) && !memcmp(a->buf, b->buf, a->len);
}

static void say(const call *c, int by_question, const uint32_t *r, uint64_t count, uint64_t allowance, const asked *a) {
    if (wrongs++ >= WRONG) return;
    put("wrong: %s%s %u %u %u, a count of %llu and %llu allowed in %zu bytes: %zu, refused %zu.%zu, %llu left\n", c->name,
        by_question ? " by its question" : "", (unsigned)r[0], (unsigned)r[1], (unsigned)r[2], (unsigned long long)count,
        (unsigned long long)allowance, a->len, a->reply.value, a->reply.refusal, a->reply.reason, (unsigned long long)a->left);
}

/* Whether a reply is right, where the call counts so much and replies so if enough is allowed. */
static int right(const asked *a, const asked *whole, uint64_t count, uint64_t allowance) {
    if (count > allowance) return is(a->reply, 0, DN_TOO_MANY_STEPS) && !a->left && zeros(a);
    return same(a, whole) && a->left == allowance - (whole->reply.refusal == DN_NO_SUCH_ROW ? 0 : count);
}

static void try_allowance(const call *c, const uint32_t *r, uint64_t count, uint64_t allowance, const asked *whole) {
    static asked a;
    for (int by_question = 0; by_question < 2; by_question++) {
        ask(&a, c, by_question, r, allowance, whole->len);
        if (!right(&a, whole, count, allowance)) say(c, by_question, r, count, allowance, &a);
    }
}

/* A call that counts so much, in a buffer of that length. Its reply where enough is allowed is one of those that it may have: a value, 4
   where `there` is 0, and for a name 5 and 6. */
static void try_call(const call *c, const uint32_t *r, uint64_t count, int there, size_t len) {
    static asked whole;
    ask(&whole, c, 0, r, UINT64_MAX, len);
    size_t why = whole.reply.refusal;
    int may = there ? !why || (c->is_name && (why == DN_NO_NAME || why == DN_BUFFER_TOO_SMALL)) : why == DN_NO_SUCH_ROW;
    if (!may || !right(&whole, &whole, count, UINT64_MAX)) say(c, 0, r, count, UINT64_MAX, &whole);
    uint64_t allowances[] = { count ? count - 1 : 0, count, count + 1 + below(9), below(count), UINT64_MAX };
    for (size_t i = 0; i < sizeof allowances / sizeof *allowances; i++) try_allowance(c, r, count, allowances[i], &whole);
}

static void try_name(const call *c, const uint32_t *r, uint64_t count, int there) {
    try_call(c, r, count, there, ROOM);
    try_call(c, r, count, there, below(8));
}

/* The names of a list, near its ends and past the last. */
static void try_list(const call *c, uint32_t *r, int place, uint64_t count, size_t length) {
    for (size_t i = 0; i < length; i++)
        if (i < FEW || length - i <= FEW) r[place] = (uint32_t)i, try_name(c, r, count, 1);
    r[place] = (uint32_t)length, try_name(c, r, count, 0);
    r[place] = UINT32_MAX, try_name(c, r, count, 0);
    r[place] = 0;
}

/* What a call for a number takes, written behind a key; UINT64_MAX where that is above the ceiling. */
static uint64_t taken(const call *c, const uint32_t *r, uint64_t ceiling) {
    static asked a;
    ask(&a, c, 0, r, ceiling, 0);
    if (a.reply.refusal == DN_TOO_MANY_STEPS) {
        put("!\n");
        if (a.left) say(c, 0, r, UINT64_MAX, ceiling, &a);
        return UINT64_MAX;
    }
    put("%llu\n", (unsigned long long)(ceiling - a.left));
    return ceiling - a.left;
}

static size_t number(const call *c, const uint32_t *r) {
    uint64_t steps = UINT64_MAX;
    return c->ask(&steps, r, 0, 0).value;
}

/* A call of which nothing is taken: its refusal is that number, or any of its own where that is 0. */
static void try_unchanged(const call *c, const uint32_t *r, size_t refusal) {
    static asked a;
    uint64_t allowances[] = { 0, 1 + below(1000), UINT64_MAX };
    for (int by_question = !c->ask; by_question < 2; by_question++)
        for (size_t i = 0; i < sizeof allowances / sizeof *allowances; i++) {
            ask(&a, c, by_question, r, allowances[i], ROOM);
            if (a.left != allowances[i] || (refusal && !(is(a.reply, 0, refusal) && zeros(&a)))) say(c, by_question, r, 0, allowances[i], &a);
        }
}

static void no_method(const uint32_t *r, size_t refusal) {
    const call *all[] = { &return_type, &param_count, &param_type, &param_name };
    for (int i = 0; i < 4; i++) try_unchanged(all[i], r, refusal);
}

static void no_class(const uint32_t *r, size_t refusal) {
    try_unchanged(&base_count, r, refusal), try_unchanged(&base_name, r, refusal), no_method(r, refusal);
}

static void of_method(uint32_t *r, uint64_t ceiling) {
    put("method=%u,%u steps=", (unsigned)r[0], (unsigned)r[1]);
    uint64_t count = taken(&param_count, r, ceiling);
    if (count == UINT64_MAX) return;
    size_t params = number(&param_count, r);
    try_call(&param_count, r, count, 1, 0);
    try_name(&return_type, r, count, 1);
    try_list(&param_type, r, 2, count, params), try_list(&param_name, r, 2, count, params);
}

static void of_class(uint32_t *r, uint64_t ceiling) {
    put("class=%u steps=", (unsigned)r[0]);
    uint64_t count = taken(&base_count, r, ceiling);
    if (count != UINT64_MAX) {
        try_call(&base_count, r, count, 1, 0);
        try_list(&base_name, r, 1, count, number(&base_count, r));
    }
    size_t methods = dn_method_count(DN_STREAMS(streams), r[0]).value;
    for (r[1] = 0; r[1] < methods; r[1]++) of_method(r, ceiling);
    no_method(r, DN_NO_SUCH_ROW);
    r[1] = 0;
}

static void of_streams(uint64_t ceiling) {
    uint32_t r[3] = { 0, 0, 0 };
    dn_reply classes = dn_class_count(DN_STREAMS(streams));
    if (classes.refusal) put("refused=%zu\n", classes.refusal);
    for (r[0] = 0; r[0] < classes.value; r[0]++) of_class(r, ceiling);
    no_class(r, classes.refusal ? classes.refusal : DN_NO_SUCH_ROW);
    r[0] = (uint32_t)below(classes.value + 1);
    for (int i = 0; i < UNCOUNTED; i++) try_unchanged(&uncounted[i], r, classes.refusal);
}

/* A stream in memory of its own. */
static uint8_t *own(const uint8_t *at, size_t n) {
    uint8_t *copy = malloc(n + 1);
    return copy ? memcpy(copy, at, n) : (exit(2), copy);
}

int main(int argc, char **argv) {
    uint32_t n, lengths[3], options = argc == 2 && !strcmp(argv[1], "--taker") ? DN_TAKER : 0;
    uint64_t ceiling;
    while (fread(&n, 4, 1, stdin) == 1) {
        uint8_t *data = malloc(n + 1ul);
        if (!data || fread(data, 1, n, stdin) != n || n < 20) return 2;
        memcpy(&ceiling, data, 8), memcpy(lengths, data + 8, 12);
        if (20ul + lengths[0] + lengths[1] + lengths[2] != n) return 2;
        uint8_t *tables = own(data + 20, lengths[0]), *strings = own(data + 20 + lengths[0], lengths[1]);
        uint8_t *blob = own(data + 20 + lengths[0] + lengths[1], lengths[2]);
        streams = (dn_streams){ tables, lengths[0], strings, lengths[1], blob, lengths[2], options };
        used = 0, wrongs = 0;
        of_streams(ceiling);
        uint32_t size = (uint32_t)used;
        fwrite(&size, 4, 1, stdout), fwrite(text, 1, used, stdout), fflush(stdout);
        free(data), free(tables), free(strings), free(blob);
    }
    return 0;
}
