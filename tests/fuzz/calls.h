/* Every call that answers a number or a name, by its own name and by its question, the listing and the type-name section, each under one
   form: the only place here that knows how they are named and what they take. */
#ifndef CALLS_H
#define CALLS_H

#include "dotnet_tables.h"

enum { WALK_STOP, WALK_STOP_BY_TABLE, CLASS_COUNT, GENERIC_COUNT, BASE_COUNT, METHOD_COUNT, METHOD_GENERIC_COUNT, PARAM_COUNT,
       CLASS_FLAGS, CLASS_PACKING, CLASS_SIZE, METHOD_FLAGS, CLASS_NAME, GENERIC_NAME, BASE_NAME, METHOD_NAME, METHOD_GENERIC_NAME,
       RETURN_TYPE, PARAM_TYPE, PARAM_NAME, CALLS };

enum { KINDS = 64 };    /* of tables */
enum { WORDS = 24000 }; /* lent to a listing, as many as serve every input of 65,536 bytes */
enum { LISTED = 1000000 }; /* steps that a listing allows for a name */

struct bytes { const uint8_t *at; size_t length; };
struct buffer { uint8_t *at; size_t length; };
struct words { uint32_t *at; size_t length; };

/* The streams and the options; and what is left of an allowance, for the calls that count steps and for the questions: a null pointer allows
   each of them what a listing does. */
struct input { struct bytes tables, strings, blob; uint32_t options; uint64_t *steps; };

struct call {
    const char *name;
    uint32_t question; /* its number; 0 where it has none */
    int rows;          /* how many numbers it takes: a class, then a method, a generic parameter, .. */
    int counted_by[3]; /* for each of them the call that says how many there are, of those before it */
    int is_name;
    dn_reply (*ask)(const struct input *in, const uint32_t *r, struct buffer buffer);
};

#define TABLES in->tables.at, in->tables.length
#define STREAMS TABLES, in->strings.at, in->strings.length, in->blob.at, in->blob.length, in->options
#define ROWS1 STREAMS, r[0]
#define ROWS2 ROWS1, r[1]
#define ROWS3 ROWS2, r[2]
#define BUFFER buffer.at, buffer.length
#define LIMITED STREAMS, in->steps ? in->steps : &listed
#define LIMITED1 LIMITED, r[0]
#define LIMITED2 LIMITED1, r[1]
#define LIMITED3 LIMITED2, r[2]
#define FORM(name, ...) \
    static dn_reply ask_##name(const struct input *in, const uint32_t *r, struct buffer buffer) { \
        uint64_t listed = LISTED; \
        (void)r, (void)buffer, (void)listed; \
        return dn_##name(__VA_ARGS__); \
    }

FORM(walk_stop, TABLES, in->options)
FORM(walk_stop_by_table, TABLES, in->options)
FORM(class_count, STREAMS)
FORM(generic_count, ROWS1)
FORM(base_count, LIMITED1)
FORM(method_count, ROWS1)
FORM(method_generic_count, ROWS2)
FORM(param_count, LIMITED2)
FORM(class_flags, ROWS1)
FORM(class_packing, ROWS1)
FORM(class_size, ROWS1)
FORM(method_flags, ROWS2)
FORM(class_name, ROWS1, BUFFER)
FORM(generic_name, ROWS2, BUFFER)
FORM(base_name, LIMITED2, BUFFER)
FORM(method_name, ROWS2, BUFFER)
FORM(method_generic_name, ROWS3, BUFFER)
FORM(return_type, LIMITED2, BUFFER)
FORM(param_type, LIMITED3, BUFFER)
FORM(param_name, LIMITED3, BUFFER)

/* A call by its question; the numbers that it does not have may be any. */
static inline dn_reply ask_question(const struct input *in, uint32_t question, int is_name, const uint32_t *r, struct buffer buffer) {
    uint64_t listed = LISTED;
    return is_name ? dn_ask_name(LIMITED, question, r[0], r[1], r[2], BUFFER) : dn_ask_number(LIMITED, question, r[0], r[1], r[2]);
}

/* Whether a question counts steps. */
static inline int is_counting(uint32_t question) {
    return question == DN_ASK_BASE_COUNT || question == DN_ASK_BASE_NAME || question == DN_ASK_RETURN_TYPE || question == DN_ASK_PARAM_COUNT
        || question == DN_ASK_PARAM_TYPE || question == DN_ASK_PARAM_NAME;
}

/* The extent of a kind's table, by row sizes that are added up or by the table of them. */
static inline dn_extent extent_of(const struct input *in, int by_table, uint32_t kind) {
    return by_table ? dn_walk_extent_by_table(TABLES, in->options, kind) : dn_walk_extent(TABLES, in->options, kind);
}

static inline dn_piece list_piece(const struct input *in, dn_cursor from, struct words work, struct buffer buffer) {
    return dn_listing(STREAMS, from, work.at, work.length, BUFFER);
}

static inline dn_section section_of(const struct input *in, struct buffer buffer, struct words offsets) {
    return dn_name_section(STREAMS, BUFFER, offsets.at, offsets.length);
}

#define CALL(NAME, name, rows, is_name, ...) [NAME] = { #name, DN_ASK_##NAME, rows, { __VA_ARGS__ }, is_name, ask_##name }

static const struct call calls[CALLS] = {
    [WALK_STOP] = { "walk_stop", 0, 0, { 0 }, 0, ask_walk_stop },
    [WALK_STOP_BY_TABLE] = { "walk_stop_by_table", 0, 0, { 0 }, 0, ask_walk_stop_by_table },
    CALL(CLASS_COUNT, class_count, 0, 0, 0),
    CALL(GENERIC_COUNT, generic_count, 1, 0, CLASS_COUNT),
    CALL(BASE_COUNT, base_count, 1, 0, CLASS_COUNT),
    CALL(METHOD_COUNT, method_count, 1, 0, CLASS_COUNT),
    CALL(METHOD_GENERIC_COUNT, method_generic_count, 2, 0, CLASS_COUNT, METHOD_COUNT),
    CALL(PARAM_COUNT, param_count, 2, 0, CLASS_COUNT, METHOD_COUNT),
    CALL(CLASS_FLAGS, class_flags, 1, 0, CLASS_COUNT),
    CALL(CLASS_PACKING, class_packing, 1, 0, CLASS_COUNT),
    CALL(CLASS_SIZE, class_size, 1, 0, CLASS_COUNT),
    CALL(METHOD_FLAGS, method_flags, 2, 0, CLASS_COUNT, METHOD_COUNT),
    CALL(CLASS_NAME, class_name, 1, 1, CLASS_COUNT),
    CALL(GENERIC_NAME, generic_name, 2, 1, CLASS_COUNT, GENERIC_COUNT),
    CALL(BASE_NAME, base_name, 2, 1, CLASS_COUNT, BASE_COUNT),
    CALL(METHOD_NAME, method_name, 2, 1, CLASS_COUNT, METHOD_COUNT),
    CALL(METHOD_GENERIC_NAME, method_generic_name, 3, 1, CLASS_COUNT, METHOD_COUNT, METHOD_GENERIC_COUNT),
    CALL(RETURN_TYPE, return_type, 2, 1, CLASS_COUNT, METHOD_COUNT),
    CALL(PARAM_TYPE, param_type, 3, 1, CLASS_COUNT, METHOD_COUNT, PARAM_COUNT),
    CALL(PARAM_NAME, param_name, 3, 1, CLASS_COUNT, METHOD_COUNT, PARAM_COUNT),
};

#endif
