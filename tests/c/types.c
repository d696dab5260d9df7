/* The types of the methods of the first class, by the calls for C, for many inputs in one run:

     types

   Standard input holds inputs as the listing program has them, but of any length, each after a 4-byte little-endian length. Standard
   output gets for each an answer after its length in the same form: for every method the number of its types, then the return type and
   the types of its parameters, each after its length. Numbers have 4 bytes; the length of a type that is missing is 0xFFFFFFFF.
   tests/oracle/compare_deep reads them. */
#include <stdio.h>
#include <stdlib.h>
#include <string.h>
#include "calls.h"
#include "any_input.h"

#define FIRST_ROOM (1 << 16) /* bytes of the buffer that is lent first */
#define MISSING 0xFFFFFFFFu

static struct input input;
static struct buffer lent;
static uint8_t *answer;
static size_t length, room;

static void put(const void *data, size_t n) {
    if (length + n > room && !(answer = realloc(answer, room = 2 * (length + n)))) abort();
    memcpy(answer + length, data, n);
    length += n;
}

static void put_number(uint32_t n) { put(&n, sizeof n); }

static void lend(size_t n) {
    if (!(lent.at = realloc(lent.at, lent.length = n))) abort();
}

/* With as many steps as there can be. */
static dn_reply ask(int call, const uint32_t *rows, struct buffer buffer) {
    uint64_t steps = UINT64_MAX;
    input.steps = &steps;
    return calls[call].ask(&input, rows, buffer);
}

static void put_type(int call, const uint32_t *rows) {
    dn_reply reply;
    for (lend(FIRST_ROOM); (reply = ask(call, rows, lent)).refusal == DN_BUFFER_TOO_SMALL;) lend(8 * lent.length);
    if (reply.refusal && reply.refusal != DN_NO_NAME) fail("a type that should be there is refused");
    put_number(reply.refusal ? MISSING : (uint32_t)reply.value);
    put(lent.at, reply.value);
}

static uint32_t count(int call, const uint32_t *rows) {
    dn_reply reply = ask(call, rows, (struct buffer){ 0, 0 });
    return reply.refusal ? 0 : (uint32_t)reply.value;
}

int main(void) {
    uint8_t *data;
    while ((data = read_input(&input))) {
        uint32_t rows[3] = { 0, 0, 0 }, methods = count(METHOD_COUNT, rows);
        for (length = 0; rows[1] < methods; rows[1]++) {
            uint32_t parameters = count(PARAM_COUNT, rows);
            put_number(1 + parameters);
            put_type(RETURN_TYPE, rows);
            for (rows[2] = 0; rows[2] < parameters; rows[2]++) put_type(PARAM_TYPE, rows);
        }
        write_answer(answer, length);
        free(data);
    }
    return 0;
}
