/* How much stack each call takes, for many inputs in one run:

     stack ROOM STEPS

   Standard input holds inputs as the listing program has them, but of any length, each after a 4-byte little-endian length. Standard
   output gets for each a text after its length in the same form: for every call a line with its name and the bytes of stack that it took.
   It is asked for the first class, method, parameter and so on, with an allowance of STEPS, on a thread with a stack of ROOM bytes, all 0
   before: what it took reaches down to the lowest byte that is not 0 afterwards. Calls by their questions have two lines, ask_number and ask_name, with what the worst
   question took, and the first piece of the listing has one, with what it took at worst, without lent words or with many; the type-name
   section has the last. tests/stack reads the lines. */
#define _GNU_SOURCE
#include <pthread.h>
#include <stdio.h>
#include <stdlib.h>
#include <string.h>
#include <sys/mman.h>
#include "calls.h"
#include "any_input.h"

#define NAME 4096       /* bytes of the buffer that is lent for a name */
#define PIECE (1 << 16) /* and for a piece of the listing */
#define GUARD (1 << 16) /* bytes below the stack that are not to be touched */
#define LINE 60         /* bytes of a line of an answer */
#define OTHERS 4        /* lines of what is no call of the list */

static struct input input;
static const struct call *call;
static const uint32_t first[3];
static uint8_t lent[PIECE];
static uint32_t work[WORDS];
static char *stack, *top;
static size_t room;
static uint64_t allowance, left;

/* The input, with the whole allowance. */
static const struct input *whole(void) {
    left = allowance;
    input.steps = &left;
    return &input;
}

static void *ask_call(void *none) {
    top = __builtin_frame_address(0);
    call->ask(whole(), first, (struct buffer){ lent, NAME });
    return none;
}

static void ask_questions(int is_name) {
    for (const struct call *each = calls; each < calls + CALLS; each++)
        if (each->question && each->is_name == is_name)
            ask_question(whole(), each->question, is_name, first, (struct buffer){ lent, NAME });
}

static void *ask_numbers(void *none) {
    top = __builtin_frame_address(0);
    ask_questions(0);
    return none;
}

static void *ask_names(void *none) {
    top = __builtin_frame_address(0);
    ask_questions(1);
    return none;
}

static void *list(void *none) {
    top = __builtin_frame_address(0);
    for (size_t n = 0; n <= WORDS; n += WORDS)
        list_piece(&input, (dn_cursor){ 0, 0, 0, 0 }, (struct words){ work, n }, (struct buffer){ lent, PIECE });
    return none;
}

static void *write_section(void *none) {
    top = __builtin_frame_address(0);
    section_of(&input, (struct buffer){ lent, PIECE }, (struct words){ work, WORDS });
    return none;
}

static void make_stack(void) {
    char *below = mmap(0, GUARD + room, PROT_NONE, MAP_PRIVATE | MAP_ANONYMOUS | MAP_NORESERVE, -1, 0);
    if (below == MAP_FAILED || mprotect(below + GUARD, room, PROT_READ | PROT_WRITE)) fail("no memory for a stack");
    stack = below + GUARD;
}

/* The bytes of stack that something takes. */
static size_t measure(void *(*taking)(void *)) {
    pthread_attr_t attributes;
    pthread_t thread;
    if (madvise(stack, room, MADV_DONTNEED)) fail("a stack that cannot be cleared");
    pthread_attr_init(&attributes);
    if (pthread_attr_setstack(&attributes, stack, room) || pthread_create(&thread, &attributes, taking, 0)) fail("no thread");
    pthread_join(thread, 0);
    pthread_attr_destroy(&attributes);
    const char *low = stack;
    while (low < top && *(const uint64_t *)low == 0) low += sizeof(uint64_t);
    return (size_t)(top - low);
}

static size_t put_line(char *to, const char *name, void *(*taking)(void *)) {
    return (size_t)snprintf(to, LINE, "%s %zu\n", name, measure(taking));
}

int main(int argc, char **argv) {
    uint8_t *data;
    if (argc != 3) fail("two numbers are needed");
    room = strtoull(argv[1], 0, 10);
    allowance = strtoull(argv[2], 0, 10);
    make_stack();
    while ((data = read_input(&input))) {
        char text[(CALLS + OTHERS) * LINE];
        size_t size = 0;
        for (call = calls; call < calls + CALLS; call++) size += put_line(text + size, call->name, ask_call);
        size += put_line(text + size, "ask_number", ask_numbers);
        size += put_line(text + size, "ask_name", ask_names);
        size += put_line(text + size, "listing", list);
        size += put_line(text + size, "name_section", write_section);
        write_answer(text, size);
        free(data);
    }
    return 0;
}
