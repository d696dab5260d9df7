/* What the calls answer in the two modes of opening, the base and DN_TAKER (2026-09), for many inputs in one run; tests/modes asks it:

     modes STEPS

   Standard input holds inputs of the listing program, each after a 4-byte little-endian length. Standard output gets for each a word after
   its length in the same form:

     answers     some call has another answer: its reply, or the bytes of its name
     steps       no answer is another, but some call leaves other steps of its allowance
     same        neither
     malformed   the input is no three streams
     wrong: ..   something must not be so: what has nothing to do with signatures differs; the modes differ though the classes' first methods
                 are in order; or a listing is not what the calls make of it in that mode

   Asked are all calls, for all numbers inside and the first ones outside, each with an allowance of STEPS. Names of more than 1 MiB are
   alike here. The walk, the extents and the type-name section are among what must not differ. */
#include "listing.h"

enum { MODES = 2 };
enum { TYPE_DEF = 2, METHOD_DEF = 6 };
enum { FIRST_ROOM = 4096, MOST_ROOM = 1 << 20 }; /* bytes of a buffer for a name, and for one that this does not hold */
enum { SECTION = 1 << 17 };                      /* bytes for the names of all classes of an input */

static const uint32_t modes[MODES] = { 0, DN_TAKER };

static struct input in;
static uint64_t allowance;
static uint8_t lent[MOST_ROOM];

/* What was said in each mode: by each call, of its steps, and by all that is no call for a number or a name. */
static struct listing answers[MODES][CALLS], steps[MODES][CALLS], others[MODES];

static int is_same(const struct listing *a, const struct listing *b) { return a->length == b->length && !memcmp(a->text, b->text, a->length); }

/* Whether a call is about a method's signature. */
static int is_of_signature(int call) { return call == RETURN_TYPE || call == PARAM_COUNT || call == PARAM_TYPE || call == PARAM_NAME; }

/* ---- asking */

static dn_reply ask(int call, const uint32_t *rows, size_t room, uint64_t *left) {
    *left = allowance, in.steps = left;
    return calls[call].ask(&in, rows, (struct buffer){ lent, room });
}

static void note(int mode, int call, const uint32_t *rows) {
    uint64_t left;
    dn_reply reply = ask(call, rows, FIRST_ROOM, &left);
    if (reply.refusal == DN_BUFFER_TOO_SMALL) reply = ask(call, rows, MOST_ROOM, &left);
    put(&answers[mode][call], &reply, sizeof reply);
    if (calls[call].is_name) put(&answers[mode][call], lent, reply.value);
    put(&steps[mode][call], &left, sizeof left);
}

/* All numbers of a call, and one past each end. */
static void note_rows(int mode, int call, int depth, uint32_t *rows) {
    uint64_t left;
    if (depth == calls[call].rows) {
        note(mode, call, rows);
        return;
    }
    size_t n = ask(calls[call].counted_by[depth], rows, 0, &left).value;
    for (rows[depth] = 0; rows[depth] <= n; rows[depth]++) note_rows(mode, call, depth + 1, rows);
}

static void note_others(int mode) {
    static uint8_t slots[SECTION];
    static uint32_t starts[WORDS];
    dn_section section = section_of(&in, (struct buffer){ slots, SECTION }, (struct words){ starts, WORDS });
    put(&others[mode], &section, sizeof section), put(&others[mode], slots, SECTION), put(&others[mode], starts, sizeof starts);
    for (int by_table = 0; by_table < 2; by_table++)
        for (uint32_t kind = 0; kind <= KINDS; kind++) {
            dn_extent table = extent_of(&in, by_table, kind);
            put(&others[mode], &table, sizeof table);
        }
}

/* Whether the pieces of the listing are what the calls make of it. */
static int lists(void) {
    static struct listing pieces, made;
    static uint32_t work[WORDS];
    dn_piece piece = { 0, 0, { 0, 0, 0, 0 } };
    pieces.length = 0, made = (struct listing){ &in, made.text, 0, made.room }, in.steps = 0;
    for (list(&made); !piece.done; put(&pieces, lent, piece.used))
        piece = list_piece(&in, piece.next, (struct words){ work, WORDS }, (struct buffer){ lent, MOST_ROOM });
    return is_same(&pieces, &made);
}

/* ---- comparing */

/* Whether the classes' first methods, leaving out columns of 0, never fall and never pass the number of methods. TypeDef row 1 is no class.
   MethodList is the last column (II.22.37). */
static int is_in_order(void) {
    dn_extent types = extent_of(&in, 0, TYPE_DEF), methods = extent_of(&in, 0, METHOD_DEF);
    uint32_t before = 1;
    for (size_t row = 2; row <= types.rows; row++) {
        const uint8_t *end = in.tables.at + types.start + row * types.size;
        uint32_t column = end[-2] | (uint32_t)end[-1] << 8;
        if (column && (column < before || column - 1 > methods.rows)) return 0;
        if (column) before = column;
    }
    return 1;
}

static const char *compare(void) {
    static char wrong[100];
    const char *found = "same";
    for (int call = 0; call < CALLS; call++) {
        int answers_differ = !is_same(&answers[0][call], &answers[1][call]), steps_differ = !is_same(&steps[0][call], &steps[1][call]);
        if (!answers_differ && !steps_differ) continue;
        if (!is_of_signature(call)) return snprintf(wrong, sizeof wrong, "wrong: %s differs", calls[call].name), wrong;
        if (answers_differ) found = "answers";
        else if (strcmp(found, "answers")) found = "steps";
    }
    if (!is_same(&others[0], &others[1])) return "wrong: an extent or the type-name section differs";
    if (strcmp(found, "same") && is_in_order()) return "wrong: the modes differ in order";
    return found;
}

static const char *look(void) {
    for (int mode = 0; mode < MODES; mode++) {
        in.options = modes[mode], others[mode].length = 0;
        for (int call = 0; call < CALLS; call++) {
            uint32_t rows[3] = { 0, 0, 0 };
            answers[mode][call].length = steps[mode][call].length = 0;
            note_rows(mode, call, 0, rows);
        }
        note_others(mode);
        if (!lists()) return mode ? "wrong: the listing with DN_TAKER" : "wrong: the listing";
    }
    return compare();
}

int main(int argc, char **argv) {
    uint32_t n;
    if (argc != 2) return fprintf(stderr, "usage: modes STEPS\n"), 2;
    allowance = strtoull(argv[1], 0, 10);
    while (fread(&n, 4, 1, stdin) == 1) {
        uint8_t *data = malloc(n + 1ul);
        if (!data || fread(data, 1, n, stdin) != n) return 2;
        const char *word = open_input(data, n, &in) ? look() : "malformed";
        uint32_t size = (uint32_t)strlen(word);
        fwrite(&size, 4, 1, stdout), fwrite(word, 1, size, stdout), fflush(stdout);
        free(data);
    }
    return 0;
}
