/* Any call by its question, and the listing by pieces, linked as a C program links them:

     asks CASES WRONG

   CASES is crates/replay/data/cases: inputs, and for each the text that the listing program prints; that crate's src/main.rt says the form.
   WRONG is the file `wrong` beside it, with texts that are wrong on purpose: each must differ. Each question is asked by its number and by
   the call's own name, which replay.c holds against the record: for all numbers inside and some outside, in buffers of several lengths, with
   an allowance of few steps, of which both must leave the same. In each of the two modes of opening replies, buffers and what is left must be
   the same for all options, whose other bits say nothing. So must the listing, which is the recorded one in the base; modes.c holds that
   with DN_TAKER against the calls. Each piece is asked for without lent words and with many, and must be the same. Exit status: 0 all is as
   it should be, 1 something is not, 2 a file cannot be read. */
#include <stdarg.h>
#include "calls.h"
#include "listed.h"

#define COUNT(array) (sizeof(array) / sizeof *(array))

enum { LARGEST = 1 << 16 }; /* bytes of a buffer */

/* Options, and numbers that a question does not have. */
static const uint32_t words[] = {0, 1, 4, 0x80000000, ~(uint32_t)DN_TAKER, DN_TAKER, UINT32_MAX};
static const uint32_t modes[] = {0, DN_TAKER};
static const size_t rooms[] = {0, 3, 40, 4096}; /* bytes of a buffer for a name */
static const uint64_t few = 10000;              /* steps: so that what takes many is refused soon */
static const uint32_t no_questions[] = {0, 11, 100, 109, 257, 65537, 0x80000001, UINT32_MAX};
static const uint32_t no_places[] = {15, 256, 65536, UINT32_MAX};
static const dn_cursor start;

static size_t number; /* of the case, from 0 */
static struct input in;
static uint64_t left; /* of the allowance of a call */
static bytes text;    /* its listing */
static uint8_t buf[LARGEST + 1], other[LARGEST + 1], twin[LARGEST + 1];

/* Counts an answer, and prints what it was about where it is not as it should be. */
static void check(int agrees, const char *format, ...) {
    char what[200] = "";
    if (agrees == wrong) {
        va_list rest;
        size_t n = (size_t)snprintf(what, sizeof what, "case %zu, options %#x: ", number, (unsigned)in.options);
        va_start(rest, format);
        vsnprintf(what + n, sizeof what - n, format, rest);
        va_end(rest);
    }
    tally(agrees, what);
}

/* A buffer of that length, full of a byte, which also stands behind it. One of length 0 is a null pointer. */
static struct buffer full(uint8_t *at, size_t room, int byte) {
    memset(at, byte, room + 1);
    return (struct buffer){room ? at : NULL, room};
}

/* ---- questions */

static int same(dn_reply a, dn_reply b) { return a.value == b.value && a.refusal == b.refusal && a.reason == b.reason; }

static dn_reply ask(const struct call *call, const uint32_t *rows, struct buffer buffer) {
    left = few;
    return call->ask(&in, rows, buffer);
}

static dn_reply ask_by_number(uint32_t question, int is_name, const uint32_t *rows, struct buffer buffer) {
    left = few;
    return ask_question(&in, question, is_name, rows, buffer);
}

/* Whether that reply and what it left in `other`, and of the allowance, are as expected, in `buf`. */
static int as_expected(dn_reply reply, dn_reply expected, uint64_t expected_left, size_t room) {
    return same(reply, expected) && left == expected_left && !memcmp(other, buf, room) && other[room] == 0x55;
}

static int is_in_mode(uint32_t options, uint32_t mode) { return (options & DN_TAKER) == mode; }

static void check_reply(const struct call *call, const uint32_t *rows, size_t room, uint32_t mode) {
    in.options = mode;
    dn_reply expected = ask(call, rows, full(buf, room, 0xAA));
    uint64_t expected_left = left;
    for (size_t i = 0; i < COUNT(words); i++) {
        uint32_t r[3];
        if (!is_in_mode(words[i], mode)) continue;
        in.options = words[i];
        dn_reply reply = ask(call, rows, full(other, room, 0x55));
        check(as_expected(reply, expected, expected_left, room), "dn_%s %u %u %u, %zu bytes", call->name, rows[0], rows[1], rows[2], room);
        if (!call->question) continue;
        for (int k = 0; k < 3; k++) r[k] = k < call->rows ? rows[k] : words[i];
        reply = ask_by_number(call->question, call->is_name, r, full(other, room, 0x55));
        check(as_expected(reply, expected, expected_left, room), "question %u %u %u %u, %zu bytes", call->question, r[0], r[1], r[2], room);
    }
}

static void check_call(const struct call *call, const uint32_t *rows) {
    for (size_t m = 0; m < COUNT(modes); m++)
        for (size_t i = 0; i < (call->is_name ? COUNT(rooms) : 1); i++) check_reply(call, rows, rooms[i], modes[m]);
}

/* All numbers of a call, one past each end, and the last that there can be. In the base there are at least as many as with DN_TAKER. */
static void each_row(const struct call *call, int depth, uint32_t *rows) {
    if (depth == call->rows) {
        check_call(call, rows);
        return;
    }
    in.options = 0;
    size_t n = ask(&calls[call->counted_by[depth]], rows, full(buf, 0, 0)).value;
    for (rows[depth] = 0; rows[depth] <= n; rows[depth]++) each_row(call, depth + 1, rows);
    rows[depth] = UINT32_MAX;
    each_row(call, depth + 1, rows);
}

/* A question that there is not, or that the other call has: refused as the stream is, and else with 4. */
static void check_refused(uint32_t question, int is_name) {
    static const uint32_t rows[3];
    in.options = 0;
    size_t refusal = ask(&calls[CLASS_COUNT], rows, full(buf, 0, 0)).refusal;
    dn_reply expected = {0, refusal ? refusal : DN_NO_SUCH_ROW, 0};
    for (size_t i = 0; i < COUNT(words); i++)
        for (size_t k = 0; k < (is_name ? COUNT(rooms) : 1); k++) {
            in.options = words[i];
            dn_reply reply = ask_by_number(question, is_name, rows, full(buf, rooms[k], 0xAA));
            check(same(reply, expected) && left == few && zero_from(buf, 0, rooms[k]) && buf[rooms[k]] == 0xAA, "no question %u for a %s, %zu bytes",
                  question, is_name ? "name" : "number", rooms[k]);
        }
}

static void check_extents(int by_table) {
    for (uint32_t kind = 0; kind <= KINDS; kind++)
        for (size_t i = 0; i < COUNT(words); i++) {
            in.options = 0;
            dn_extent a = extent_of(&in, by_table, kind);
            in.options = words[i];
            dn_extent b = extent_of(&in, by_table, kind);
            check(a.start == b.start && a.size == b.size && a.rows == b.rows, "dn_walk_extent%s %u", by_table ? "_by_table" : "", kind);
        }
}

static void check_questions(void) {
    for (const struct call *call = calls; call < calls + CALLS; call++) {
        uint32_t rows[3] = {0, 0, 0};
        each_row(call, 0, rows);
        if (call->question) check_refused(call->question, !call->is_name);
    }
    for (size_t i = 0; i < COUNT(no_questions); i++) check_refused(no_questions[i], 0), check_refused(no_questions[i], 1);
    check_extents(0), check_extents(1);
}

/* ---- the listing */

static int same_cursor(dn_cursor a, dn_cursor b) {
    return a.place == b.place && a.class_number == b.class_number && a.method == b.method && a.item == b.item;
}

static int same_piece(dn_piece a, dn_piece b) { return a.used == b.used && a.done == b.done && same_cursor(a.next, b.next); }

static int alike; /* whether the last piece was the same without lent words and with many, and these were 0 afterwards */

/* A piece, by words that are full of a byte, which also stands behind them. */
static dn_piece list(dn_cursor from, uint8_t *at, size_t room, int byte) {
    static uint32_t work[WORDS + 1];
    uint8_t *first = (uint8_t *)work;
    memset(work, byte, sizeof work);
    dn_piece a = list_piece(&in, from, (struct words){work, WORDS}, full(at, room, byte));
    dn_piece b = list_piece(&in, from, (struct words){NULL, 0}, full(twin, room, byte));
    alike = same_piece(a, b) && !memcmp(at, twin, room + 1);
    alike &= zero_from(first, 0, WORDS * sizeof *work) && first[WORDS * sizeof *work] == byte;
    return a;
}

/* Whether a piece in `buf`, which was full of 0xAA, can be one. */
static int is_piece(dn_piece p, size_t room) {
    if (!alike || p.used > room || p.done > 1) return 0;
    return (!p.used || buf[p.used - 1] == '\n') && zero_from(buf, p.used, room) && buf[room] == 0xAA;
}

static int is_nothing(dn_piece p, size_t room, dn_cursor from) {
    return is_piece(p, room) && !p.used && !p.done && same_cursor(p.next, from);
}

/* The bytes of the line at a place of the text. No value has a line end in it. */
static size_t line_at(size_t at) {
    size_t end = at;
    while (end < text.len && text.at[end++] != '\n') {}
    return end - at;
}

/* Whether the text comes by pieces, each of as many lines as a buffer of that length holds. */
static int lists(size_t room) {
    dn_cursor from = start;
    for (size_t at = 0;;) {
        dn_piece p = list(from, buf, room, 0xAA);
        if (!is_piece(p, room) || p.used > text.len - at || memcmp(buf, text.at + at, p.used)) return 0;
        at += p.used, from = p.next;
        if (p.done || at == text.len) return p.done && at == text.len;
        if (line_at(at) <= room - p.used) return 0;
    }
}

/* Each line in a buffer that it fills, and in one that is a byte too short. The answer is the length of the longest. */
static size_t check_lines(void) {
    size_t longest = 0, n;
    dn_cursor from = start;
    for (size_t at = 0; at < text.len; at += n) {
        n = line_at(at);
        check(is_nothing(list(from, buf, n - 1, 0xAA), n - 1, from), "dn_listing at byte %zu, %zu bytes", at, n - 1);
        dn_piece p = list(from, buf, n, 0xAA);
        check(is_piece(p, n) && p.used == n && !memcmp(buf, text.at + at, n) && p.done == (at + n == text.len),
              "dn_listing at byte %zu, %zu bytes", at, n);
        from = p.next;
        if (n > longest) longest = n;
    }
    return longest;
}

/* The text by all options of a mode. */
static void check_mode(uint32_t mode) {
    in.options = mode;
    const size_t sizes[] = {check_lines(), DN_LONGEST_LINE, LARGEST};
    for (size_t i = 0; i < COUNT(words); i++)
        for (size_t k = 0; is_in_mode(words[i], mode) && k < COUNT(sizes); k++) {
            in.options = words[i];
            check(lists(sizes[k]), "dn_listing, %zu bytes", sizes[k]);
        }
}

/* The text with DN_TAKER, by large pieces. */
static bytes text_by_taker(void) {
    bytes made = {malloc(1), 0};
    dn_piece p = {0, 0, start};
    in.options = DN_TAKER;
    while (!p.done) {
        p = list(p.next, buf, LARGEST, 0xAA);
        if (!made.at || !(made.at = realloc(made.at, made.len + p.used + 1))) exit(2);
        memcpy(made.at + made.len, buf, p.used), made.len += p.used;
    }
    return made;
}

static void check_listing(void) {
    check(is_nothing(list(start, buf, 0, 0xAA), 0, start), "dn_listing, 0 bytes");
    check_mode(0);
    text = text_by_taker();
    check_mode(DN_TAKER);
    free(text.at);
    for (size_t i = 0; i < COUNT(no_places); i++) {
        dn_piece p = list((dn_cursor){no_places[i], 0, 0, 0}, buf, DN_LONGEST_LINE, 0xAA);
        check(is_piece(p, DN_LONGEST_LINE) && !p.used && p.done, "dn_listing from place %u", no_places[i]);
    }
}

static void check_text(void) { check(lists(DN_LONGEST_LINE), "dn_listing, %d bytes", DN_LONGEST_LINE); }

/* ---- null pointers */

/* The input with streams of length 0 at `spot`: for bit 0 the tables, 1 the strings, 2 the blob. */
static struct input with_empty(struct input whole, unsigned empty, const uint8_t *spot) {
    if (empty & 1) whole.tables = (struct bytes){spot, 0};
    if (empty & 2) whole.strings = (struct bytes){spot, 0};
    if (empty & 4) whole.blob = (struct bytes){spot, 0};
    return whole;
}

/* Every call with null pointers for each choice of the streams, and the listing, which is that of other pointers of length 0. */
static void check_nulls(void) {
    static const uint32_t rows[3];
    static const uint8_t spot;
    struct input whole = in;
    for (unsigned empty = 1; empty < 8; empty++) {
        in = with_empty(whole, empty, &spot);
        dn_piece a = list(start, other, LARGEST, 0x55);
        int first_alike = alike;
        in = with_empty(whole, empty, NULL);
        dn_piece b = list(start, buf, LARGEST, 0xAA);
        check(first_alike && alike && same_piece(a, b) && !memcmp(other, buf, LARGEST), "dn_listing, null pointers %u", empty);
        for (const struct call *call = calls; call < calls + CALLS; call++) check_call(call, rows);
    }
}

/* ---- cases */

static void each_case(bytes file, void (*look)(void)) {
    bytes input;
    size_t at = 0;
    for (number = 0; next_case(file, &at, &input, &text); number++)
        if (open_streams(input, text, &in)) in.steps = &left, look();
}

static void ask_questions(bytes file) { each_case(file, check_questions); }

static void ask_nulls(bytes file) { each_case(file, check_nulls); }

static void list_pieces(bytes file) { each_case(file, check_listing); }

static void list_texts(bytes file) { each_case(file, check_text); }

int main(int count, char **paths) {
    if (count != 3) return fprintf(stderr, "usage: asks CASES WRONG\n"), 2;
    tally(dn_version() == DN_VERSION, "dn_version");
    int well = report("version");
    well &= replay(paths[1], ask_questions, "questions", 0);
    well &= replay(paths[1], ask_nulls, "questions by null pointers", 0);
    well &= replay(paths[1], list_pieces, "listings by pieces", 0);
    well &= replay(paths[2], list_texts, "listings by pieces", 1);
    return well ? 0 : 1;
}
