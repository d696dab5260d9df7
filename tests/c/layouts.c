/* The packing and the size of a class (II.22.8), as a C program asks for them: dn_class_packing and dn_class_size, and their questions.

     layouts

   Of a class that two rows of ClassLayout name, the first of which decides; of one that none names; of classes that are not there; on
   streams that are refused with 1, 2 and 3; and on the first stream cut at every byte of that table. Then the listing from the places of
   the two lines, 13 and 14. Exit status: 0 all is as it should be, 1 something is not. */
#include "recorded.h"

#define COUNT(array) (sizeof(array) / sizeof *(array))

enum { HEADER = 24, COUNTS = 8, LAYOUTS = HEADER + COUNTS + 3 * 14, ROW = 8 }; /* places in the stream, and the bytes of a row */
enum { PACKING = 13, SIZE = 14 };                                             /* places of the cursor */

/* Three rows of TypeDef, the last two with the name A, and two of ClassLayout, both for class 0. */
static const uint8_t whole[LAYOUTS + 2 * ROW] = {
    0, 0, 0, 0, 2, 0, 0, 1, 0x04, 0x80, 0, 0, 0, 0, 0, 0, 0, 0, 0, 0, 0, 0, 0, 0, 3, 0, 0, 0, 2, 0, 0, 0,
    0, 0, 0, 0, 0, 0, 0, 0, 0, 0, 0, 0, 0, 0, 0, 0, 0, 0, 1, 0, 0, 0, 0, 0, 0, 0, 0, 0, 0, 0, 0, 0, 1, 0, 0, 0, 0, 0, 0, 0, 0, 0,
    4, 0, 16, 0, 0, 0, 2, 0, 8, 0, 32, 0, 0, 0, 2, 0};
static const uint8_t strings[] = {0, 'A', 0};
static const char listed[] = "packing=4\nsize=16\nclass=A\nflags=0\npacking=\nsize=\n";
static const uint32_t all_options[] = {0, DN_TAKER, UINT32_MAX};

static dn_streams streams_of(const uint8_t *tables, size_t len, uint32_t options) {
    return (dn_streams){tables, len, strings, sizeof strings, NULL, 0, options};
}

static int is(dn_reply reply, size_t value, size_t refusal) {
    return reply.refusal == refusal && reply.value == (refusal ? 0 : value) && !reply.reason;
}

/* Both calls, and their questions, which take no step, must answer so, however the streams are opened. */
static void expect(const char *what, const uint8_t *tables, size_t len, uint32_t class_number, size_t packing, size_t size,
                   size_t refusal) {
    for (size_t i = 0; i < COUNT(all_options); i++) {
        dn_streams s = streams_of(tables, len, all_options[i]);
        uint64_t steps = 7;
        tally(is(dn_class_packing(DN_STREAMS(s), class_number), packing, refusal), what);
        tally(is(dn_class_size(DN_STREAMS(s), class_number), size, refusal), what);
        tally(is(dn_ask_number(DN_STREAMS(s), &steps, DN_ASK_CLASS_PACKING, class_number, 1, 2), packing, refusal) && steps == 7, what);
        tally(is(dn_ask_number(DN_STREAMS(s), &steps, DN_ASK_CLASS_SIZE, class_number, 1, 2), size, refusal) && steps == 7, what);
    }
}

static void classes(void) {
    expect("a class with two rows", whole, sizeof whole, 0, 4, 16, DN_OK);
    expect("a class without a row", whole, sizeof whole, 1, 0, 0, DN_NO_SUCH_ROW);
    expect("a class that is not there", whole, sizeof whole, 2, 0, 0, DN_NO_SUCH_ROW);
    expect("the last number", whole, sizeof whole, UINT32_MAX, 0, 0, DN_NO_SUCH_ROW);
}

static void refused(void) {
    uint8_t many[sizeof whole];
    memcpy(many, whole, sizeof whole);
    many[HEADER] = 15001 % 256, many[HEADER + 1] = 15001 / 256;
    for (uint32_t c = 0; c < 3; c++) {
        expect("no stream", NULL, 0, c, 0, 0, DN_SHORT_HEADER);
        expect("a header that is cut", whole, HEADER - 1, c, 0, 0, DN_SHORT_HEADER);
        expect("counts that are cut", whole, HEADER + COUNTS - 1, c, 0, 0, DN_SHORT_COUNTS);
        expect("15,001 rows", many, sizeof many, c, 0, 0, DN_TOO_MANY_ROWS);
    }
}

static void cut(void) {
    for (size_t len = LAYOUTS; len < sizeof whole; len++) {
        size_t refusal = len < LAYOUTS + ROW ? DN_NO_SUCH_ROW : DN_OK;
        expect("a cut table", whole, len, 0, 4, 16, refusal);
        expect("a cut table, and the other class", whole, len, 1, 0, 0, DN_NO_SUCH_ROW);
    }
}

/* The listing from a place on must be that text. */
static void lists(uint32_t place, const char *text) {
    uint8_t buf[64];
    dn_streams s = streams_of(whole, sizeof whole, 0);
    dn_piece piece = dn_listing(DN_STREAMS(s), (dn_cursor){place, 0, 0, 0}, NULL, 0, buf, sizeof buf);
    tally(piece.done && piece.used == strlen(text) && !memcmp(buf, text, piece.used), text);
}

int main(void) {
    classes(), refused(), cut();
    int well = report("packing and size");
    lists(PACKING, listed), lists(SIZE, strchr(listed, '\n') + 1);
    well &= report("lines of packing and size");
    return well ? 0 : 1;
}
