/* The two walks of include/dotnet_tables.h against each other, on streams of zeros whose row sizes take every value that they can:

     walks

   all 256 heap sizes bytes, with one row of each kind; and for eight of them, with each kind in turn, counts of rows on both sides of where
   an index gets 4 bytes. Each stop and each extent must be one; and the row sizes of MemberRef and CustomAttribute, which depend on counts,
   must be the sums that II.22.25 and II.22.10 give. Exit status: 0 all is as it should be, 1 something is not, 2 no memory. */
#include "recorded.h"

#define COUNT(array) (sizeof(array) / sizeof *(array))

enum { KINDS = 64, KNOWN = 45 };                                          /* of tables: all, and those that have columns */
enum { MEMBER_REF = 0x0A, CUSTOM_ATTRIBUTE = 0x0C };
enum { MOST_ROWS = 15001, LONGEST_ROW = 64 };                             /* LONGEST_ROW: no row has as many bytes */
enum { LENGTH = 24 + 4 * KINDS + (MOST_ROWS + KNOWN) * LONGEST_ROW };
enum { HEAP_SIZES = 6, VALID = 8, FIRST_COUNT = 24 };                     /* places in a stream, II.24.2.6 */
enum { STRING_BIT = 1, BLOB_BIT = 4 };                                    /* of the heap sizes */

/* The tables that a coded index may name (II.24.2.6), for the three that can have 4 bytes. DeclSecurity, 0x0E, does not count. */
static const uint8_t has_custom_attribute[] = {0x06, 0x04, 0x01, 0x02, 0x08, 0x09, 0x0A, 0x00, 0x17, 0x14, 0x11, 0x1A, 0x1B, 0x20, 0x23,
                                               0x26, 0x27, 0x28, 0x2A, 0x2C, 0x2B};
static const uint8_t member_ref_parent[] = {0x02, 0x01, 0x1A, 0x06, 0x1B};
static const uint8_t custom_attribute_type[] = {0x06, 0x0A};

static uint8_t *stream;

static void put_word(size_t at, uint32_t n) {
    for (int i = 0; i < 4; i++) stream[at + (size_t)i] = (uint8_t)(n >> 8 * i);
}

/* A stream with one row of each known kind, but so many of that one. */
static void make_stream(uint8_t heap, uint32_t kind, uint32_t rows) {
    uint64_t valid = ((1ull << KNOWN) - 1) | 1ull << kind;
    memset(stream, 0, FIRST_COUNT + 4 * KINDS);
    stream[HEAP_SIZES] = heap;
    put_word(VALID, (uint32_t)valid), put_word(VALID + 4, (uint32_t)(valid >> 32));
    for (uint32_t k = 0, at = FIRST_COUNT; k < KINDS; k++)
        if (valid >> k & 1) put_word(at, k == kind ? rows : 1), at += 4;
}

static size_t width(int wide) { return wide ? 4 : 2; }

/* The size of a coded index with that many bits of tag, where all tables but that kind's have one row. */
#define CODED(tables, tag, kind, rows) width(memchr(tables, (int)kind, sizeof tables) && rows >> (16 - tag))

static int extents_agree(uint32_t kind) {
    dn_extent a = dn_walk_extent(stream, LENGTH, 0, kind), b = dn_walk_extent_by_table(stream, LENGTH, 0, kind);
    return a.start == b.start && a.size == b.size && a.rows == b.rows;
}

static int sizes_are_sums(uint8_t heap, uint32_t kind, uint32_t rows) {
    size_t string = width(heap & STRING_BIT), blob = width(heap & BLOB_BIT);
    size_t parent = CODED(has_custom_attribute, 5, kind, rows), type = CODED(custom_attribute_type, 3, kind, rows);
    size_t class = CODED(member_ref_parent, 3, kind, rows);
    return dn_walk_extent_by_table(stream, LENGTH, 0, MEMBER_REF).size == class + string + blob
        && dn_walk_extent_by_table(stream, LENGTH, 0, CUSTOM_ATTRIBUTE).size == parent + type + blob;
}

static void check(uint8_t heap, uint32_t kind, uint32_t rows) {
    char what[80];
    make_stream(heap, kind, rows);
    dn_reply a = dn_walk_stop(stream, LENGTH, 0), b = dn_walk_stop_by_table(stream, LENGTH, 0);
    int agree = a.value == b.value && a.refusal == b.refusal;
    for (uint32_t k = 0; k <= KINDS; k++) agree &= extents_agree(k);
    agree &= a.refusal == DN_TOO_MANY_ROWS ? rows == MOST_ROWS : sizes_are_sums(heap, kind, rows);
    snprintf(what, sizeof what, "heap sizes %#x, %u rows of kind %#x", heap, (unsigned)rows, (unsigned)kind);
    tally(agree, what);
}

int main(void) {
    static const uint32_t rows[] = {2047, 2048, 8191, 8192, 15000, MOST_ROWS};
    stream = calloc(LENGTH, 1);
    if (!stream) return 2;
    for (unsigned heap = 0; heap < 256; heap++) check((uint8_t)heap, 0, 1);
    int well = report("the two walks, by heap sizes");
    for (uint8_t heap = 0; heap < 8; heap++)
        for (uint32_t kind = 0; kind < KINDS; kind++)
            for (size_t i = 0; i < COUNT(rows); i++) check(heap, kind, rows[i]);
    well &= report("the two walks, by counts");
    free(stream);
    return well ? 0 : 1;
}
