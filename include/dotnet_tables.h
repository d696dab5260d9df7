/* dotnet_tables.h: the tables of .NET metadata (ECMA-335 Partition II), read from lent memory. C11.
 *
 * `tools/make dotnet_c` proves the library and writes target/staticlib/libdotnet_c.a for x86-64 Linux. A program is linked with
 *
 *     cc -std=c11 -Iinclude program.c target/staticlib/libdotnet_c.a
 *
 * Of other code the archive needs memcpy and memset alone.
 *
 * Three streams are lent to a call: the tables stream (II.24.2.6), the strings heap (II.24.2.3) and the blob heap (II.24.2.4), each as a
 * pointer and a length. An absent heap is one of length 0. A pointer may be null where its length is 0, also that of the tables stream,
 * of a buffer, of words or of offsets. The streams may be any bytes and may overlap one another; a buffer overlaps nothing else, nor do
 * words, offsets or steps. Nothing may write to a stream while a call runs. A call keeps nothing: it writes to the buffer and to the words,
 * the offsets or the steps that it is lent and to nothing else, allocates nothing, and may run in many threads at once.
 *
 * Then come the options, a set of bits that says how the streams are opened: 0 is the base. Bits without a meaning are ignored.
 *
 *     2 (DN_TAKER)  the class that has a method is the only one to read its signature. Where its reading fails, the method has no return
 *                   type (5) and no parameters. Without this bit every class whose method range has the method reads it, and the reading
 *                   of the lowest class that succeeds stands, as in the Rust. No other answer differs.
 *
 * A dn_streams holds all seven, and DN_STREAMS spreads it:
 *
 *     dn_streams s = {tables, tables_len, strings, strings_len, blob, blob_len, 0};
 *     dn_reply r = dn_class_name(DN_STREAMS(s), class_number, buf, buf_len);
 *
 * Classes, methods, generic parameters, base types and parameters are meant by their place, from 0: a class in the record, a method,
 * generic parameter or base type in its class, a generic parameter or parameter of a method in its method.
 *
 * Beside each value stands the number of a refusal; 0 says that there is none, and beside another number all else is 0, but for the
 * reason, which says why a string is missing:
 *
 *     1  the tables stream has fewer than 24 bytes
 *     2  fewer than 4 bytes for each set bit of the valid mask follow the header
 *     3  some table has more than 15,000 rows
 *     4  the class, method, generic parameter, base type or parameter asked for is not in the record, or no row of ClassLayout names the
 *        class; or there is no such question
 *     5  the name asked for is missing; for the name of a class, a method or a generic parameter the reason says why
 *     6  the name is longer than its buffer; how long it is is not told, so a caller doubles the buffer and asks again. For a type-name
 *        section: it or its offsets have no room
 *     7  a heap lookup finds nothing; for a string the reason says why
 *    11  the call counts more steps than it is allowed
 *
 * Type specifications can name each other, so that a type takes more work than any caller has time for. The calls that read types
 * therefore count steps, and are lent an allowance of them: `steps` points to a number that is the allowance before the call and what is
 * left of it after, and is never null. A step is a type byte that is read: the first byte of a type in a signature (II.23.2.12), also
 * where the type then fails, and of each type in a type specification each time that it is named; what else stands in a type is none.
 *
 *     dn_base_count, dn_base_name         all base types of the class, those without a name included
 *     dn_return_type, dn_param_count,     all of the method's signature, the return type and every parameter, once for each class whose
 *     dn_param_type, dn_param_name        method range has the method; with DN_TAKER once, as the class reads it that has the method
 *     dn_ask_number, dn_ask_name          as the call that the question means; every other call counts nothing
 *
 * A call is refused in this order: 1, 2, 3; 4 for the class or the method, or a question that there is not; 11 exactly where it counts more
 * than the allowance; 4 for the base type or the parameter; 5; 6. After a value, 5 or 6 the steps are less by what it counts; after 11
 * they are 0; after every other refusal they are as before. A larger allowance changes no answer but 11. A call reads at most twice as many
 * type bytes as it is allowed. A step does not take constant time: the shape of an array may be as long as its blob, and a generic
 * parameter is searched for.
 *
 *     uint64_t steps = 1000000;
 *     dn_reply r = dn_return_type(DN_STREAMS(s), &steps, class_number, method, buf, buf_len);
 *
 * A call for a name answers its length. Its bytes then stand at the front of the buffer, and every other byte of the buffer is 0; so is
 * every byte where the call is refused. A name is bytes as they stand in the file: no zero ends it.
 *
 * Stack: for streams of up to 65,536 bytes in all, the usual 8 MiB suffice; no call takes more than 4 of them, which tests/stack holds
 * the archive to. Types in larger streams may nest deeper: a call takes at most 41 bytes of stack for each byte of its streams, and 128
 * KiB besides (docs/DECISIONS.md, "Stack"). But no call nests deeper than its allowance: it takes at most 3 bytes for each step that it is
 * allowed, and 128 KiB besides, on streams of any size. So 8 MiB suffice with up to 1,000,000 steps, and for a listing. */
#ifndef DOTNET_TABLES_H
#define DOTNET_TABLES_H

#include <stddef.h>
#include <stdint.h>

#ifdef __cplusplus
extern "C" {
#endif

/* The version of this interface, and that of the archive. What changes a signature, a struct or DN_LONGEST_LINE raises both. */
#define DN_VERSION 5u
uint32_t dn_version(void);

/* What a refusal's number means. */
enum {
    DN_OK = 0,
    DN_SHORT_HEADER = 1,
    DN_SHORT_COUNTS = 2,
    DN_TOO_MANY_ROWS = 3,
    DN_NO_SUCH_ROW = 4,
    DN_NO_NAME = 5,
    DN_BUFFER_TOO_SMALL = 6,
    DN_NOT_FOUND = 7,
    DN_TOO_MANY_STEPS = 11
};

/* The bits of the options. */
enum { DN_TAKER = 2 };

/* Why a string is missing: beside 7 of a string and 5 of a class, method or generic name; else 0. */
enum { DN_NO_REASON = 0, DN_NULL_INDEX = 1, DN_PAST_END = 2, DN_NO_ZERO = 3 };

/* The heap that a lookup means. */
enum { DN_STRINGS = 0, DN_BLOBS = 1 };

/* The questions: any call by its number, which never changes. Those below 100 are for dn_ask_number, those above for dn_ask_name. */
enum {
    DN_ASK_CLASS_COUNT = 1,
    DN_ASK_CLASS_FLAGS = 2,
    DN_ASK_GENERIC_COUNT = 3,
    DN_ASK_BASE_COUNT = 4,
    DN_ASK_METHOD_COUNT = 5,
    DN_ASK_METHOD_FLAGS = 6,
    DN_ASK_METHOD_GENERIC_COUNT = 7,
    DN_ASK_PARAM_COUNT = 8,
    DN_ASK_CLASS_PACKING = 9,
    DN_ASK_CLASS_SIZE = 10,
    DN_ASK_CLASS_NAME = 101,
    DN_ASK_GENERIC_NAME = 102,
    DN_ASK_BASE_NAME = 103,
    DN_ASK_METHOD_NAME = 104,
    DN_ASK_METHOD_GENERIC_NAME = 105,
    DN_ASK_RETURN_TYPE = 106,
    DN_ASK_PARAM_TYPE = 107,
    DN_ASK_PARAM_NAME = 108
};

/* A buffer of so many bytes holds every line of a listing: a key of 9, a value of 4,096 bytes that are written as three each, 0x0A. */
enum { DN_LONGEST_LINE = 12298 };

/* The three streams and the options, and the seven leading arguments that they make. */
typedef struct dn_streams {
    const uint8_t *tables;
    size_t tables_len;
    const uint8_t *strings;
    size_t strings_len;
    const uint8_t *blob;
    size_t blob_len;
    uint32_t options;
} dn_streams;
#define DN_STREAMS(s) \
    (s).tables, (s).tables_len, (s).strings, (s).strings_len, (s).blob, (s).blob_len, (s).options

/* The number asked for, which for a name is its length. */
typedef struct dn_reply {
    size_t value;
    size_t refusal;
    size_t reason;
} dn_reply;

/* Where a table begins in the tables stream, the bytes of its rows and how many rows are whole. */
typedef struct dn_extent {
    size_t start;
    size_t size;
    size_t rows;
} dn_extent;

/* Where in its heap something begins, and its bytes. */
typedef struct dn_part {
    size_t start;
    size_t len;
    size_t refusal;
    size_t reason;
} dn_part;

/* Where a listing goes on: what the next line is about, and the class, the method and the item in these. All 0 is the beginning. */
typedef struct dn_cursor {
    uint32_t place;
    uint32_t class_number;
    uint32_t method;
    uint32_t item;
} dn_cursor;

/* A piece of a listing: its bytes in the buffer, 1 where the listing is done with it and else 0, and where it goes on. */
typedef struct dn_piece {
    size_t used;
    size_t done;
    dn_cursor next;
} dn_piece;

/* A type-name section: its bytes, and how many classes there are. */
typedef struct dn_section {
    size_t bytes;
    size_t classes;
    size_t refusal;
} dn_section;

/* The kind of table (II.22) at which the walk over the tables is left: the first with rows that is unknown or that does not fit in the
 * stream; 64 if there is none. Refusals: 1, 2, 3. */
dn_reply dn_walk_stop(const uint8_t *tables, size_t tables_len, uint32_t options);

/* The extent of a kind's table. All 0 for a kind that is empty, unknown or not reached, above 63, or where the stream is refused.
 *
 * To copy a stream that is not refused by its extents: a table is fully read where its kind is below the one that dn_walk_stop names and
 * its rows are not 0. It has the bytes from start up to start + rows * size. All else from the first table to the end of the stream is the
 * rest, in one piece. So each of these bytes is in exactly one fully read table or in the rest.
 *
 * The rest begins where the kind that dn_walk_stop names would begin. If that kind is known (0 to 44), its table is cut, and its start is
 * where the rest begins: its whole rows lie in the rest, though the extent counts them. In every case, 64 included, the rest begins at the
 * end of the last fully read table. If there is none, it begins where the first table would: behind the header of 24 bytes and the counts,
 * 4 bytes for each set bit of the valid mask, and behind 4 bytes more, or as many as are left, if bit 0x40 of the heap sizes is set. */
dn_extent dn_walk_extent(const uint8_t *tables, size_t tables_len, uint32_t options, uint32_t kind);

/* The replies of dn_walk_stop and dn_walk_extent, on every stream, by a second walk: it takes row sizes from a table instead of adding them
 * up, which is quicker. */
dn_reply dn_walk_stop_by_table(const uint8_t *tables, size_t tables_len, uint32_t options);
dn_extent dn_walk_extent_by_table(const uint8_t *tables, size_t tables_len, uint32_t options, uint32_t kind);

/* The string or the blob at an index of its heap. Refusals: 7, also where `which` is neither DN_STRINGS nor DN_BLOBS. */
dn_part dn_lookup(const uint8_t *strings, size_t strings_len, const uint8_t *blobs, size_t blobs_len, uint32_t which, uint32_t index);

/* How many classes there are: the TypeDef rows after the first. Refusals: 1, 2, 3. */
dn_reply dn_class_count(const uint8_t *tables, size_t tables_len, const uint8_t *strings, size_t strings_len,
                        const uint8_t *blob, size_t blob_len, uint32_t options);

/* The flags of a class (II.23.1.15). Refusals: 1 to 4. */
dn_reply dn_class_flags(const uint8_t *tables, size_t tables_len, const uint8_t *strings, size_t strings_len,
                        const uint8_t *blob, size_t blob_len, uint32_t options,
                        uint32_t class_number);

/* The packing of a class (II.22.8), as its first ClassLayout row has it. Refusals: 1 to 4; 4 also where no row names the class. */
dn_reply dn_class_packing(const uint8_t *tables, size_t tables_len, const uint8_t *strings, size_t strings_len,
                          const uint8_t *blob, size_t blob_len, uint32_t options,
                          uint32_t class_number);

/* Its size, in the same way. */
dn_reply dn_class_size(const uint8_t *tables, size_t tables_len, const uint8_t *strings, size_t strings_len,
                       const uint8_t *blob, size_t blob_len, uint32_t options,
                       uint32_t class_number);

/* The full name of a class: its namespace, a dot and its name up to the first back-quote. The namespace of a nested class is the full
 * name of the class around it. Refusals: 1 to 6. */
dn_reply dn_class_name(const uint8_t *tables, size_t tables_len, const uint8_t *strings, size_t strings_len,
                       const uint8_t *blob, size_t blob_len, uint32_t options,
                       uint32_t class_number, uint8_t *buf, size_t buf_len);

/* How many generic parameters a class has. Refusals: 1 to 4. */
dn_reply dn_generic_count(const uint8_t *tables, size_t tables_len, const uint8_t *strings, size_t strings_len,
                          const uint8_t *blob, size_t blob_len, uint32_t options,
                          uint32_t class_number);

/* The name of a generic parameter of a class. Refusals: 1 to 6. */
dn_reply dn_generic_name(const uint8_t *tables, size_t tables_len, const uint8_t *strings, size_t strings_len,
                         const uint8_t *blob, size_t blob_len, uint32_t options,
                         uint32_t class_number, uint32_t generic, uint8_t *buf, size_t buf_len);

/* How many base types a class has: those that have a name, the extended type first, then the interfaces. Refusals: 1 to 4, 11. */
dn_reply dn_base_count(const uint8_t *tables, size_t tables_len, const uint8_t *strings, size_t strings_len,
                       const uint8_t *blob, size_t blob_len, uint32_t options, uint64_t *steps,
                       uint32_t class_number);

/* The name of a base type of a class. Refusals: 1 to 4, 6, 11. */
dn_reply dn_base_name(const uint8_t *tables, size_t tables_len, const uint8_t *strings, size_t strings_len,
                      const uint8_t *blob, size_t blob_len, uint32_t options, uint64_t *steps,
                      uint32_t class_number, uint32_t base, uint8_t *buf, size_t buf_len);

/* How many methods a class has. Refusals: 1 to 4. */
dn_reply dn_method_count(const uint8_t *tables, size_t tables_len, const uint8_t *strings, size_t strings_len,
                         const uint8_t *blob, size_t blob_len, uint32_t options,
                         uint32_t class_number);

/* The flags of a method (II.23.1.10). Refusals: 1 to 4. */
dn_reply dn_method_flags(const uint8_t *tables, size_t tables_len, const uint8_t *strings, size_t strings_len,
                         const uint8_t *blob, size_t blob_len, uint32_t options,
                         uint32_t class_number, uint32_t method);

/* The name of a method. Refusals: 1 to 6. */
dn_reply dn_method_name(const uint8_t *tables, size_t tables_len, const uint8_t *strings, size_t strings_len,
                        const uint8_t *blob, size_t blob_len, uint32_t options,
                        uint32_t class_number, uint32_t method, uint8_t *buf, size_t buf_len);

/* How many generic parameters a method has. Refusals: 1 to 4. */
dn_reply dn_method_generic_count(const uint8_t *tables, size_t tables_len, const uint8_t *strings, size_t strings_len,
                                 const uint8_t *blob, size_t blob_len, uint32_t options,
                                 uint32_t class_number, uint32_t method);

/* The name of a generic parameter of a method. Refusals: 1 to 6. */
dn_reply dn_method_generic_name(const uint8_t *tables, size_t tables_len, const uint8_t *strings, size_t strings_len,
                                const uint8_t *blob, size_t blob_len, uint32_t options,
                                uint32_t class_number, uint32_t method, uint32_t generic, uint8_t *buf, size_t buf_len);

/* The return type of a method, as text. Refusals: 1 to 6, 11. */
dn_reply dn_return_type(const uint8_t *tables, size_t tables_len, const uint8_t *strings, size_t strings_len,
                        const uint8_t *blob, size_t blob_len, uint32_t options, uint64_t *steps,
                        uint32_t class_number, uint32_t method, uint8_t *buf, size_t buf_len);

/* How many parameters a method has. Refusals: 1 to 4, 11. */
dn_reply dn_param_count(const uint8_t *tables, size_t tables_len, const uint8_t *strings, size_t strings_len,
                        const uint8_t *blob, size_t blob_len, uint32_t options, uint64_t *steps,
                        uint32_t class_number, uint32_t method);

/* The type of a parameter of a method, as text. Refusals: 1 to 6, 11. */
dn_reply dn_param_type(const uint8_t *tables, size_t tables_len, const uint8_t *strings, size_t strings_len,
                       const uint8_t *blob, size_t blob_len, uint32_t options, uint64_t *steps,
                       uint32_t class_number, uint32_t method, uint32_t parameter, uint8_t *buf, size_t buf_len);

/* The name of a parameter of a method. Refusals: 1 to 6, 11. */
dn_reply dn_param_name(const uint8_t *tables, size_t tables_len, const uint8_t *strings, size_t strings_len,
                       const uint8_t *blob, size_t blob_len, uint32_t options, uint64_t *steps,
                       uint32_t class_number, uint32_t method, uint32_t parameter, uint8_t *buf, size_t buf_len);

/* Any call for a number, by its question: a, b and c are the numbers of that call in its own order, and those that it does not have are
 * ignored. A question that there is not, or one for a name, is refused with 4, after 1, 2 and 3, and leaves the steps as they are. */
dn_reply dn_ask_number(const uint8_t *tables, size_t tables_len, const uint8_t *strings, size_t strings_len,
                       const uint8_t *blob, size_t blob_len, uint32_t options, uint64_t *steps,
                       uint32_t question, uint32_t a, uint32_t b, uint32_t c);

/* Any call for a name, by its question, in the same way. */
dn_reply dn_ask_name(const uint8_t *tables, size_t tables_len, const uint8_t *strings, size_t strings_len,
                     const uint8_t *blob, size_t blob_len, uint32_t options, uint64_t *steps,
                     uint32_t question, uint32_t a, uint32_t b, uint32_t c, uint8_t *buf, size_t buf_len);

/* A piece of the listing: as many whole lines from a cursor on as the buffer holds, and zeros behind them. It is asked for with all 0, then
 * with the cursor of the piece before, until it is done. A buffer that does not hold the next line gets 0 bytes and the same cursor;
 * DN_LONGEST_LINE bytes always suffice. A piece looks at no more than 65,536 places, some of which have no line: so it may leave room in a
 * large buffer, or have 0 bytes, and still get on. Any numbers are a cursor, and a place that there is not is the end. A stream that is refused
 * has one line, `refused=` and the number.
 *
 * A line is a key, a value and the byte 0x0A. In the value each byte below 0x22, above 0x7E, or equal to 0x25 is written as a percent sign
 * and two upper-case hex digits, every other byte as it stands: so no value ends its line, and no two print alike. A name of more than
 * 4,096 bytes, counted before this writing, is `!`, which no other value is; a missing one is empty, and so are the packing and the size of
 * a class that no row of ClassLayout names. The calls for names give the bytes as
 * they stand. A listing allows 1,000,000 steps for each name: a method that counts more has `returns=!` and no lines of parameters, a class
 * whose base types do has one line `base=!`.
 *
 * The words are there for speed alone: the rows of a class are found by them without a search. Any number of words will do, 0 too, and
 * whatever they hold; the piece is the same, and after the call every word is 0. 24,000 words serve every input of 65,536 bytes. In
 * general these suffice: 5 for each row of TypeDef, 2 for each of MethodDef, 1 for each of GenericParam, InterfaceImpl, NestedClass and
 * ClassLayout, and 135 more. With fewer some rows are searched for. */
dn_piece dn_listing(const uint8_t *tables, size_t tables_len, const uint8_t *strings, size_t strings_len,
                    const uint8_t *blob, size_t blob_len, uint32_t options,
                    dn_cursor from, uint32_t *work, size_t work_len, uint8_t *buf, size_t buf_len);

/* The type-name section: the full names of all classes in one buffer, class 0 first. Each has a slot: the name, one zero, and the fewest
 * zeros more that reach a multiple of four, so that a name of 4, 8 or 12 bytes has four zeros behind it. Slots follow one another, the
 * first at 0. A missing name has a slot of four zeros, as an empty one has: dn_class_name tells them apart. offsets[c] is where the slot of
 * class c begins, a multiple of four; read from there up to the first zero, the section gives the name, as no name has a zero byte.
 *
 * The reply is the bytes of all slots and the number of classes. Every byte behind the slots is 0, and every offset behind the classes;
 * after a refusal every byte and every offset is 0. What the buffers held before makes no difference: equal streams and options, and
 * buffers of equal lengths, give equal replies, sections and offsets.
 *
 * Refusals: 1, 2, 3; 6 where the slots are longer than the section's buffer, where there are more classes than offsets, or where a slot
 * begins above 4,294,967,295. How long they are is not told then: dn_class_count tells the classes, and a caller doubles the section's
 * buffer and asks again. The offsets are aligned to four bytes, and neither buffer overlaps anything else. */
dn_section dn_name_section(const uint8_t *tables, size_t tables_len, const uint8_t *strings, size_t strings_len,
                           const uint8_t *blob, size_t blob_len, uint32_t options,
                           uint8_t *section, size_t section_len, uint32_t *offsets, size_t offsets_len);

#ifdef __cplusplus
}
#endif

#endif
