/* Our listing by calls and by pieces and the Rust's two, in one process, and single calls of ours, that for the type-name section among
   them. Run under callgrind by bench/run, which counts what each function named measure_.. costs; the lines that this prints say in order
   which they were, and lines= how many the listing has.

     bench INPUT LISTING
     bench TIMES INPUT LISTING   makes only the Rust's listing of the part that we take, so many times, for bench/growth.py

   INPUT is a file of the listing program's form, and the listing is written to LISTING. The Rust's are compared with ours without the lines
   packing= and size= behind each flags=, which it does not have (2026-12). Exit status: 0, or 1 where the listings differ, or 2 where a file
   cannot be read or written. */
#include <fcntl.h>
#include <sys/types.h>
#include <unistd.h>
#include "listing.h"

#define ROOM (1 << 27) /* bytes of a listing */
#define PIECE 65536 /* bytes of a piece */
#define MEASURED __attribute__((noinline))

/* liboracle.a */
typedef size_t rust_listing(struct bytes tables, struct bytes strings, struct bytes blob, uint8_t *text, size_t room);
rust_listing rust_fields; /* the part that we take, nothing freed: the figure that counts */
rust_listing rust_values; /* by way of all its values, which it frees */

/* Rust's HashMap takes its keys from here: the same in every run, so that the counts are. */
ssize_t getrandom(void *to, size_t n, unsigned flags) {
    (void)flags;
    memset(to, 0x5A, n);
    return (ssize_t)n;
}

static uint8_t other_text[ROOM];
static char our_text[ROOM], rust_text[ROOM]; /* our listing, and without the lines that the Rust does not have */
static struct input in;

static size_t read_all(int file, uint8_t *to, size_t room) {
    size_t n = 0;
    for (ssize_t more; n < room && (more = read(file, to + n, room - n)) > 0;) n += (size_t)more;
    return n;
}

static int write_all(int file, const uint8_t *from, size_t n) {
    for (ssize_t done; n; from += done, n -= (size_t)done)
        if ((done = write(file, from, n)) <= 0) return 0;
    return 1;
}

static int open_file(int file, uint8_t data[MOST + 1], struct input *to) { return open_input(data, read_all(file, data, MOST + 1), to); }

/* ---- what is measured */

size_t measure_fair(void) MEASURED;
size_t measure_fair(void) { return rust_fields(in.tables, in.strings, in.blob, other_text, ROOM); }

size_t measure_values(void) MEASURED;
size_t measure_values(void) { return rust_values(in.tables, in.strings, in.blob, other_text, ROOM); }

void measure_listing(struct listing *listing) MEASURED;
void measure_listing(struct listing *listing) { list(listing); }

/* All that the listing program does, from reading the input to writing the last piece. */
int measure_pieces(int input, int output) MEASURED;
int measure_pieces(int input, int output) {
    static uint8_t data[MOST + 1], text[PIECE];
    static uint32_t work[WORDS];
    struct input own;
    if (!open_file(input, data, &own)) return 0;
    for (dn_piece piece = { 0 }; !piece.done;) {
        piece = list_piece(&own, piece.next, (struct words){ work, WORDS }, (struct buffer){ text, sizeof text });
        if (!write_all(output, text, piece.used)) return 0;
    }
    return 1;
}

dn_reply measure_call(int call, const uint32_t *r, struct buffer buffer) MEASURED;
dn_reply measure_call(int call, const uint32_t *r, struct buffer buffer) { return calls[call].ask(&in, r, buffer); }

dn_section measure_section(void) MEASURED;
dn_section measure_section(void) {
    static uint8_t section[PIECE];
    static uint32_t offsets[WORDS];
    return section_of(&in, (struct buffer){ section, sizeof section }, (struct words){ offsets, WORDS });
}

/* ---- the order of it */

static void differ(void) {
    fprintf(stderr, "bench: the listings differ\n");
    exit(1);
}

static void compare(size_t length, const char *text, size_t expected) {
    if (length != expected || memcmp(other_text, text, length)) differ();
}

/* The length of the line at a place of our listing, which must begin so. */
static size_t line_at(size_t at, size_t end, const char *key) {
    const char *line = our_text + at, *last = memchr(line, '\n', end - at);
    if (!last || (size_t)(last - line) < strlen(key) || memcmp(line, key, strlen(key))) differ();
    return (size_t)(last - line) + 1;
}

/* Leaves out the two lines behind each flags=, and nothing else. */
static size_t drop_layouts(size_t length) {
    size_t kept = 0;
    for (size_t at = 0, n; at < length; at += n) {
        n = line_at(at, length, "");
        memcpy(rust_text + kept, our_text + at, n), kept += n;
        if (n < 6 || memcmp(our_text + at, "flags=", 6)) continue;
        n += line_at(at + n, length, "packing=");
        n += line_at(at + n, length, "size=");
    }
    return kept;
}

static void fail(const char *what) {
    fprintf(stderr, "bench: %s\n", what);
    exit(2);
}

/* The Rust's are made once before, so that nothing is done for the first time. */
static size_t all_listings(int input, int output) {
    struct listing listing = { &in, our_text, 0, ROOM };
    printf("calls\n");
    measure_listing(&listing);
    printf("pieces\n");
    if (lseek(input, 0, SEEK_SET) || !measure_pieces(input, output) || lseek(output, 0, SEEK_SET)) fail("the listing cannot be written");
    compare(read_all(output, other_text, ROOM), our_text, listing.length);
    size_t kept = drop_layouts(listing.length);
    rust_fields(in.tables, in.strings, in.blob, other_text, ROOM);
    printf("fair\n");
    compare(measure_fair(), rust_text, kept);
    rust_values(in.tables, in.strings, in.blob, other_text, ROOM);
    printf("values\n");
    compare(measure_values(), rust_text, kept);
    return listing.length;
}

/* The first or the last numbers that a call takes, from a depth on; 0 if there are none. */
static int find_rows(int call, int last, int depth, uint32_t *r) {
    struct listing none = { &in, 0, 0, 0 };
    if (depth == calls[call].rows) return 1;
    uint64_t n = number_of(&none, calls[call].counted_by[depth], r);
    for (uint64_t i = 0; i < n; i++) {
        r[depth] = (uint32_t)(last ? n - 1 - i : i);
        if (find_rows(call, last, depth + 1, r)) return 1;
    }
    return 0;
}

static void single_calls(void) {
    static uint8_t name[LONGEST];
    for (int call = 0; call < CALLS; call++)
        for (int last = 0; last <= (calls[call].rows > 0); last++) {
            uint32_t r[3] = { 0, 0, 0 };
            if (!find_rows(call, last, 0, r)) continue;
            printf("call %s%s\n", calls[call].name, calls[call].rows ? last ? ", last" : ", first" : "");
            measure_call(call, r, (struct buffer){ name, calls[call].is_name ? sizeof name : 0 });
        }
}

static void section_call(void) {
    printf("section\n");
    if (measure_section().refusal) fail("the section is too long");
}

static void print_lines(size_t length) {
    size_t lines = 0;
    for (size_t i = 0; i < length; i++) lines += our_text[i] == '\n';
    printf("lines=%zu\n", lines);
}

static size_t fair_listings(int times) {
    size_t length = 0;
    while (times-- > 0) length = measure_fair();
    return length;
}

int main(int argc, char **argv) {
    static uint8_t data[MOST + 1];
    int given = argc == 3 || argc == 4, times = argc == 4 ? atoi(argv[1]) : 0;
    int input = given ? open(argv[argc - 2], O_RDONLY) : -1;
    int output = input < 0 ? -1 : open(argv[argc - 1], O_RDWR | O_CREAT | O_TRUNC, 0666);
    if (output < 0 || !open_file(input, data, &in)) fail("usage: bench [TIMES] INPUT LISTING");
    if (times) return write_all(output, other_text, fair_listings(times)) ? 0 : 2;
    size_t length = all_listings(input, output);
    single_calls();
    section_call();
    print_lines(length);
    return 0;
}
