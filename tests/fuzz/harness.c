/* The compiled calls, under inputs and buffers of every kind. What a proof says of them is seen here in the archive that users link.

     harness lengths SEEDS         every call for a name, with buffers of every length from 0 to two past the name, filled with 0x00, 0xAA
                                   and 0xFF: one reply, and the same bytes afterwards, also by its question; and the type-name section, with
                                   as many bytes and as many offsets
     harness inputs SEEDS N SEED   N inputs, made from the seeds by mutation or from nothing: every call, with numbers inside and outside,
                                   by its name and by its question, in either mode of opening with any other options, and with any
                                   allowance of steps, of which both leave the same; packing and size beside the rows of ClassLayout, where
                                   the walk says that these are; questions that there are not; pieces of the listing from
                                   anywhere, by lent words of any number and content; and the type-name section, in buffers of any lengths
                                   and of four fillings, beside the one that the names of the classes make

   SEEDS is a file of inputs of the listing program, each after a 4-byte little-endian length. Every stream ends where memory ends, the
   buffer and the lent words or offsets too, and before these two stand bytes that must stay. Exit status: 0 all well, 1 something is wrong,
   2 no seeds or no memory. */
#define _GNU_SOURCE
#include <setjmp.h>
#include <signal.h>
#include <stdio.h>
#include <stdlib.h>
#include <string.h>
#include <sys/mman.h>
#include <sys/time.h>
#include <time.h>
#include <unistd.h>
#include "calls.h"

#define MOST 65536           /* bytes of an input */
#define ROOM (1 << 20)       /* bytes of the largest buffer */
#define CANARY 64            /* bytes before the buffer, and before lent words */
#define PLACES 15            /* of a listing */
#define CLASS_LAYOUT 0x0F    /* a kind of table, and */
#define PARENT 6             /* bytes before the Parent column of its rows */
#define NAME 4096            /* bytes for a name of a section, and */
#define SECTION (1 << 16)    /* of the longest that is made by the names */
#define WAYS 4               /* to fill the buffers of a section */
#define TICK 50000           /* microseconds */
#define TICKS_A_CALL 6

/* ---- memory that ends where it must */

struct region { uint8_t *start, *end; };

static struct region region_of(size_t size) {
    size_t page = (size_t)sysconf(_SC_PAGESIZE), whole = (size + page - 1) / page * page;
    uint8_t *at = mmap(0, whole + page, PROT_READ | PROT_WRITE, MAP_PRIVATE | MAP_ANONYMOUS, -1, 0);
    if (at == MAP_FAILED || mprotect(at + whole, page, PROT_NONE)) {
        fprintf(stderr, "fuzz: no memory\n");
        exit(2);
    }
    return (struct region){ at, at + whole };
}

static struct region streams[3], lent, lent_words;
static uint8_t copy[3][MOST];   /* of the streams, to see that they are only read */
static size_t lengths[3];
static struct input input;
static uint32_t mode; /* of opening, for all calls on an input, so that its replies can be compared: 0 or DN_TAKER */

/* Places the three streams, from `copy`. */
static void place(void) {
    struct bytes *to[3] = { &input.tables, &input.strings, &input.blob };
    for (int i = 0; i < 3; i++) {
        *to[i] = (struct bytes){ streams[i].end - lengths[i], lengths[i] };
        memcpy(streams[i].end - lengths[i], copy[i], lengths[i]);
    }
    input.options = mode;
}

static int are_unchanged(void) {
    for (int i = 0; i < 3; i++)
        if (memcmp(streams[i].end - lengths[i], copy[i], lengths[i])) return 0;
    return 1;
}

/* ---- what is wrong, and what takes too long */

static unsigned long asked, wrong, slow;
static struct current { const char *name; uint32_t numbers[4]; size_t room, words; } current;
static volatile sig_atomic_t ticks, armed;
static uint64_t allowance = LISTED, left; /* of every call for an input, so that its replies can be compared; and what the last one left */
static sigjmp_buf too_long;

static void save_input(const char *why) {
    char path[64];
    static int saved;
    if (saved++ >= 20) return;
    snprintf(path, sizeof path, "%s-%d-%d.in", why, (int)getpid(), saved);
    FILE *file = fopen(path, "wb");
    if (!file) return;
    fprintf(file, "tables=%zu\nstrings=%zu\nblob=%zu\n", lengths[0], lengths[1], lengths[2]);
    for (int i = 0; i < 3; i++) fwrite(copy[i], 1, lengths[i], file);
    fclose(file);
    fprintf(stderr, "fuzz: the input: %s\n", path);
}

static void report(const char *what) {
    if (wrong++ < 20) {
        const uint32_t *n = current.numbers;
        fprintf(stderr, "wrong: %s %u %u %u %u, options %#x, %zu bytes, %zu words, %llu of %llu steps: %s\n", current.name, n[0], n[1], n[2],
                n[3], input.options, current.room, current.words, (unsigned long long)left, (unsigned long long)allowance, what);
        save_input("wrong");
    }
}

static void on_tick(int number) {
    (void)number;
    if (armed && ++ticks > TICKS_A_CALL) {
        armed = 0;
        siglongjmp(too_long, 1);
    }
}

static void on_fault(int number) {
    report(number == SIGSEGV ? "a read or a write out of place, or a stack that overflows" : "a trap");
    _exit(1);
}

static void catch_signals(void) {
    stack_t other = { .ss_sp = malloc(1 << 16), .ss_size = 1 << 16 };
    sigaltstack(&other, 0);
    struct sigaction fault = { .sa_handler = on_fault, .sa_flags = SA_ONSTACK }, tick = { .sa_handler = on_tick, .sa_flags = SA_RESTART };
    sigaction(SIGSEGV, &fault, 0), sigaction(SIGBUS, &fault, 0), sigaction(SIGILL, &fault, 0), sigaction(SIGFPE, &fault, 0);
    sigaction(SIGALRM, &tick, 0);
    struct itimerval every = { { 0, TICK }, { 0, TICK } };
    setitimer(ITIMER_REAL, &every, 0);
}

/* ---- asking */

static void begin(struct current next) { current = next, asked++, ticks = 0, armed = 1, left = allowance, input.steps = &left; }

/* All is left where nothing is counted, and of 1 to 4; nothing after 11, which is for what counts; and never more than there was. */
static void look_at_steps(uint32_t question, dn_reply reply) {
    int is_whole = !is_counting(question) || (reply.refusal && reply.refusal <= DN_NO_SUCH_ROW);
    if (reply.refusal == DN_TOO_MANY_STEPS ? left || !is_counting(question) : is_whole ? left != allowance : left > allowance)
        report("steps that are left so");
}

/* A reason, one of three, stands beside 5 of a class, method or generic name, and beside nothing else. */
static int reason_fits(int call, dn_reply reply) {
    int told = call == CLASS_NAME || call == GENERIC_NAME || call == METHOD_NAME || call == METHOD_GENERIC_NAME;
    if (told && reply.refusal == DN_NO_NAME) return DN_NULL_INDEX <= reply.reason && reply.reason <= DN_NO_ZERO;
    return reply.reason == DN_NO_REASON;
}

static dn_reply ask(int call, const uint32_t *r, struct buffer buffer) {
    begin((struct current){ calls[call].name, { r[0], r[1], r[2], 0 }, buffer.length, 0 });
    dn_reply reply = calls[call].ask(&input, r, buffer);
    armed = 0;
    if (!reason_fits(call, reply)) report("a reason that does not belong there, or none where one does");
    look_at_steps(calls[call].question, reply);
    return reply;
}

static const struct buffer no_buffer;

/* How many there are, or 0. */
static uint64_t count(int call, const uint32_t *rows) {
    dn_reply reply = ask(call, rows, no_buffer);
    return reply.refusal ? 0 : reply.value;
}

static struct buffer buffer_of(size_t length, int fill) {
    memset(lent.end - length - CANARY, 0x5C, CANARY);
    memset(lent.end - length, fill, length);
    return (struct buffer){ lent.end - length, length };
}

static int is_zero(const uint8_t *at, size_t length) {
    return length == 0 || (at[0] == 0 && !memcmp(at, at + 1, length - 1));
}

static void look_before(const uint8_t *at) {
    for (int i = 1; i <= CANARY; i++)
        if (at[-i] != 0x5C) { report("bytes before the buffer or the words are written"); break; }
}

/* Looks at what a call wrote: nothing before the buffer, and zeros behind what it used. */
static void look_at(struct buffer buffer, size_t used) {
    look_before(buffer.at);
    if (used > buffer.length) report("a length that cannot be");
    else if (!is_zero(buffer.at + used, buffer.length - used)) report("bytes that are not zero behind what is written");
}

static dn_reply ask_name(int call, const uint32_t *rows, size_t length, int fill) {
    struct buffer buffer = buffer_of(length, fill);
    dn_reply reply = ask(call, rows, buffer);
    look_at(buffer, reply.value);
    if (reply.refusal && reply.value) report("a length beside a refusal");
    return reply;
}

static int same(dn_reply a, dn_reply b) { return a.refusal == b.refusal && a.value == b.value && a.reason == b.reason; }

static uint8_t seen[ROOM]; /* what a buffer had after a call */

/* A question must have that reply, and leave the bytes that were seen, and as many steps as the call before it. */
static void check_question(uint32_t question, int is_name, const uint32_t *r, size_t length, dn_reply expected) {
    uint64_t expected_left = expected.refusal && expected.refusal <= DN_NO_SUCH_ROW ? allowance : left;
    struct buffer buffer = buffer_of(length, 0x55);
    begin((struct current){ is_name ? "ask_name" : "ask_number", { question, r[0], r[1], r[2] }, length, 0 });
    dn_reply reply = ask_question(&input, question, is_name, r, buffer);
    armed = 0;
    look_at(buffer, is_name ? reply.value : 0);
    if (!same(reply, expected)) report("another reply by the question");
    else if (left != expected_left) report("other steps by the question");
    else if (memcmp(buffer.at, seen, length)) report("other bytes by the question");
}

/* ---- seeds */

static struct seed { uint8_t *at[3]; size_t length[3]; } *seeds;
static size_t seed_count;

/* Cuts an input into its streams; 0 where it is malformed. */
static int cut_input(uint8_t *data, size_t length, struct seed *to) {
    char head[64] = { 0 };
    int end = 0;
    memcpy(head, data, length < 63 ? length : 63);
    if (sscanf(head, "tables=%zu\nstrings=%zu\nblob=%zu%n", &to->length[0], &to->length[1], &to->length[2], &end) != 3) return 0;
    uint8_t *at = data + end + 1;
    for (int i = 0; i < 3; at += to->length[i++]) {
        if (to->length[i] > MOST) return 0;
        to->at[i] = at;
    }
    return at == data + length && length <= MOST;
}

static void read_seeds(const char *path) {
    FILE *file = fopen(path, "rb");
    uint32_t length;
    while (file && fread(&length, 4, 1, file) == 1) {
        uint8_t *data = malloc(length + 1ul);
        if (!data || fread(data, 1, length, file) != length) break;
        seeds = realloc(seeds, (seed_count + 1) * sizeof *seeds);
        seed_count += (size_t)cut_input(data, length, &seeds[seed_count]);
    }
    if (!seed_count) {
        fprintf(stderr, "fuzz: no seeds in %s\n", path);
        exit(2);
    }
}

static void take(const struct seed *seed) {
    for (int i = 0; i < 3; i++) {
        lengths[i] = seed->length[i];
        memcpy(copy[i], seed->at[i], lengths[i]);
    }
}

/* ---- the type-name section */

/* What the names of the classes make. */
static struct { size_t bytes, classes; uint8_t slots[SECTION]; uint32_t starts[WORDS]; } made;

/* Makes it; 0 where a name has more than NAME bytes or all have more than SECTION. */
static int make_section(void) {
    uint32_t rows[3] = { 0, 0, 0 };
    made.bytes = 0, made.classes = count(CLASS_COUNT, rows);
    for (; rows[0] < made.classes; rows[0]++) {
        struct buffer buffer = buffer_of(NAME, 0xAA);
        dn_reply name = ask(CLASS_NAME, rows, buffer);
        size_t zeros = 4 - name.value % 4;
        if (name.refusal == DN_BUFFER_TOO_SMALL || made.bytes + name.value + zeros > SECTION) return 0;
        made.starts[rows[0]] = (uint32_t)made.bytes;
        memcpy(made.slots + made.bytes, buffer.at, name.value);
        memset(made.slots + made.bytes + name.value, 0, zeros);
        made.bytes += name.value + zeros;
    }
    return 1;
}

/* Zeros, FF, A5, or a running number. */
static void fill(uint8_t *at, size_t length, int way) {
    for (size_t i = 0; i < length; i++) at[i] = way < 3 ? (const uint8_t[]){ 0x00, 0xFF, 0xA5 }[way] : (uint8_t)i;
}

static struct words words_of(size_t n) {
    uint8_t *at = lent_words.end - n * sizeof(uint32_t);
    memset(at - CANARY, 0x5C, CANARY);
    return (struct words){ (uint32_t *)at, n };
}

/* So many bytes and offsets, filled in some way, must get the section that the names make; or zeros, beside that refusal. */
static void check_filled(size_t length, size_t places, int way, size_t refusal) {
    struct buffer buffer = buffer_of(length, 0);
    struct words offsets = words_of(places);
    uint8_t *starts = (uint8_t *)offsets.at;
    fill(buffer.at, length, way), fill(starts, places * sizeof *offsets.at, way);
    begin((struct current){ "name_section", { (uint32_t)way, 0, 0, 0 }, length, places });
    dn_section reply = section_of(&input, buffer, offsets);
    armed = 0;
    look_before(buffer.at), look_before(starts);
    size_t bytes = refusal ? 0 : made.bytes, classes = refusal ? 0 : made.classes, used = classes * sizeof *offsets.at;
    if (reply.refusal != refusal || reply.bytes != bytes || reply.classes != classes) report("another reply");
    else if (memcmp(buffer.at, made.slots, bytes) || !is_zero(buffer.at + bytes, length - bytes)) report("another section");
    else if (memcmp(starts, made.starts, used) || !is_zero(starts + used, places * sizeof *offsets.at - used)) report("other offsets");
}

/* The refusal of so many bytes and offsets, where opening has none. */
static size_t refusal_of(size_t length, size_t places) {
    return length < made.bytes || places < made.classes ? DN_BUFFER_TOO_SMALL : DN_OK;
}

static void check_section_lengths(void) {
    size_t refusal = ask(CLASS_COUNT, (const uint32_t[3]){ 0, 0, 0 }, no_buffer).refusal;
    if (!make_section()) return;
    for (size_t length = 0; length <= made.bytes + 2; length++) {
        if (made.bytes > 600 && length > 64 && length + 64 < made.bytes) length = made.bytes - 64;
        check_filled(length, made.classes, (int)(length % WAYS), refusal ? refusal : refusal_of(length, made.classes));
    }
    for (size_t places = 0; places <= made.classes + 2 && places <= WORDS; places++)
        check_filled(made.bytes, places, (int)(places % WAYS), refusal ? refusal : refusal_of(made.bytes, places));
}

/* ---- lengths */

static void check_lengths(int call, const uint32_t *rows) {
    static uint8_t name[ROOM];
    dn_reply whole = ask_name(call, rows, ROOM, 0);
    size_t n = whole.refusal ? 0 : whole.value;
    memcpy(name, lent.end - ROOM, n);
    for (size_t length = 0; length <= n + 2 && length <= ROOM; length++) {
        if (n > 600 && length > 64 && length + 64 < n) length = n - 64;
        dn_reply expected = whole;
        if (!whole.refusal && length < n) expected = (dn_reply){ .refusal = DN_BUFFER_TOO_SMALL };
        for (int fill = 0; fill < 3; fill++) {
            dn_reply reply = ask_name(call, rows, length, (const int[]){ 0x00, 0xAA, 0xFF }[fill]);
            if (!same(reply, expected)) report("another reply for another length or filling");
            else if (!reply.refusal && memcmp(lent.end - length, name, n)) report("another name for another length or filling");
        }
        memcpy(seen, lent.end - length, length);
        check_question(calls[call].question, 1, rows, length, expected);
    }
}

/* All numbers of a call, and one past each end. */
static void each_row(int call, int depth, uint32_t *rows) {
    if (depth == calls[call].rows) {
        check_lengths(call, rows);
        return;
    }
    uint64_t n = count(calls[call].counted_by[depth], rows);
    for (uint64_t i = 0; i <= n; i++) {
        if (i > 30 && i < n) i = n;
        rows[depth] = (uint32_t)i;
        each_row(call, depth + 1, rows);
    }
    rows[depth] = 0xFFFFFFFF;
    each_row(call, calls[call].rows, rows);
    rows[depth] = 0;
}

static void run_lengths(void) {
    static size_t i; /* static: it outlives a call that takes too long */
    for (i = 0; i < seed_count; i++) {
        if (sigsetjmp(too_long, 1)) { slow++, save_input("slow"); continue; }
        take(&seeds[i]), place();
        for (int call = 0; call < CALLS; call++) {
            uint32_t rows[3] = { 0, 0, 0 };
            if (calls[call].is_name) each_row(call, 0, rows);
        }
        check_section_lengths();
        if (!are_unchanged()) report("a stream is changed");
    }
}

/* ---- inputs */

static uint64_t state;

static uint64_t chance(void) { /* xorshift64* */
    state ^= state >> 12, state ^= state << 25, state ^= state >> 27;
    return state * 0x2545F4914F6CDD1Dull >> 16;
}

static size_t below(size_t n) { return n ? chance() % n : 0; }

static size_t room_left(void) { return MOST - 64 - lengths[0] - lengths[1] - lengths[2]; }

static void mutate(int i) {
    size_t n = lengths[i], at = below(n), other = below(n), size = (const size_t[]){ 1, 2, 4, 8, 14, 60 }[below(6)];
    uint8_t *s = copy[i];
    switch (below(12)) {
    case 0: case 1: case 2: if (n) s[at] = (uint8_t)chance(); break;
    case 3: case 4: if (n) s[at] ^= (uint8_t)(1 << below(8)); break;
    case 5: if (n) s[at] = (const uint8_t[]){ 0, 1, 0x12, 0x15, 0x1B, 0x1D, 0x7F, 0x80, 0xFF }[below(9)]; break;
    case 6: if (n) s[at] = s[other]; break;
    case 7: lengths[i] = at; break;
    case 8: if (n >= size) memmove(s + below(n - size + 1), s + below(n - size + 1), size); break;
    case 9: /* a piece taken out */
        if (at + size < n) memmove(s + at, s + at + size, n - at - size), lengths[i] -= size;
        break;
    case 10: /* a piece put in */
        if (room_left() > size && n + size < MOST) {
            memmove(s + at + size, s + at, n - at), lengths[i] += size;
            for (size_t k = 0; k < size; k++) s[at + k] = (uint8_t)chance();
        }
        break;
    default: { /* a heap of another seed */
        const struct seed *seed = &seeds[below(seed_count)];
        if (i && seed->length[i] < room_left() + n) memcpy(s, seed->at[i], lengths[i] = seed->length[i]);
    }
    }
}

static void mutate_header(void) {
    if (lengths[0] < 28) return;
    uint8_t *s = copy[0];
    switch (below(4)) {
    case 0: s[6] ^= (uint8_t)(1 << below(8)); break;
    case 1: s[8 + below(8)] ^= (uint8_t)(1 << below(8)); break;
    default: s[24 + 4 * below((lengths[0] - 24) / 4 < 12 ? (lengths[0] - 24) / 4 : 12) + below(2)] += (uint8_t)chance();
    }
}

/* A header whose counts pass, and then bytes by chance. */
static void make_noise(void) {
    uint64_t valid = chance() & chance() & 0x1FFFFFFFFFFFull;
    valid |= 0x44, lengths[0] = 24;
    memset(copy[0], 0, 24);
    copy[0][6] = (uint8_t)below(8);
    memcpy(copy[0] + 8, &valid, 8);
    for (int kind = 0; kind < 64; kind++)
        if (valid >> kind & 1) {
            uint32_t rows = (uint32_t)below(6);
            memcpy(copy[0] + lengths[0], &rows, 4), lengths[0] += 4;
        }
    for (size_t n = below(500); n; n--) copy[0][lengths[0]++] = (uint8_t)(below(3) ? below(24) : chance());
    for (int i = 1; i < 3; i++) {
        lengths[i] = below(200);
        for (size_t k = 0; k < lengths[i]; k++) copy[i][k] = (uint8_t)(below(4) ? chance() & (i == 1 ? 0x7F : 0x1F) : 0);
    }
}

static void make_input(void) {
    if (!below(8)) {
        make_noise();
        return;
    }
    take(&seeds[below(seed_count)]);
    for (size_t times = 1 + below(6); times; times--) below(10) ? mutate((const int[]){ 0, 0, 0, 1, 2, 2 }[below(6)]) : mutate_header();
}

/* Numbers for a call: inside where there is anything inside. The answer is whether all are inside; `out` is the place of one that is to
   be outside. */
static int some_rows(int call, int out, uint32_t *rows) {
    int inside = 1;
    memset(rows, 0, 3 * sizeof *rows);
    for (int i = 0; i < calls[call].rows; i++) {
        uint64_t n = inside ? count(calls[call].counted_by[i], rows) : 0;
        if (i == out || !n) {
            uint64_t past = n + (below(2) ? 0 : below(1000));
            rows[i] = below(4) ? (uint32_t)past : 0xFFFFFFFF - (uint32_t)below(2);
            inside = 0;
        } else
            rows[i] = (uint32_t)below(n);
    }
    return inside;
}

/* A number near a count, or any. */
static uint32_t number_near(uint64_t n) { return below(8) ? (uint32_t)below(n + 2) : below(2) ? 0xFFFFFFFF : (uint32_t)chance(); }

/* Any bits, in the same mode. */
static uint32_t some_options(void) {
    uint32_t bits = (const uint32_t[]){ (uint32_t)chance(), 0xFFFFFFFF, 1u << below(32) }[below(3)];
    return (bits & ~(uint32_t)DN_TAKER) | mode;
}

static uint64_t some_allowance(void) { return below(4) ? LISTED : (const uint64_t[]){ 0, below(8), below(100), below(100000) }[below(4)]; }

static size_t some_length(void) { return (const size_t[]){ below(3), below(24), below(24), below(200), 4096 }[below(5)]; }

/* The call's question, with numbers by chance where it has none. */
static void check_with_junk(int call, const uint32_t *rows, size_t length, dn_reply expected) {
    uint32_t r[3];
    for (int i = 0; i < 3; i++) r[i] = i < calls[call].rows ? rows[i] : number_near(2);
    check_question(calls[call].question, calls[call].is_name, r, length, expected);
}

static uint32_t little_endian(const uint8_t *at, int bytes) { return bytes ? at[0] | little_endian(at + 1, bytes - 1) << 8 : 0; }

/* What the first whole row of ClassLayout says that names a class (II.22.8), or 4: its packing, 2 bytes, or its size, the 4 behind them. */
static dn_reply layout_of(int call, uint32_t class_number) {
    dn_extent table = extent_of(&input, 0, CLASS_LAYOUT);
    const uint8_t *row = input.tables.at + table.start, *end = row + table.rows * table.size;
    for (; row < end; row += table.size)
        if (little_endian(row + PARENT, 2) == class_number + 2ul)
            return (dn_reply){ call == CLASS_PACKING ? little_endian(row, 2) : little_endian(row + 2, 4), 0, 0 };
    return (dn_reply){ 0, DN_NO_SUCH_ROW, 0 };
}

static void check_call(int call, size_t refusal, int out) {
    uint32_t rows[3];
    int inside = some_rows(call, out, rows), is_layout = call == CLASS_PACKING || call == CLASS_SIZE;
    size_t length = calls[call].is_name ? some_length() : 0;
    dn_reply reply, again;
    if (calls[call].is_name) {
        reply = ask_name(call, rows, length, (int)below(256));
        memcpy(seen, lent.end - length, length);
        input.options = some_options();
        again = ask_name(call, rows, length, (int)below(256));
        if (memcmp(seen, lent.end - length, length)) report("other bytes for another filling or other options");
    } else {
        reply = ask(call, rows, no_buffer);
        input.options = some_options();
        again = ask(call, rows, no_buffer);
    }
    if (!same(reply, again)) report("another reply the second time");
    if (is_layout && inside && !refusal && !same(reply, layout_of(call, rows[0]))) report("not what the class's row of ClassLayout says");
    int may_fail = is_layout ? reply.refusal == DN_NO_SUCH_ROW
                             : calls[call].is_name && (reply.refusal == DN_NO_NAME || reply.refusal == DN_BUFFER_TOO_SMALL);
    int is_over = reply.refusal == DN_TOO_MANY_STEPS && is_counting(calls[call].question);
    if (refusal ? reply.refusal != refusal : is_over ? 0 : inside ? reply.refusal && !may_fail : reply.refusal != DN_NO_SUCH_ROW)
        report("a refusal that does not belong there, or none where one does");
    if (calls[call].question) check_with_junk(call, rows, length, reply);
    input.options = mode;
}

/* The call of a question for a number or for a name; CALLS where there is none. */
static int call_of(uint32_t question, int is_name) {
    int call = 0;
    while (call < CALLS && !(calls[call].question && calls[call].question == question && calls[call].is_name == is_name)) call++;
    return call;
}

/* Any question, which need not be one of that call or of any. */
static void check_any_question(size_t refusal) {
    uint32_t question = (const uint32_t[]){ (uint32_t)below(14), 95 + (uint32_t)below(16), (uint32_t)chance(),
                                            calls[below(CALLS)].question + (256u << below(24)) }[below(4)];
    uint32_t rows[3] = { number_near(2), number_near(2), number_near(2) };
    int is_name = (int)below(2), call = call_of(question, is_name);
    size_t length = is_name ? some_length() : 0;
    dn_reply expected = { 0, refusal ? refusal : DN_NO_SUCH_ROW, 0 };
    memset(seen, 0, length);
    if (call < CALLS) {
        expected = ask(call, rows, buffer_of(length, 0xAA));
        memcpy(seen, lent.end - length, length);
    }
    input.options = some_options();
    check_question(question, is_name, rows, length, expected);
    input.options = mode;
}

/* ---- the listing */

static int same_cursor(dn_cursor a, dn_cursor b) {
    return a.place == b.place && a.class_number == b.class_number && a.method == b.method && a.item == b.item;
}

static int same_piece(dn_piece a, dn_piece b) { return a.used == b.used && a.done == b.done && same_cursor(a.next, b.next); }

static uint32_t anything[2 * WORDS]; /* of which lent words hold a part */

static void make_anything(void) {
    for (size_t i = 0; i < 2 * WORDS; i++) anything[i] = below(2) ? (uint32_t)chance() : (uint32_t)below(200);
}

/* Words of some number, none, a few or as many as serve. */
static struct words some_words(void) {
    size_t n = (const size_t[]){ 0, below(400), WORDS }[below(3)];
    struct words words = words_of(n);
    memcpy(words.at, anything + below(WORDS), n * sizeof *anything);
    return words;
}

static dn_piece list(dn_cursor from, size_t length, int fill) {
    struct buffer buffer = buffer_of(length, fill);
    struct words work = some_words();
    begin((struct current){ "listing", { from.place, from.class_number, from.method, from.item }, length, work.length });
    dn_piece piece = list_piece(&input, from, work, buffer);
    armed = 0;
    look_at(buffer, piece.used);
    look_before((const uint8_t *)work.at);
    if (!is_zero((const uint8_t *)work.at, work.length * sizeof *work.at)) report("lent words that are not zero");
    if (piece.used && piece.used <= length && buffer.at[piece.used - 1] != '\n') report("a piece that no line ends");
    if (piece.done > 1) report("neither done nor not done");
    return piece;
}

/* The line at a cursor is longer than what was left of a buffer, and one that is a byte shorter gets nothing. */
static void check_line(dn_cursor at, size_t left) {
    size_t n = 0, most = list(at, DN_LONGEST_LINE, 0xAA).used;
    memcpy(seen, lent.end - DN_LONGEST_LINE, most);
    while (n < most && seen[n++] != '\n') {} /* no value has a line end in it */
    dn_piece line = list(at, n, 0xAA);
    if (!line.used) {
        report("no line where a piece ends");
        return;
    }
    if (line.used != n || memcmp(lent.end - n, seen, n)) report("another line alone");
    if (n <= left) report("a line that is left out");
    if (!same_piece(list(at, n - 1, 0xAA), (dn_piece){ 0, 0, at })) report("something for a line that has no room");
}

static dn_cursor some_cursor(void) {
    uint32_t rows[3] = { 0, 0, 0 };
    rows[0] = number_near(count(CLASS_COUNT, rows));
    rows[1] = number_near(count(METHOD_COUNT, rows));
    rows[2] = number_near(count(PARAM_COUNT, rows));
    return (dn_cursor){ below(8) ? (uint32_t)below(PLACES) : number_near(PLACES + 2), rows[0], rows[1], rows[2] };
}

static void check_listing(void) {
    dn_cursor from = some_cursor();
    size_t length = (const size_t[]){ below(64), below(5001), DN_LONGEST_LINE }[below(3)];
    dn_piece piece = list(from, length, (int)below(256));
    memcpy(seen, lent.end - length, length);
    input.options = some_options();
    dn_piece again = list(from, length, (int)below(256));
    if (!same_piece(piece, again) || memcmp(lent.end - length, seen, length)) report("another piece the second time");
    if (from.place >= PLACES && (piece.used || !piece.done)) report("a place that there is not");
    if (!piece.done) check_line(piece.next, length - piece.used);
    input.options = mode;
}

/* ---- the section, in buffers of any lengths */

static size_t length_near(size_t n) { return (const size_t[]){ n, n ? n - 1 : 0, n + 1 + below(100), below(n + 1), 0 }[below(5)]; }

static void check_section(size_t refusal) {
    int is_made = make_section();
    size_t length = is_made ? length_near(made.bytes) : below(NAME), places = length_near(made.classes);
    if (!refusal) refusal = is_made ? refusal_of(length, places) : DN_BUFFER_TOO_SMALL;
    for (int way = 0; way < WAYS; way++) {
        check_filled(length, places, way, refusal);
        input.options = some_options();
    }
    input.options = mode;
}

/* ---- all of them */

/* The tables adjoin, and none reaches past the stream's end. Both walks say the same. */
static void check_walk(size_t refusal) {
    input.options = some_options();
    dn_reply stop = ask(WALK_STOP, (const uint32_t[3]){ 0, 0, 0 }, no_buffer);
    size_t end = 0;
    if (stop.refusal != refusal || (refusal ? stop.value : stop.value > KINDS)) report("a walk with another reply");
    if (!same(stop, ask(WALK_STOP_BY_TABLE, (const uint32_t[3]){ 0, 0, 0 }, no_buffer))) report("walks that stop elsewhere");
    for (uint32_t kind = 0; kind < KINDS; kind++) {
        dn_extent table = extent_of(&input, 0, kind), twin = extent_of(&input, 1, kind);
        asked += 2;
        if (table.start != twin.start || table.size != twin.size || table.rows != twin.rows) report("walks with other extents");
        if (!table.size) {
            if (table.start || table.rows) report("a table without rows that has a place");
            continue;
        }
        if (end && table.start != end) report("tables that do not adjoin");
        end = table.start + table.size * table.rows;
        if (end > input.tables.length || kind > stop.value) report("a table past the end");
    }
    input.options = mode;
}

static void run_inputs(unsigned long times) {
    static unsigned long left;
    make_anything();
    for (left = times; left; left--) {
        if (sigsetjmp(too_long, 1)) { slow++, save_input("slow"); continue; }
        make_input(), mode = below(2) ? DN_TAKER : 0, place(), allowance = some_allowance();
        dn_reply opened = ask(CLASS_COUNT, (const uint32_t[3]){ 0, 0, 0 }, no_buffer);
        if (opened.refusal > DN_TOO_MANY_ROWS) report("a refusal that opening does not have");
        check_walk(opened.refusal);
        for (int call = 0; call < CALLS; call++)
            for (int out = -1; out < calls[call].rows; out++)
                check_call(call, opened.refusal, out);
        check_any_question(opened.refusal);
        check_listing();
        check_section(opened.refusal);
        if (!are_unchanged()) report("a stream is changed");
    }
}

int main(int argc, char **argv) {
    int lengths_only = argc == 3 && !strcmp(argv[1], "lengths");
    if (!lengths_only && !(argc == 5 && !strcmp(argv[1], "inputs"))) {
        fprintf(stderr, "usage: harness lengths SEEDS, or harness inputs SEEDS N SEED\n");
        return 2;
    }
    for (int i = 0; i < 3; i++) streams[i] = region_of(MOST);
    lent = region_of(ROOM + CANARY);
    lent_words = region_of(WORDS * sizeof *anything + CANARY);
    read_seeds(argv[2]);
    catch_signals();
    time_t begun = time(0);
    if (lengths_only) run_lengths();
    else state = strtoull(argv[4], 0, 10) * 0x9E3779B97F4A7C15ull | 1, run_inputs(strtoul(argv[3], 0, 10));
    printf("%s: %lu inputs, %lu calls, %lu wrong, %lu slow, %ld seconds\n", argv[1], lengths_only ? seed_count : strtoul(argv[3], 0, 10),
           asked, wrong, slow, (long)(time(0) - begun));
    return wrong ? 1 : 0;
}
