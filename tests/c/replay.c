/* The calls of include/dotnet_tables.h, linked as a C program links them, against recorded answers of the Rust:

     replay CALLS STEPS MODES WRONG_CALLS WALKS WRONG_WALKS

   CALLS, STEPS and MODES are crates/call_vectors/data/cases, steps and modes, and WALKS crates/extents_replay/data/cases; those crates'
   src/main.rt say their forms. The files `wrong` beside them hold answers that are wrong on purpose: each must differ. A name is asked for in buffers of
   several lengths, full of 0xAA before, and every byte is looked at afterwards; what is left of an allowance is looked at too, and a call
   that takes one is asked by its name and by its question. Every call is also asked with null pointers of length 0 for each choice of its
   streams and its buffer, which must answer as other pointers of length 0 do. Exit status: 0 all is as it should be, 1 something is not,
   2 a file cannot be read. */
#include "recorded.h"

enum { KINDS = 64 }; /* of tables */
enum { WALKS = 2 };

static bytes tables, strings, blob;
static uint32_t options;

/* A call, its numbers, and where it has an allowance that and what is to be left of it. */
typedef struct question {
    char call[64];
    uint32_t numbers[3];
    int limited;
    uint64_t allowance, left;
} question;

/* The call of that name. Those that count steps take an allowance, and no others do. */
static int ask_by_name(const question *q, uint64_t *steps, uint8_t *buf, size_t len, dn_reply *reply) {
    uint32_t c = q->numbers[0], m = q->numbers[1], p = q->numbers[2];
    dn_streams s = {tables.at, tables.len, strings.at, strings.len, blob.at, blob.len, options};
#define CALL(name, ...) if (!q->limited && !strcmp(q->call, #name)) return *reply = dn_##name(DN_STREAMS(s) __VA_ARGS__), 1
#define COUNTING(name, ...) if (q->limited && !strcmp(q->call, #name)) return *reply = dn_##name(DN_STREAMS(s), steps, __VA_ARGS__), 1
    CALL(class_count, );
    CALL(class_flags, , c);
    CALL(class_packing, , c);
    CALL(class_size, , c);
    CALL(class_name, , c, buf, len);
    CALL(generic_count, , c);
    CALL(generic_name, , c, m, buf, len);
    COUNTING(base_count, c);
    COUNTING(base_name, c, m, buf, len);
    CALL(method_count, , c);
    CALL(method_flags, , c, m);
    CALL(method_name, , c, m, buf, len);
    CALL(method_generic_count, , c, m);
    CALL(method_generic_name, , c, m, p, buf, len);
    COUNTING(return_type, c, m, buf, len);
    COUNTING(param_count, c, m);
    COUNTING(param_type, c, m, p, buf, len);
    COUNTING(param_name, c, m, p, buf, len);
    return 0;
}

/* The same by its question, which takes an allowance for every call. */
static int ask_by_question(const question *q, uint64_t *steps, uint8_t *buf, size_t len, dn_reply *reply) {
    static const struct { const char *call; uint32_t number; } questions[] = {
        {"class_count", DN_ASK_CLASS_COUNT}, {"class_flags", DN_ASK_CLASS_FLAGS}, {"generic_count", DN_ASK_GENERIC_COUNT},
        {"base_count", DN_ASK_BASE_COUNT}, {"method_count", DN_ASK_METHOD_COUNT}, {"method_flags", DN_ASK_METHOD_FLAGS},
        {"method_generic_count", DN_ASK_METHOD_GENERIC_COUNT}, {"param_count", DN_ASK_PARAM_COUNT},
        {"class_packing", DN_ASK_CLASS_PACKING}, {"class_size", DN_ASK_CLASS_SIZE}, {"class_name", DN_ASK_CLASS_NAME},
        {"generic_name", DN_ASK_GENERIC_NAME}, {"base_name", DN_ASK_BASE_NAME}, {"method_name", DN_ASK_METHOD_NAME},
        {"method_generic_name", DN_ASK_METHOD_GENERIC_NAME}, {"return_type", DN_ASK_RETURN_TYPE}, {"param_type", DN_ASK_PARAM_TYPE},
        {"param_name", DN_ASK_PARAM_NAME}};
    const uint32_t *n = q->numbers;
    dn_streams s = {tables.at, tables.len, strings.at, strings.len, blob.at, blob.len, options};
    for (size_t i = 0; i < sizeof questions / sizeof *questions; i++) {
        uint32_t number = questions[i].number;
        if (strcmp(q->call, questions[i].call)) continue;
        *reply = number > 100 ? dn_ask_name(DN_STREAMS(s), steps, number, n[0], n[1], n[2], buf, len)
                              : dn_ask_number(DN_STREAMS(s), steps, number, n[0], n[1], n[2]);
        return 1;
    }
    return 0;
}

/* The bytes that a text of hex digits gives; none for another text. */
static bytes read_hex(const char *text) {
    bytes out = {malloc(strlen(text) / 2 + 1), 0};
    unsigned byte;
    if (!out.at) exit(2);
    for (; sscanf(text, "%2x", &byte) == 1 && text[1]; text += 2) out.at[out.len++] = (uint8_t)byte;
    return out;
}

static int same(dn_reply a, dn_reply b) { return a.value == b.value && a.refusal == b.refusal && a.reason == b.reason; }

/* The reply that an answer says: a number, or `!` and a refusal, with a point and the reason behind it where one is told. */
static dn_reply reply_in(const char *answer) {
    char *end;
    if (*answer != '!') return (dn_reply){strtoul(answer, NULL, 10), 0, 0};
    size_t refusal = strtoul(answer + 1, &end, 10);
    return (dn_reply){0, refusal, *end == '.' ? strtoul(end + 1, NULL, 10) : 0};
}

/* The ways to ask: by its name, and where it has an allowance by its question too; a call that counts nothing then by that alone. */
typedef int (*way)(const question *q, uint64_t *steps, uint8_t *buf, size_t len, dn_reply *reply);

static int is_counting(const char *call) {
    static const char *const counting[] = {"base_count", "base_name", "return_type", "param_count", "param_type", "param_name"};
    for (size_t i = 0; i < sizeof counting / sizeof *counting; i++)
        if (!strcmp(call, counting[i])) return 1;
    return 0;
}

static int is_asked(const question *q, way by) { return by == ask_by_name ? !q->limited || is_counting(q->call) : q->limited; }

static const way ways[] = {ask_by_name, ask_by_question};

/* Whether a call is answered so in a buffer of that length, with nothing behind the name, and leaves so much. */
static int room_agrees(const question *q, way by, dn_reply refused, bytes name, size_t room) {
    uint8_t *buf = malloc(room + 1);
    uint64_t steps = q->allowance;
    dn_reply reply, expected = room < name.len ? (dn_reply){0, DN_BUFFER_TOO_SMALL, 0} : (dn_reply){name.len, 0, 0};
    if (!buf) exit(2);
    memset(buf, 0xAA, room + 1);
    if (refused.refusal) expected = refused;
    int well = by(q, &steps, buf, room, &reply) && same(reply, expected) && steps == q->left && !memcmp(buf, name.at, expected.value)
        && zero_from(buf, expected.value, room) && buf[room] == 0xAA;
    free(buf);
    return well;
}

static int name_agrees(const question *q, way by, const char *answer) {
    dn_reply refused = *answer == '!' ? reply_in(answer) : (dn_reply){0, 0, 0};
    bytes name = read_hex(refused.refusal ? "" : answer);
    size_t few = name.len < 64 ? name.len : 2;
    int well = 1;
    for (size_t room = 0; room < few; room++) well &= room_agrees(q, by, refused, name, room);
    for (size_t room = name.len < 2 ? 0 : name.len - 1; room <= name.len + 2; room++) well &= room_agrees(q, by, refused, name, room);
    free(name.at);
    return well;
}

static int number_agrees(const question *q, way by, const char *answer) {
    uint64_t steps = q->allowance;
    dn_reply reply;
    return by(q, &steps, NULL, 0, &reply) && same(reply, reply_in(answer)) && steps == q->left;
}

/* Reads `CALL NUMBERS`, and where they are there `/ALLOWANCE LEFT`, from a line that goes on with `= ANSWER`. */
static question question_in(const char *line) {
    question q = {"", {0, 0, 0}, 0, 0, 0};
    if (sscanf(line, "%63s", q.call) != 1) return q;
    char *at = (char *)line + strlen(q.call), *slash = strchr(line, '/');
    for (int i = 0; i < 3 && at[1] != '=' && at[1] != '/'; i++) q.numbers[i] = (uint32_t)strtoul(at, &at, 10);
    if (slash) q.limited = 1, q.allowance = strtoull(slash + 1, &at, 10), q.left = strtoull(at, NULL, 10);
    return q;
}

/* An answer is a number, a name in hex, or a refusal. */
static int answer_agrees(const char *line) {
    question q = question_in(line);
    const char *answer = strchr(line, '=');
    answer += answer[1] == ' ' ? 2 : 1;
    int is_name = strstr(q.call, "_name") || strstr(q.call, "_type"), well = 1;
    for (int i = 0; i < 2; i++)
        if (is_asked(&q, ways[i])) well &= is_name ? name_agrees(&q, ways[i], answer) : number_agrees(&q, ways[i], answer);
    return well;
}

/* The reply where what `empty` names has length 0 and is at `spot`, and what is left: bit 0 the tables, 1 the strings, 2 the blob, 3 the
   buffer. */
static dn_reply ask_with_empty(const question *q, unsigned empty, uint8_t *spot, uint64_t *steps) {
    bytes kept[] = {tables, strings, blob}, none = {spot, 0};
    uint8_t room[16];
    dn_reply reply = {0, 0, 0};
    *steps = q->allowance;
    if (empty & 1) tables = none;
    if (empty & 2) strings = none;
    if (empty & 4) blob = none;
    if (empty & 8) ask_by_name(q, steps, spot, 0, &reply);
    else ask_by_name(q, steps, room, sizeof room, &reply);
    tables = kept[0], strings = kept[1], blob = kept[2];
    return reply;
}

/* Whether null pointers of length 0 are answered as other pointers of length 0 are. */
static int nulls_agree(const char *line) {
    question q = question_in(line);
    uint64_t left, left_by_spot;
    uint8_t spot = 0xAA;
    for (unsigned empty = 1; empty < 16; empty++) {
        dn_reply by_null = ask_with_empty(&q, empty, NULL, &left), by_spot = ask_with_empty(&q, empty, &spot, &left_by_spot);
        if (!same(by_null, by_spot) || left != left_by_spot || spot != 0xAA) return 0;
    }
    return 1;
}

static void stream_of(const char *line, const char *key, bytes *stream) {
    if (!strncmp(line, key, strlen(key)) && line[strlen(key)] == ' ') {
        free(stream->at);
        *stream = read_hex(line + strlen(key) + 1);
    }
}

/* A block begins with the options of the base. */
static void options_of(const char *line) {
    unsigned long bits;
    if (*line == '@') options = 0;
    if (sscanf(line, "options %lu", &bits) == 1) options = (uint32_t)bits;
}

static void replay_lines(bytes file, int (*agrees)(const char *)) {
    for (char *line = strtok((char *)file.at, "\n"); line; line = strtok(NULL, "\n")) {
        options_of(line), stream_of(line, "tables", &tables), stream_of(line, "strings", &strings), stream_of(line, "blob", &blob);
        if (*line != '#' && *line != '@' && strchr(line, '=')) tally(agrees(line), line);
    }
}

static void replay_calls(bytes file) { replay_lines(file, answer_agrees); }

static void replay_nulls(bytes file) { replay_lines(file, nulls_agree); }

/* A walk: its two calls. There are two, by row sizes that are added up and by the table of them. */
typedef struct walk {
    dn_reply (*stop)(const uint8_t *tables, size_t tables_len, uint32_t options);
    dn_extent (*extent)(const uint8_t *tables, size_t tables_len, uint32_t options, uint32_t kind);
} walk;

static const walk walks[] = {{dn_walk_stop, dn_walk_extent}, {dn_walk_stop_by_table, dn_walk_extent_by_table}};

static int extent_is(const walk *w, uint32_t kind, size_t start, size_t size, size_t rows) {
    dn_extent e = w->extent(tables.at, tables.len, 0, kind);
    return e.start == start && e.size == size && e.rows == rows;
}

static int no_extent_from(const walk *w, uint32_t kind) {
    for (; kind <= KINDS; kind++)
        if (!extent_is(w, kind, 0, 0, 0)) return 0;
    return 1;
}

/* A line `KIND START SIZE ROWS` for each kind, then `stop=KIND`; or `refused=NUMBER` alone. */
static int walk_agrees(const walk *w, const char *text) {
    size_t kind, start, size, rows, number;
    int used;
    dn_reply stop = w->stop(tables.at, tables.len, 0);
    if (sscanf(text, "refused=%zu", &number) == 1) return stop.refusal == number && !stop.value && !stop.reason && no_extent_from(w, 0);
    for (uint32_t k = 0; k < KINDS; k++, text += used) {
        if (sscanf(text, "%zu %zu %zu %zu %n", &kind, &start, &size, &rows, &used) != 4) return 0;
        if (kind != k || !extent_is(w, k, start, size, rows)) return 0;
    }
    return sscanf(text, "stop=%zu", &number) == 1 && stop.value == number && !stop.refusal && !stop.reason && no_extent_from(w, KINDS);
}

/* Inputs that are no bundle, refusal 8, never reach the library. */
static void replay_walks(bytes file) {
    bytes input, text;
    size_t len, at = 0;
    while (next_case(file, &at, &input, &text)) {
        char *in = (char *)input.at, *expected = calloc(text.len + 1, 1);
        if (!expected) exit(2);
        memcpy(expected, text.at, text.len);
        if (strcmp(expected, "refused=8\n") && sscanf(in, "tables=%zu", &len) == 1) {
            for (int lines = 0; lines < 3; lines++) in = strchr(in, '\n') + 1;
            free(tables.at);
            tables.at = malloc(len + 1);
            if (!tables.at) exit(2);
            memcpy(tables.at, in, tables.len = len);
            for (int i = 0; i < WALKS; i++) tally(walk_agrees(&walks[i], expected), expected);
        }
        free(expected);
    }
}

static int not_found(dn_part part, size_t reason) {
    return !part.start && !part.len && part.refusal == DN_NOT_FOUND && part.reason == reason;
}

static void lookups(void) {
    static const size_t reasons[] = {DN_NULL_INDEX, DN_NO_REASON, DN_NO_REASON, DN_NO_ZERO, DN_PAST_END, DN_PAST_END};
    uint8_t text[] = {0, 'A', 0, 'B'}, parts[] = {2, 7, 8};
    dn_part a = dn_lookup(text, 4, parts, 3, DN_STRINGS, 1), b = dn_lookup(text, 4, parts, 3, DN_BLOBS, 0);
    tally(a.start == 1 && a.len == 1 && !a.refusal && !a.reason, "a string");
    tally(b.start == 1 && b.len == 2 && !b.refusal && !b.reason, "a blob");
    for (uint32_t i = 0; i < 6; i++)
        if (reasons[i]) tally(not_found(dn_lookup(text, 4, parts, 3, DN_STRINGS, i), reasons[i]), "why a string is missing");
    tally(not_found(dn_lookup(text, 4, parts, 3, DN_BLOBS, 3), DN_NO_REASON), "a blob past the end");
    tally(not_found(dn_lookup(text, 4, parts, 3, 2, 1), DN_NO_REASON), "a heap that there is not");
}

/* What takes no class: by null pointers of length 0 there is nothing. */
static void nulls(void) {
    for (int i = 0; i < WALKS; i++) {
        dn_reply stop = walks[i].stop(NULL, 0, 0);
        dn_extent extent = walks[i].extent(NULL, 0, 0, 2);
        tally(!stop.value && stop.refusal == DN_SHORT_HEADER && !stop.reason, "the walk of a null pointer");
        tally(!extent.start && !extent.size && !extent.rows, "an extent of a null pointer");
    }
    for (uint32_t which = DN_STRINGS; which <= DN_BLOBS; which++) {
        size_t reason = which == DN_STRINGS ? DN_NULL_INDEX : DN_NO_REASON;
        tally(not_found(dn_lookup(NULL, 0, NULL, 0, which, 0), reason), "a heap that is a null pointer");
    }
}

int main(int count, char **words) {
    if (count != 7) return fprintf(stderr, "usage: replay CALLS STEPS MODES WRONG_CALLS WALKS WRONG_WALKS\n"), 2;
    lookups(), nulls();
    int well = report("lookups, and what takes no class by null pointers");
    well &= replay(words[1], replay_calls, "calls", 0);
    well &= replay(words[2], replay_calls, "calls with allowances around their counts", 0);
    well &= replay(words[3], replay_calls, "calls in both modes", 0);
    well &= replay(words[4], replay_calls, "calls", 1);
    well &= replay(words[1], replay_nulls, "calls by null pointers", 0);
    well &= replay(words[5], replay_walks, "walks", 0);
    well &= replay(words[6], replay_walks, "walks", 1);
    free(tables.at), free(strings.at), free(blob.at);
    return well ? 0 : 1;
}
