/* Listings read back, as whoever reads them by lines does: each value with its percent signs undone is what the call for it answers.

     back CASES

   CASES is crates/replay/data/cases: inputs, and for each the text that the listing program prints; that crate's src/main.rt says the form.
   A value `!` must be a name that a buffer of 4,096 bytes does not hold, and an empty one a name that is empty or missing, or a packing or a
   size that is missing. Exit status: 0 all is as it should be, 1 something is not, 2 a file cannot be read. */
#include "listed.h"

enum { LONGEST = 4096 }; /* bytes of a value that is listed */

/* Where the reading is: the numbers that the last lines were about. */
static struct input in;
static uint32_t class_number, method, item;
static size_t number; /* of the case, from 0 */

static int digit(uint8_t c) { return c >= '0' && c <= '9' ? c - '0' : c >= 'A' && c <= 'F' ? c - 'A' + 10 : -1; }

/* Undoes the percent signs of a value in its place; its length, or -1 where a byte stands that should not. */
static long undo(uint8_t *value, size_t n) {
    size_t to = 0;
    for (size_t at = 0; at < n; at++) {
        int high = at + 2 < n ? digit(value[at + 1]) : -1, low = at + 2 < n ? digit(value[at + 2]) : -1;
        if (value[at] < 0x22 || value[at] > 0x7E) return -1;
        if (value[at] != '%') {
            value[to++] = value[at];
        } else {
            if (high < 0 || low < 0) return -1;
            value[to++] = (uint8_t)(high * 16 + low), at += 2;
        }
    }
    return (long)to;
}

static void check(int agrees, const char *key) {
    char what[100];
    snprintf(what, sizeof what, "case %zu, %s of class %u, method %u, %u", number, key, (unsigned)class_number, (unsigned)method, (unsigned)item);
    tally(agrees, what);
}

static void check_name(const char *key, int call, const uint32_t *rows, uint8_t *value, size_t n) {
    uint8_t name[LONGEST];
    dn_reply reply = calls[call].ask(&in, rows, (struct buffer){name, LONGEST});
    if (n == 1 && value[0] == '!') {
        check(reply.refusal == DN_BUFFER_TOO_SMALL || reply.refusal == DN_TOO_MANY_STEPS, key);
        return;
    }
    long length = undo(value, n);
    if (reply.refusal == DN_NO_NAME) check(length == 0, key);
    else check(!reply.refusal && length == (long)reply.value && !memcmp(name, value, reply.value), key);
}

static void check_number(const char *key, int call, const uint32_t *rows, const uint8_t *value, size_t n) {
    char digits[24];
    dn_reply reply = calls[call].ask(&in, rows, (struct buffer){0, 0});
    if (reply.refusal == DN_NO_SUCH_ROW && (call == CLASS_PACKING || call == CLASS_SIZE)) {
        check(n == 0, key);
        return;
    }
    int length = snprintf(digits, sizeof digits, "%zu", reply.value);
    check(!reply.refusal && (size_t)length == n && !memcmp(digits, value, n), key);
}

/* What a key asks for, whether it is a name, and how it moves the place: 1 a class more, 2 a method more, 3 an item more, 4 the item of the
   line before. An item of another key than the line before is the first. */
static const struct line {
    const char *key;
    int call, named, moves;
} lines[] = {
    {"stop=", WALK_STOP, 0, 0}, {"classes=", CLASS_COUNT, 0, 0}, {"class=", CLASS_NAME, 1, 1}, {"flags=", CLASS_FLAGS, 0, 0},
    {"packing=", CLASS_PACKING, 0, 0}, {"size=", CLASS_SIZE, 0, 0},
    {"generic=", GENERIC_NAME, 1, 3}, {"base=", BASE_NAME, 1, 3}, {"method=", METHOD_NAME, 1, 2}, {"mflags=", METHOD_FLAGS, 0, 0},
    {"mgeneric=", METHOD_GENERIC_NAME, 1, 3}, {"returns=", RETURN_TYPE, 1, 0}, {"ptype=", PARAM_TYPE, 1, 3}, {"pname=", PARAM_NAME, 1, 4},
};

static const struct line *line_of(const uint8_t *at, size_t n) {
    for (size_t i = 0; i < sizeof lines / sizeof *lines; i++)
        if (n >= strlen(lines[i].key) && !memcmp(at, lines[i].key, strlen(lines[i].key))) return &lines[i];
    return 0;
}

/* Moves the place for a line of that key, behind one of another. */
static void move(const struct line *line, const struct line *before) {
    if (line->moves == 1) class_number++, method = UINT32_MAX, item = UINT32_MAX;
    if (line->moves == 2) method++, item = UINT32_MAX;
    int goes_on = before == line || (line->call == PARAM_TYPE && before->call == PARAM_NAME);
    if (line->moves == 3) item = goes_on ? item + 1 : 0;
}

static void check_line(const struct line *line, uint8_t *value, size_t n) {
    int in_method = line->call == METHOD_NAME || line->call == METHOD_FLAGS || line->call == METHOD_GENERIC_NAME
        || line->call == RETURN_TYPE || line->call == PARAM_TYPE || line->call == PARAM_NAME;
    uint32_t rows[3] = {class_number, in_method ? method : item, item};
    if (line->named) check_name(line->key, line->call, rows, value, n);
    else check_number(line->key, line->call, rows, value, n);
}

static void read_back(bytes text) {
    const struct line *before = &lines[0];
    class_number = UINT32_MAX;
    for (size_t at = 0, end; at < text.len; at = end) {
        end = at;
        while (end < text.len && text.at[end++] != '\n') {}
        const struct line *line = line_of(text.at + at, end - at);
        if (!line) {
            check(0, "no key");
            return;
        }
        move(line, before), before = line;
        check_line(line, text.at + at + strlen(line->key), end - at - strlen(line->key) - 1);
    }
}

/* Every text that is no refusal. */
static void each_case(bytes file) {
    bytes input, text;
    for (size_t at = 0; next_case(file, &at, &input, &text); number++)
        if (open_streams(input, text, &in) && (text.len < 8 || memcmp(text.at, "refused=", 8))) read_back(text);
}

int main(int argc, char **argv) {
    if (argc != 2) exit((fprintf(stderr, "usage: back CASES\n"), 2));
    return !replay(argv[1], each_case, "values of listings, read back", 0);
}
