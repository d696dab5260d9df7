/* Type-name sections (dn_name_section of include/dotnet_tables.h) against recorded ones:

     sections CASES WRONG

   Each case of crates/section_replay/data is asked for with both buffers filled in four ways, and at lengths that are exact, one less for
   either, and more; with guards behind both, which must stay. Those of WRONG must differ. Then document 01's whole case, byte for byte, and
   null pointers of length 0. Exit status: 0 all is as it should be, 1 something is not, 2 a file cannot be read. */
#include "recorded.h"

enum { WAYS = 4, GUARDS = 16, MORE_BYTES = 37, MORE_OFFSETS = 5 };
enum { GUARD = 0x5A };
enum { MOST_BYTES = 1 << 20, MOST_OFFSETS = 1 << 16 };

static uint8_t section[MOST_BYTES + MORE_BYTES + GUARDS];
static uint32_t offsets[MOST_OFFSETS + MORE_OFFSETS + GUARDS];

/* What stands in the buffers before: zeros, FF, A5, a running number. */
static uint8_t filling(int way, size_t i) {
    static const uint8_t constant[] = {0x00, 0xFF, 0xA5};
    return way < 3 ? constant[way] : (uint8_t)i;
}

static void fill(int way, size_t room, size_t places) {
    for (size_t i = 0; i < room; i++) section[i] = filling(way, i);
    for (size_t i = 0; i < places; i++) offsets[i] = 0x01010101u * filling(way, i);
    memset(section + room, GUARD, GUARDS);
    memset(offsets + places, GUARD, GUARDS * sizeof *offsets);
}

static int guarded(size_t room, size_t places) {
    const uint8_t *behind = (const uint8_t *)(offsets + places);
    for (size_t i = 0; i < GUARDS; i++)
        if (section[room + i] != GUARD) return 0;
    for (size_t i = 0; i < GUARDS * sizeof *offsets; i++)
        if (behind[i] != GUARD) return 0;
    return 1;
}

/* A case: its streams, and what is recorded of it. */
typedef struct {
    dn_streams streams;
    size_t refusal;
    bytes slots, places;
} recorded;

static int same_offsets(bytes places, size_t count) {
    size_t classes = places.len / 4;
    for (size_t i = 0; i < classes; i++)
        if (offsets[i] != word(places.at + 4 * i)) return 0;
    return zero_from((const uint8_t *)(offsets + classes), 0, (count - classes) * sizeof *offsets);
}

/* Whether a run with so many bytes and offsets gives that refusal, or the recorded section; in every way. */
static int gives(recorded c, size_t refusal, size_t room, size_t places) {
    bytes none = {NULL, 0}, slots = refusal ? none : c.slots, starts = refusal ? none : c.places;
    for (int way = 0; way < WAYS; way++) {
        fill(way, room, places);
        dn_section r = dn_name_section(DN_STREAMS(c.streams), section, room, offsets, places);
        if (r.refusal != refusal || r.bytes != slots.len || r.classes != starts.len / 4) return 0;
        if (slots.len && memcmp(section, slots.at, slots.len)) return 0;
        if (!zero_from(section, slots.len, room) || !same_offsets(starts, places) || !guarded(room, places)) return 0;
    }
    return 1;
}

static int agrees(recorded c) {
    size_t room = c.slots.len, places = c.places.len / 4;
    return gives(c, c.refusal, room, places) && gives(c, c.refusal, room + MORE_BYTES, places + MORE_OFFSETS)
        && (!room || gives(c, DN_BUFFER_TOO_SMALL, room - 1, places)) && (!places || gives(c, DN_BUFFER_TOO_SMALL, room, places - 1));
}

/* Places the streams of an input. One that is no bundle, refusal 8, never reaches the library. */
static int open_streams(bytes input, dn_streams *s) {
    int end = 0;
    *s = (dn_streams){0};
    if (sscanf((char *)input.at, "tables=%zu\nstrings=%zu\nblob=%zu%n", &s->tables_len, &s->strings_len, &s->blob_len, &end) != 3) return 0;
    s->tables = input.at + end + 1;
    s->strings = s->tables + s->tables_len;
    s->blob = s->strings + s->strings_len;
    return s->blob + s->blob_len == input.at + input.len;
}

static void each(bytes file) {
    for (size_t at = 0, number = 0; at + 16 <= file.len; number++) {
        bytes part[4];
        uint8_t *data = file.at + at + 16;
        for (int i = 0; i < 4; i++) {
            part[i] = (bytes){data, word(file.at + at + 4 * (size_t)i)};
            data += part[i].len;
        }
        at = (size_t)(data - file.at);
        if (at > file.len || part[2].len > MOST_BYTES || part[3].len > 4 * MOST_OFFSETS) exit(2);
        recorded c = {.slots = part[2], .places = part[3]};
        char what[40];
        snprintf(what, sizeof what, "case %zu", number);
        if (part[1].len > 8 && !memcmp(part[1].at, "refused=", 8)) c.refusal = (size_t)(part[1].at[8] - '0');
        if (c.refusal == 8 || !open_streams(part[0], &c.streams)) continue;
        tally(agrees(c), what);
    }
}

/* Document 01's whole case, and nothing at all. */
static int by_hand(void) {
    static const uint8_t tables[] = {0, 0, 0, 0, 2, 0, 0, 1, 4, 0, 0, 0, 0, 0, 0, 0, 0, 0, 0, 0, 0, 0, 0, 0, 2, 0, 0, 0,
                                     0, 0, 0, 0, 0, 0, 0, 0, 0, 0, 0, 0, 0, 0, 1, 0, 0, 0, 5, 0, 3, 0, 0, 0, 1, 0, 0, 0};
    static const uint8_t strings[] = {0x00, 0x41, 0x00, 0x4E, 0x00, 0x4C, 0x60, 0x31, 0x00};
    static const uint8_t expected[] = {0x4E, 0x2E, 0x4C, 0x00};
    dn_streams s = {tables, sizeof tables, strings, sizeof strings, NULL, 0, 0};
    uint8_t four[4] = {9, 9, 9, 9};
    uint32_t one[1] = {9};
    dn_section r = dn_name_section(DN_STREAMS(s), four, 4, one, 1);
    int well = r.bytes == 4 && r.classes == 1 && !r.refusal && !memcmp(four, expected, 4) && !one[0];
    r = dn_name_section(DN_STREAMS(s), NULL, 0, NULL, 0);
    well = well && !r.bytes && !r.classes && r.refusal == DN_BUFFER_TOO_SMALL;
    r = dn_name_section(NULL, 0, NULL, 0, NULL, 0, 0, NULL, 0, NULL, 0);
    return well && !r.bytes && !r.classes && r.refusal == DN_SHORT_HEADER;
}

int main(int count, char **paths) {
    if (count != 3) return 2;
    int well = replay(paths[1], each, "sections", 0);
    well &= replay(paths[2], each, "sections", 1);
    if (!by_hand()) well = (puts("FAIL  the whole case"), 0);
    return !well;
}
