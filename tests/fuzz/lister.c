/* Prints listings by the library's calls for C, the same text as the listing program, for many inputs in one run; or walks:

     lister [--walks | --taker]

   Standard input holds inputs of the listing program, each after a 4-byte little-endian length; standard output gets for each the length
   of its text in the same form, and the text. With --walks that is the text of the program extents, by dn_walk_stop and dn_walk_extent and
   then once more by the two that go by the table of row sizes. tests/differential asks it both. With --taker the streams are opened with
   DN_TAKER, as tests/modes asks it. It stands in no proof; the calls do. */
#include "listing.h"

static void put_extent(struct listing *to, uint32_t kind, dn_extent table) {
    char line[100];
    put(to, line, (size_t)snprintf(line, sizeof line, "%u %zu %zu %zu\n", (unsigned)kind, table.start, table.size, table.rows));
}

static void walk(struct listing *to, int by_table) {
    dn_reply stop = calls[by_table ? WALK_STOP_BY_TABLE : WALK_STOP].ask(to->in, 0, (struct buffer){ 0, 0 });
    if (stop.refusal) {
        put_number(to, "refused=", stop.refusal);
        return;
    }
    for (uint32_t kind = 0; kind < KINDS; kind++) put_extent(to, kind, extent_of(to->in, by_table, kind));
    put_number(to, "stop=", stop.value);
}

static void both_walks(struct listing *to) { walk(to, 0), walk(to, 1); }

int main(int argc, char **argv) {
    void (*answer)(struct listing *) = argc == 2 && !strcmp(argv[1], "--walks") ? both_walks : list;
    uint32_t options = argc == 2 && !strcmp(argv[1], "--taker") ? DN_TAKER : 0;
    struct input in;
    struct listing text = { &in, 0, 0, 0 };
    uint32_t n;
    while (fread(&n, 4, 1, stdin) == 1) {
        uint8_t *data = malloc(n + 1ul);
        if (!data || fread(data, 1, n, stdin) != n) return 2;
        text.length = 0;
        if (open_input(data, n, &in)) in.options = options, answer(&text);
        else put_number(&text, "refused=", 8);
        uint32_t size = (uint32_t)text.length;
        fwrite(&size, 4, 1, stdout), fwrite(text.text, 1, text.length, stdout), fflush(stdout);
        free(data);
    }
    return 0;
}
