/* driver N FIELD: times ours at one field. */
#include "../bench.h"
#include <stdint.h>
#include <string.h>

typedef uint64_t parse_call(const uint8_t *, size_t);
typedef uint64_t call(const uint8_t *, size_t, uint32_t);
parse_call bench_strings_tree_parse, bench_strings_hash_parse, bench_strings_index_parse;
call bench_strings_tree_write, bench_strings_hash_write, bench_strings_index_write;
parse_call bench_messages_tree_parse, bench_messages_hash_parse, bench_messages_index_parse;
call bench_messages_tree_write, bench_messages_index_write;
call bench_records, bench_packed, bench_repeated, bench_one, bench_message_list, bench_items, bench_tree;
call bench_two_listed, bench_two_hand;

#define PHASES 4

/* A run of `parse` has phase 0; one of `rest` the others, or all of them. */
static const struct {
    const char *field, *who;
    parse_call *parse;
    call *rest;
    const char *phases[PHASES];
    double per;
} all[] = {
    {"strings", "ours BTreeMap", bench_strings_tree_parse, bench_strings_tree_write, {"parse", "size", "write"}, 0},
    {"strings", "ours HashMap", bench_strings_hash_parse, bench_strings_hash_write, {"parse", "size", "write"}, 0},
    {"strings", "ours IndexMap", bench_strings_index_parse, bench_strings_index_write, {"parse", "size", "write"}, 0},
    {"messages", "ours BTreeMap", bench_messages_tree_parse, bench_messages_tree_write, {"parse", "size", "write"}, 0},
    {"messages", "ours HashMap", bench_messages_hash_parse, NULL, {"parse"}, 0},
    {"messages", "ours IndexMap", bench_messages_index_parse, bench_messages_index_write, {"parse", "size", "write"}, 0},
    {"tree1", "ours", NULL, bench_tree, {"parse", "size", "write"}, 0},
    {"tree5", "ours", NULL, bench_tree, {"parse", "size", "write"}, 0},
    {"tree20", "ours", NULL, bench_tree, {"parse", "size", "write"}, 0},
    {"two", "ours, its fields listed", NULL, bench_two_listed, {"merge", "size", "write"}, 0},
    {"two", "ours, by hand", NULL, bench_two_hand, {"merge", "size", "write"}, 0},
    {"records", "ours", NULL, bench_records, {"parse", "size", "write"}, 0},
    {"packed", "ours", NULL, bench_packed, {"read", "make"}, 0},
    {"repeated", "ours", NULL, bench_repeated, {"read", "make"}, 0},
    {"message_list", "ours", NULL, bench_message_list, {"read", "make"}, 0},
    {"one", "ours", NULL, bench_one, {"read a number", "set a number", "read a message", "set a message"}, 16},
    {"items", "ours", NULL, bench_items, {"read", "write"}, 0},
};

static double times[PHASES][BENCH_MOST], began;
static unsigned count[PHASES];

/* Stamp 2k begins phase k, and stamp 2k + 1 ends it; others are none. */
void bench_stamp(unsigned at) {
    if (at >= 2 * PHASES) return;
    double now = bench_now();
    if (!(at & 1)) began = bench_now();
    else if (count[at / 2] < BENCH_MOST) times[at / 2][count[at / 2]++] = now - began;
}

static uint8_t data[64 << 20];

/* One value among many is one among the records. */
static size_t load(const char *field, const char *entries) {
    char name[100];
    snprintf(name, sizeof name, "data/%s-%s.bin", strcmp(field, "one") ? field : "records", entries);
    FILE *in = fopen(name, "rb");
    if (!in) exit(1);
    size_t len = fread(data, 1, sizeof data, in);
    fclose(in);
    return len;
}

int main(int argc, char **argv) {
    if (argc < 3) return 1;
    double n = atof(argv[1]);
    size_t len = load(argv[2], argv[1]);
    for (size_t i = 0; i < sizeof all / sizeof *all; i++) {
        if (strcmp(argv[2], all[i].field)) continue;
        unsigned rounds = bench_rounds(all[i].per ? n * all[i].per : n);
        memset(count, 0, sizeof count);
        if (all[i].parse)
            for (unsigned k = 0; k < rounds; k++)
                if (all[i].parse(data, len) != n) return 1;
        unsigned parses = count[0];
        if (all[i].rest && !all[i].rest(data, len, rounds)) return 1;
        if (all[i].parse) count[0] = parses;
        for (unsigned p = 0; p < PHASES && all[i].phases[p]; p++)
            bench_say(all[i].field, all[i].who, all[i].phases[p], times[p], count[p], n, all[i].per);
    }
    return 0;
}
