/* What ours, a program in Rattle, calls: which type and which phase are next, how often, and the clock. `ours MESSAGE` reads the file
   data/MESSAGE.bin as its standard input. */
#include "real.h"
#include <fcntl.h>
#include <unistd.h>

static const struct {
    const char *message;
    uint32_t type;
} all[] = {{"error_info", 0}, {"metrics", 1}, {"range", 2}, {"osm", 3}, {"onnx", 4}, {"descriptor", 5}, {"descriptors", 5}, {"places", 5}};

static const char *message = "", *phases[] = {"parse", "write", "parse canonically"};
static uint32_t type, phase, times = 1, round_;
static uint64_t len;
static double began, spent, least;
static unsigned long peak;

/* glibc calls it with the arguments before main. */
__attribute__((constructor)) static void start(int argc, char **argv) {
    char name[100];
    message = argc > 1 ? argv[1] : "";
    for (size_t i = 0; i < sizeof all / sizeof *all; i++)
        if (!strcmp(all[i].message, message)) type = all[i].type;
    snprintf(name, sizeof name, "data/%s.bin", message);
    int in = open(name, O_RDONLY);
    if (in < 0) return;
    len = lseek(in, 0, SEEK_END);
    lseek(in, 0, SEEK_SET);
    dup2(in, 0);
}

uint32_t bench_type(void) { return type; }
uint32_t bench_phase(void) { return phase; }
uint32_t bench_times(void) { return times; }

/* A phase begins with stamp 0, and ends with stamp 1. */
void bench_stamp(uint32_t at) {
    if (at) {
        spent = (bench_now() - began) / times;
        if (bench_peak) peak = bench_peak();
        return;
    }
    if (bench_peak) bench_peak();
    began = bench_now();
}

/* Goes on to what is next. */
void bench_did(uint64_t did) {
    if (did != (phase == 1 ? len : times)) {
        fprintf(stderr, "%s: ours fails to %s\n", message, phases[phase]);
        exit(1);
    }
    if (round_ < 2 || spent < least) least = spent;
    if (round_ == 1 && !bench_calls) times = real_times(spent);
    if (round_++ < (bench_calls ? 1 : REAL_ROUNDS)) return;
    real_line(message, "ours", phases[phase], len, bench_calls ? spent : least, peak);
    round_ = 0, times = 1;
    if (++phase == sizeof phases / sizeof *phases) exit(0);
}
