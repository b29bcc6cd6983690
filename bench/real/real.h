/* What the programs of real.sh share: each is called with the name of a message, and prints a line for each phase of it. */
#ifndef REAL_H
#define REAL_H
#include "bench.h"
#include <stdint.h>
#include <string.h>

#define REAL_ROUNDS 8

#ifdef __cplusplus
extern "C"
#endif
/* The most memory that was held at a time since the last call, beside what was held then, where count.c is loaded. */
unsigned long bench_peak(void) __attribute__((weak));

/* How often a phase is done in a round of some 10 milliseconds. */
static inline unsigned real_times(double nanoseconds) { return nanoseconds > 1e7 ? 1 : nanoseconds > 100 ? (unsigned)(1e7 / nanoseconds) : 100000; }

/* One line: message, who, phase, bytes, and nanoseconds a message; or the requests for memory of one, and another of the peak. */
static inline void real_line(const char *message, const char *who, const char *phase, size_t len, double spent, unsigned long peak) {
    printf("%s\t%s\t%s%s\t%zu\t%.2f\n", message, who, bench_calls ? "requests " : "", phase, len, spent);
    if (bench_peak) printf("%s\t%s\tpeak %s\t%zu\t%lu\n", message, who, phase, len, peak);
    fflush(stdout);
}

/* Does a phase so many times; what it spent, or less than 0 where it failed. */
typedef double real_phase(void *, unsigned);

/* Does a phase once to begin with, and once to see how long it takes or to count; then in rounds, of which the least is taken. */
static inline void real_say(const char *message, const char *who, const char *phase, size_t len, real_phase *spend, void *it) {
    double spent = spend(it, 1), least;
    if (spent < 0) {
        fprintf(stderr, "%s: %s fails to %s\n", message, who, phase);
        exit(1);
    }
    if (bench_peak) bench_peak();
    least = spend(it, 1);
    unsigned long peak = bench_peak ? bench_peak() : 0;
    unsigned times = real_times(least);
    for (unsigned round = 1; round < REAL_ROUNDS && !bench_calls; round++) {
        spent = spend(it, times) / times;
        if (round == 1 || spent < least) least = spent;
    }
    real_line(message, who, phase, len, least, peak);
}

/* The bytes of a message, which stay. */
static inline uint8_t *real_load(const char *message, size_t *len) {
    static uint8_t data[16 << 20];
    char name[100];
    snprintf(name, sizeof name, "data/%s.bin", message);
    FILE *in = fopen(name, "rb");
    if (!in) exit(1);
    *len = fread(data, 1, sizeof data, in);
    fclose(in);
    return data;
}
#endif
