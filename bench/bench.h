/* What the driver and the C++ program share: clocks, and the lines that table.py reads. */
#ifndef BENCH_H
#define BENCH_H
#include <stdio.h>
#include <stdlib.h>
#include <time.h>

#define BENCH_MOST 4096

#ifdef __cplusplus
extern "C"
#endif
/* Requests for memory so far, where count.c is loaded. */
unsigned long bench_calls(void) __attribute__((weak));

/* Nanoseconds of processor time of this thread, since others may use the machine; or requests for memory. */
static inline double bench_now(void) {
    struct timespec t;
    if (bench_calls) return (double)bench_calls();
    clock_gettime(CLOCK_THREAD_CPUTIME_ID, &t);
    return t.tv_sec * 1e9 + t.tv_nsec;
}

static int bench_up(const void *a, const void *b) {
    double x = *(const double *)a, y = *(const double *)b;
    return (x > y) - (x < y);
}

/* One line: field, who, phase, entries, least and median of the runs, an entry, or a call where `per` are done in one
   run. A run for which the clock stood still counts for nothing. Requests for memory are a line with the least alone. */
static inline void bench_say(const char *field, const char *who, const char *phase, double *times, unsigned count, double n,
                             double per) {
    double by = per ? per : n;
    if (!count) return;
    qsort(times, count, sizeof *times, bench_up);
    if (bench_calls) {
        printf("%s\t%s\tallocations %s\t%.0f\t%.4f\n", field, who, phase, n, times[0] / by);
        return;
    }
    while (count && !(times[0] > 0)) times++, count--;
    if (!count) return;
    printf("%s\t%s\t%s\t%.0f\t%.3f\t%.3f\n", field, who, phase, n, times[0] / by, times[count / 2] / by);
    fflush(stdout);
}

/* How often a phase is run: about 3,000,000 entries in all, and five times at least; twice to count requests. */
static inline unsigned bench_rounds(double n) {
    double rounds = 3e6 / n;
    if (bench_calls) return 2;
    return rounds < 5 ? 5 : rounds > 2000 ? 2000 : (unsigned)rounds;
}
#endif
