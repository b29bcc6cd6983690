/* Preloaded under callgrind, it has bench_now count instructions: `bench_calls` answers how many have run so far. */
#include <stdio.h>
#include <string.h>
#include <valgrind/callgrind.h>

/* The dumps so far, and what they add up to; what is done in here is in none of them. */
static unsigned long dumps, total;

unsigned long bench_calls(void) {
    char line[4096], name[64];
    unsigned long now;
    CALLGRIND_TOGGLE_COLLECT;
    CALLGRIND_DUMP_STATS;
    snprintf(name, sizeof name, "cg/out.%lu", ++dumps);
    FILE *in = fopen(name, "r");
    while (in && fgets(line, sizeof line, in))
        if (sscanf(line, "totals: %lu", &now) == 1) total += now;
    if (in) fclose(in);
    CALLGRIND_TOGGLE_COLLECT;
    return total;
}
