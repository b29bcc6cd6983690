/* Loaded before a program, counts how often it asked for memory, and the most that it held at a time. */
#include <malloc.h>
#include <stddef.h>

extern void *__libc_malloc(size_t), *__libc_realloc(void *, size_t), *__libc_calloc(size_t, size_t), *__libc_memalign(size_t, size_t);
extern void __libc_free(void *);
static unsigned long calls, held, most, before;

/* Notes what is held more, and less. */
static void *took(void *p) {
    calls++;
    if (p) held += malloc_usable_size(p);
    if (held > most) most = held;
    return p;
}

static void gave(void *p) {
    if (p) held -= malloc_usable_size(p);
}

void *malloc(size_t n) { return took(__libc_malloc(n)); }
void *calloc(size_t a, size_t b) { return took(__libc_calloc(a, b)); }
void *memalign(size_t a, size_t n) { return took(__libc_memalign(a, n)); }
void *aligned_alloc(size_t a, size_t n) { return memalign(a, n); }
int posix_memalign(void **p, size_t a, size_t n) { return (*p = memalign(a, n)) ? 0 : 12; }
void *realloc(void *p, size_t n) {
    size_t was = p ? malloc_usable_size(p) : 0;
    void *now = __libc_realloc(p, n);
    if (!now && n) return took(NULL);
    held -= was;
    return took(now);
}
void free(void *p) { gave(p), __libc_free(p); }
unsigned long bench_calls(void) { return calls; }

/* The most that was held since the last call, beside what was held then. */
unsigned long bench_peak(void) {
    unsigned long told = most - before;
    most = before = held;
    return told;
}
