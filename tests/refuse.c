// Stands before the C library's memory. Refuses the call number REFUSE_AT that asks for memory, and where
// REFUSE_ON is set each one after it too; tells each refusal by a byte on the file descriptor REFUSE_TELL.
// Where REFUSE_CALLS is set the program says on standard error which of its own calls is meant: between the lines
// `call, refuse N` and `done`, which are not written, request N is refused, or each of them where N is 0; of the line
// `done` one byte is taken where a request was refused, else the whole line. Of a line `requests, bit N` one byte is
// taken where that bit of the number of requests is 1 that the program's last call made.
// Where WRITE_ONE is set a write takes one byte, and where READ_ONE is a read; where WRITE_NONE is, a write that would
// fail takes none in its place. Where FAIL_AT is set that call on the file descriptor FAIL_ON fails, by the error
// FAIL_WITH, or takes no byte where that is 0; the calls on it go on then, and each of them is told by a byte on
// REFUSE_TELL.
// Where MEASURE_TELL is set no request is refused. At each line `done` that descriptor is told two numbers of what came since
// the line before it. The first is the most bytes that were held at a time, beside what was held then: a block as malloc gives
// it out, with what it adds in front; and where a block grows, the old one beside the new one. The second is how many bytes of
// stack were written to, of at most PAINTED.
#define _GNU_SOURCE
#include <errno.h>
#include <malloc.h>
#include <stddef.h>
#include <stdio.h>
#include <stdlib.h>
#include <string.h>
#include <sys/syscall.h>
#include <unistd.h>

void *__libc_malloc(size_t size);
void *__libc_calloc(size_t count, size_t size);
void *__libc_realloc(void *old, size_t size);
void *__libc_memalign(size_t align, size_t size);
void __libc_free(void *old);

static const char CALL[] = "call, refuse ", DONE[] = "done\n", REQUESTS[] = "requests, bit ";
static long calls, first;
static int on, tell, marked, counting, refused, one, none, one_read;
static long fail_at, calls_on;
static int fail_on, fail_with;
static int measures = -1;
static size_t held, most, before;
enum { PAINTED = 1 << 20, LEFT = 1 << 9, PAINT = 0x5a };
static volatile char *painted;

static long number_of(const char *name, long other) {
    const char *text = getenv(name);
    return text ? atol(text) : other;
}

__attribute__((constructor)) static void begin(void) {
    tell = number_of("REFUSE_TELL", -1);
    on = getenv("REFUSE_ON") != NULL;
    first = number_of("REFUSE_AT", 0);
    marked = getenv("REFUSE_CALLS") != NULL;
    one = getenv("WRITE_ONE") != NULL;
    one_read = getenv("READ_ONE") != NULL;
    none = getenv("WRITE_NONE") != NULL;
    fail_on = number_of("FAIL_ON", -1);
    fail_at = number_of("FAIL_AT", 0);
    fail_with = number_of("FAIL_WITH", 0);
    measures = number_of("MEASURE_TELL", -1);
}

// Notes a block that is held, and gives it on.
static void *noted(void *block) {
    if (block) held += malloc_usable_size(block) + sizeof(size_t);
    if (held > most) most = held;
    return block;
}

static void unnoted(size_t size) { held -= size ? size + sizeof(size_t) : 0; }

// Paints the stack below, but for the next bytes.
static __attribute__((noinline)) void paint(void) {
    if (measures < 0) return;
    painted = (volatile char *)__builtin_frame_address(0) - LEFT - PAINTED;
    for (long at = PAINTED - 1; at >= 0; at--) painted[at] = PAINT;
}

static void tell_most(void) {
    if (measures < 0) return;
    long at = 0;
    while (at < PAINTED && painted[at] == PAINT) at++;
    char line[64];
    int size = snprintf(line, sizeof line, "%zu %ld\n", most - before, PAINTED + LEFT - at);
    if (syscall(SYS_write, measures, line, size) != size) abort();
}

static int refuses(void) {
    if (measures >= 0) return 0;
    if (marked ? !counting : first == 0) return 0;
    calls++;
    if (calls != first && !(on && calls > first)) return 0;
    refused = 1;
    if (!marked && syscall(SYS_write, tell, "x", 1) != 1) abort();
    errno = ENOMEM;
    return 1;
}

// Whether a call on a file descriptor is the one that fails; a later one is told.
static int fails(int fd) {
    if (fd != fail_on) return 0;
    calls_on++;
    if (calls_on > fail_at && syscall(SYS_write, tell, "x", 1) != 1) abort();
    return calls_on == fail_at;
}

static ssize_t failure(void) {
    errno = fail_with;
    return fail_with ? -1 : 0;
}

ssize_t read(int fd, void *text, size_t size) {
    return fails(fd) ? failure() : syscall(SYS_read, fd, text, one_read && size > 1 ? 1 : size);
}

static ssize_t plain_write(int fd, const void *text, size_t size) {
    if (fails(fd)) return failure();
    ssize_t taken = syscall(SYS_write, fd, text, one && size > 1 ? 1 : size);
    return none && taken < 0 ? 0 : taken;
}

// Whether a text begins with another; then the number behind it.
static int begins(const char *text, size_t size, const char *front, size_t length, long *number) {
    if (size <= length || memcmp(text, front, length) != 0) return 0;
    *number = 0;
    for (const char *digit = text + length; digit < text + size && *digit >= '0' && *digit <= '9'; digit++)
        *number = 10 * *number + (*digit - '0');
    return 1;
}

ssize_t write(int fd, const void *text, size_t size) {
    long bit;
    if (!marked || fd != STDERR_FILENO) return plain_write(fd, text, size);
    if (begins(text, size, CALL, sizeof CALL - 1, &first)) {
        on = first == 0;
        calls = refused = 0;
        counting = 1;
        most = before = held;
        paint();
        return size;
    }
    if (size == sizeof DONE - 1 && memcmp(text, DONE, size) == 0) {
        counting = 0;
        tell_most();
        return refused ? 1 : size;
    }
    if (begins(text, size, REQUESTS, sizeof REQUESTS - 1, &bit)) return calls >> bit & 1 ? 1 : size;
    return syscall(SYS_write, fd, text, size);
}

void *malloc(size_t size) { return refuses() ? NULL : noted(__libc_malloc(size)); }

void *calloc(size_t count, size_t size) { return refuses() ? NULL : noted(__libc_calloc(count, size)); }

void *realloc(void *old, size_t size) {
    if (refuses()) return NULL;
    size_t had = old ? malloc_usable_size(old) : 0;
    void *block = noted(__libc_realloc(old, size));
    if (block || size == 0) unnoted(had);
    return block;
}

void *aligned_alloc(size_t align, size_t size) { return refuses() ? NULL : noted(__libc_memalign(align, size)); }

int posix_memalign(void **out, size_t align, size_t size) {
    if (refuses()) return ENOMEM;
    *out = noted(__libc_memalign(align, size));
    return *out ? 0 : ENOMEM;
}

void free(void *old) {
    unnoted(old ? malloc_usable_size(old) : 0);
    __libc_free(old);
}
