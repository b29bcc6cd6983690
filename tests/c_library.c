/* Calls the library of sample_payment_c on each line of the standard input, and prints what each call answers:
 *
 *     payment|transfer HEX LONGEST DEPTH UNKNOWN UNITS
 *
 * The bytes lie before a page that nothing may touch, in pages that nothing may write; so does the room, which each call gets
 * exactly, a byte short, and longer, and the path of a place, which gets no step, one, as many as there are, and more. Each call is made again with its first request for memory refused, then its second, and so on.
 * It ends with status 1 where a byte past the room or before it changes, memory isn't freed, a refused call leaves something
 * behind, or an answer differs between two calls. With the word quick, memory is refused nowhere. */
#include "sample_payment_c.h"
#include <stdio.h>
#include <stdlib.h>
#include <string.h>
#include <sys/mman.h>
#include <unistd.h>

enum { PAGES = 16, FILL = 0xEE, MORE = 32 };
static const int32_t OLD = -777;

/* What the library asks of the heap, which grants so many requests, and counts the blocks that aren't freed. */
struct block {
    size_t is_there;
    void *at;
};
static char nothing;
static long granted, blocks;

struct block rattle_alloc(size_t size, size_t align) {
    void *at = granted-- > 0 ? malloc(size ? size : align) : NULL;
    blocks += at != NULL;
    return (struct block){at != NULL, at ? at : &nothing};
}

struct block rattle_realloc(void *old, size_t kept, size_t size, size_t align) {
    void *at = granted-- > 0 ? malloc(size ? size : align) : NULL;
    if (at) {
        memcpy(at, old, kept < size ? kept : size);
        free(old);
    }
    return (struct block){at != NULL, at ? at : &nothing};
}

void rattle_dealloc(void *at) {
    blocks--;
    free(at);
}

struct message {
    const char *name;
    uint32_t (*check)(const uint8_t *, size_t);
    uint32_t (*within)(const uint8_t *, size_t, size_t, uint32_t, size_t, size_t);
    uint32_t (*place)(const uint8_t *, size_t, size_t, uint32_t, size_t, size_t, struct buffa_step *, size_t, size_t *, size_t *);
    uint32_t (*canonical)(const uint8_t *, size_t, uint8_t *, size_t, size_t *);
    uint32_t (*declared)(const uint8_t *, size_t, uint8_t *, size_t, size_t *);
    uint32_t (*room)(const uint8_t *, size_t, size_t *);
    uint32_t (*is_canonical)(const uint8_t *, size_t);
    uint32_t (*number)(const uint8_t *, size_t, int32_t *);
    uint32_t (*text)(const uint8_t *, size_t, uint8_t *, size_t, size_t *);
};
static const struct message MESSAGES[] = {
    {"payment", payment_check, payment_check_within, payment_place, payment_canonical, payment_canonical_declared, payment_room, payment_is_canonical, payment_amount,
     payment_note},
    {"transfer", transfer_check, transfer_check_within, transfer_place, transfer_canonical, transfer_canonical_declared, transfer_room, transfer_is_canonical, transfer_day,
     transfer_to},
};

/* A row, and the memory of its calls. */
static const struct message *m;
static const uint8_t *bytes;
static uint8_t *out, *pages_in, *pages_out, *pages_path, saved[1 << 16];
static struct buffa_step *path;
static size_t len, size, out_len, written, limits[4], steps, offset;
static int32_t value;

static void see(int holds, const char *what) {
    if (holds)
        return;
    printf("FAILED %s: %s of %zu bytes\n", m->name, what, len);
    exit(1);
}

static uint32_t check(void) { return m->check(bytes, len); }
static uint32_t within(void) { return m->within(bytes, len, limits[0], (uint32_t)limits[1], limits[2], limits[3]); }
static uint32_t canonical(void) { return m->canonical(bytes, len, out, out_len, &written); }
static uint32_t declared(void) { return m->declared(bytes, len, out, out_len, &written); }
static uint32_t room(void) { return m->room(bytes, len, &written); }
static uint32_t is_canonical(void) { return m->is_canonical(bytes, len); }
static uint32_t number(void) { return m->number(bytes, len, &value); }
static uint32_t text(void) { return m->text(bytes, len, out, out_len, &written); }

static void lay(size_t room_len) {
    memset(pages_out, FILL, size);
    out = pages_out + size - room_len;
    out_len = room_len, written = 777, value = OLD;
}

/* Only the first so many bytes of the room may differ from what was laid. */
static int stays(size_t front) {
    for (const uint8_t *at = pages_out; at < pages_out + size; at++)
        if (*at != FILL && (at < out || at >= out + front))
            return 0;
    return 1;
}

/* A call with all its memory, behind calls with less. */
static uint32_t call(uint32_t (*it)(void), size_t room_len, int is_quick, int counts) {
    for (long count = is_quick ? 1000 : 0;; count++) {
        lay(room_len);
        granted = count;
        uint32_t answer = it();
        see(blocks == 0, "a block isn't freed");
        int is_done = answer != BUFFA_OUT_OF_MEMORY;
        see(is_done || granted < 0, "want of memory where none was refused");
        if (answer != BUFFA_ACCEPTED) {
            see(stays(0), "a refused call wrote into the room");
            see(value == OLD, "a refused call told a number");
            see(written == (counts ? 0 : 777), "a refused call counted bytes");
        }
        if (is_done)
            return answer;
        see(count < 1000, "a call that never has enough memory");
    }
}

/* A call that fills the room: as long as it has to be, a byte short, and longer. */
static uint32_t filling(uint32_t (*it)(void), int is_quick, size_t most) {
    uint32_t answer = call(it, most, is_quick, 1);
    if (answer != BUFFA_ACCEPTED)
        return answer;
    size_t wanted = written;
    see(wanted <= most && stays(wanted), "bytes behind those that are counted");
    memcpy(saved, out, wanted);
    if (wanted)
        see(call(it, wanted - 1, is_quick, 1) == BUFFA_NO_ROOM, "a room that is a byte short");
    size_t rooms[] = {wanted, wanted + 1, wanted + MORE};
    for (int at = 0; at < 3; at++) {
        see(call(it, rooms[at], is_quick, 1) == BUFFA_ACCEPTED && written == wanted, "a room that is long enough");
        see(!memcmp(out, saved, wanted) && stays(wanted), "bytes in the room");
    }
    return answer;
}

/* The place, in a path of so many steps, behind calls with less memory. Only the steps that are told are written. */
static uint32_t place(size_t path_len, int is_quick) {
    uint8_t *at = pages_path + size - path_len * sizeof *path;
    path = (struct buffa_step *)at;
    for (long count = is_quick ? 1000 : 0;; count++) {
        memset(pages_path, FILL, size);
        steps = offset = 777, granted = count;
        uint32_t answer = m->place(bytes, len, limits[0], (uint32_t)limits[1], limits[2], limits[3], path, path_len, &steps, &offset);
        see(blocks == 0, "a block isn't freed by a place");
        see(answer != BUFFA_OUT_OF_MEMORY || granted < 0, "want of memory for a place where none was refused");
        int is_told = answer != BUFFA_ACCEPTED && answer != BUFFA_TOO_LONG && answer != BUFFA_OUT_OF_MEMORY;
        see(is_told || (!steps && !offset), "a place that is none");
        size_t told = steps < path_len ? steps : path_len;
        for (uint8_t *other = pages_path; other < pages_path + size; other++)
            see(*other == FILL || (other >= at && other < at + told * sizeof *path), "a byte beside the steps of a place");
        if (answer != BUFFA_OUT_OF_MEMORY)
            return answer;
        see(count < 1000, "a place that never has enough memory");
    }
}

/* The same with a path of no step, of one, and of more than there are; and prints it. */
static void print_place(int is_quick) {
    uint32_t answer = place(0, is_quick);
    size_t wanted = steps, at_byte = offset;
    printf(" %u %zu ", answer, at_byte);
    size_t rooms[] = {1, wanted, wanted + 3};
    for (int at = 0; at < 3; at++)
        see(place(rooms[at], is_quick) == answer && steps == wanted && offset == at_byte, "a place by a path of another length");
    for (size_t at = 0; at < wanted; at++) {
        see(path[at].listed <= 1 && (path[at].listed || !path[at].index), "a step");
        printf(path[at].listed ? ".%u[%zu]" : ".%u", path[at].number, path[at].index);
    }
    printf(wanted ? "" : "-");
}

static void print_written(uint32_t answer) {
    printf(" %u ", answer);
    for (size_t at = 0; !answer && at < written; at++)
        printf("%02x", saved[at]);
    printf(answer || !written ? "-" : "");
}

static void row(int is_quick) {
    printf("%u %u", call(check, 0, is_quick, 0), call(within, 0, is_quick, 0));
    uint32_t answer = call(room, 0, is_quick, 1);
    size_t wanted = written;
    printf(" %u %zu", answer, wanted);
    answer = filling(canonical, is_quick, wanted);
    see(answer || written == wanted, "an encoding of another length");
    print_written(answer);
    printf(" %u", call(is_canonical, 0, is_quick, 0));
    answer = call(number, 0, is_quick, 0);
    printf(" %u %d", answer, value);
    print_written(filling(text, is_quick, len));
    print_place(is_quick);
    print_written(filling(declared, is_quick, wanted));
    printf("\n");
}

static uint8_t *guarded(void) {
    uint8_t *at = mmap(NULL, size + (size_t)sysconf(_SC_PAGESIZE), PROT_READ | PROT_WRITE, MAP_PRIVATE | MAP_ANONYMOUS, -1, 0);
    if (at == MAP_FAILED || mprotect(at + size, (size_t)sysconf(_SC_PAGESIZE), PROT_NONE))
        exit(2);
    return at;
}

int main(int count, char **words) {
    static char name[16], hex[1 << 16];
    int is_quick = count > 1 && !strcmp(words[1], "quick");
    size = PAGES * (size_t)sysconf(_SC_PAGESIZE);
    pages_in = guarded(), pages_out = guarded(), pages_path = guarded();
    while (scanf("%15s %65535s %zu %zu %zu %zu", name, hex, &limits[0], &limits[1], &limits[2], &limits[3]) == 6) {
        m = &MESSAGES[strcmp(name, "payment") != 0];
        len = hex[0] == '-' ? 0 : strlen(hex) / 2;
        uint8_t *at = pages_in + size - len;
        for (size_t i = 0; i < len; i++)
            sscanf(hex + 2 * i, "%2hhx", &at[i]);
        bytes = at;
        mprotect(pages_in, size, PROT_READ);
        row(is_quick);
        mprotect(pages_in, size, PROT_READ | PROT_WRITE);
    }
    return 0;
}
