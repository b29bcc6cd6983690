/* Messages of payment.proto, checked by a library that is proved; made by c_library.

   What a caller owes, which nothing checks:

   - No pointer is null, also where a length is 0: pass any address then.
   - bytes has bytes_len bytes that nobody changes during the call, out has out_len bytes, and path has path_len steps.
   - No two of the pointers of a call overlap.
   - One heap: the program's malloc, realloc and free, by heap.c (or the kit's liblibc_c.a), which align each block to 16.
   - No call from a signal handler, nor from the forked child of a process with threads.
   - Stack: leave 1 MiB at the usual depth of 100, and more for a greater one. Groups that nested 100 deep took 33 KB.

   Several threads may call at once. A call keeps no pointer, and frees all that it asked for before it returns.

   An answer is 0, BUFFA_ACCEPTED, or says why not. Where it isn't 0, out and what a number is told in are as they were, and
   *written and *room are 0. So is *there, but with BUFFA_NO_ROOM. Of a place the opposite holds: it is told where the bytes are
   refused, and where they are accepted, are too many, or memory runs out, path is as it was, and *steps and *offset are 0. */
#ifndef SAMPLE_PAYMENT_C_H
#define SAMPLE_PAYMENT_C_H
#include <stdbool.h>
#include <stddef.h>
#include <stdint.h>

#ifndef BUFFA_ANSWERS
#define BUFFA_ANSWERS
enum buffa_answer {
    BUFFA_ACCEPTED = 0,
    BUFFA_UNEXPECTED_EOF = 1, /* the bytes end before what was begun does, or a length passes what remains */
    BUFFA_VARINT_TOO_LONG = 2, /* a varint of more than 64 bits */
    BUFFA_INVALID_FIELD_NUMBER = 3, /* a field of number 0, or of more than 536,870,911 */
    BUFFA_INVALID_WIRE_TYPE = 4, /* a tag of wire type 6 or 7 */
    BUFFA_WIRE_TYPE_MISMATCH = 5, /* a known field has another wire type than its own */
    BUFFA_INVALID_UTF8 = 6, /* a text that is not UTF-8 */
    BUFFA_MESSAGE_TOO_LARGE = 7, /* a length that no address can name */
    BUFFA_RECURSION_LIMIT_EXCEEDED = 8, /* groups or messages nest deeper than allowed */
    BUFFA_UNKNOWN_FIELD_LIMIT_EXCEEDED = 9, /* more fields that aren't declared than allowed */
    BUFFA_ELEMENT_MEMORY_LIMIT_EXCEEDED = 10, /* map entries and messages in lists cost more than allowed */
    BUFFA_INVALID_END_GROUP = 11, /* the end of a group that is not open */
    BUFFA_INVALID_MESSAGE_SET = 12, /* a MessageSet Item without a type id, or with one out of range */
    BUFFA_UNEXPECTED_FIELD = 13, /* a field of another number than the one that is read */
    BUFFA_OUT_OF_MEMORY = 14, /* a growth was refused; it says nothing of the bytes */
    BUFFA_TOO_LONG = 15, /* more bytes than allowed */
    BUFFA_NOT_CANONICAL = 16, /* the bytes are read, and aren't the encoding of what they mean */
    BUFFA_MISSING_REQUIRED = 17, /* the bytes are read, and a required member isn't there */
    BUFFA_NO_ROOM = 18, /* out is too small; nothing was written */
    BUFFA_TOO_LARGE = 19, /* the encoding would have 2^31 bytes or more */
};
#endif

#ifndef BUFFA_USUAL
/* A field on the way to the place at which bytes are refused. */
struct buffa_step {
    uint32_t number; /* its number */
    uint32_t listed; /* 1 where it is an element of a list or an entry of a map, else 0 */
    size_t index;    /* how many fields of this number are in front of it then, else 0 */
};
/* The limits of a call that takes none, for one that does: most bytes, depth, undeclared fields, units of memory. */
#define BUFFA_USUAL 2147483647, 100, 1000000, 268435456
#endif

#ifdef __cplusplus
extern "C" {
#endif

/* Whether the bytes are accepted as buffa.sample.Payment: at most 2^31 - 1 of them, 100 messages and groups deep, with at most
   1,000,000 fields that aren't declared, and 2^28 units of memory for map entries and messages in lists. */
uint32_t payment_check(const uint8_t *bytes, size_t bytes_len);
/* The same under limits of yours. */
uint32_t payment_check_within(const uint8_t *bytes, size_t bytes_len, size_t longest, uint32_t depth, size_t unknown, size_t units);
/* Where the bytes are refused, and the number of the fault: the fields to the first refused record, from the outside in, in path, as
   many as it holds; how many they are in *steps; and in *offset where the record begins. */
uint32_t payment_place(const uint8_t *bytes, size_t bytes_len, size_t longest, uint32_t depth, size_t unknown, size_t units, struct buffa_step *path, size_t path_len, size_t *steps, size_t *offset);
/* The encoding of what the bytes mean: written to the front of out, with its length in *written; its length alone; and whether
   the bytes are that encoding. */
uint32_t payment_canonical(const uint8_t *bytes, size_t bytes_len, uint8_t *out, size_t out_len, size_t *written);
uint32_t payment_room(const uint8_t *bytes, size_t bytes_len, size_t *room);
uint32_t payment_is_canonical(const uint8_t *bytes, size_t bytes_len);
/* The encoding of what is left without the fields that aren't declared, in the messages inside, too. It isn't longer than the other. */
uint32_t payment_canonical_declared(const uint8_t *bytes, size_t bytes_len, uint8_t *out, size_t out_len, size_t *written);
/* Members of what the bytes mean. A text has no 0 behind it, and is never longer than bytes_len. */
uint32_t payment_amount(const uint8_t *bytes, size_t bytes_len, int32_t *value);
uint32_t payment_note(const uint8_t *bytes, size_t bytes_len, uint8_t *out, size_t out_len, size_t *written);

/* Whether the bytes are accepted as buffa.sample.Transfer: at most 2^31 - 1 of them, 100 messages and groups deep, with at most
   1,000,000 fields that aren't declared, and 2^28 units of memory for map entries and messages in lists. */
uint32_t transfer_check(const uint8_t *bytes, size_t bytes_len);
/* The same under limits of yours. */
uint32_t transfer_check_within(const uint8_t *bytes, size_t bytes_len, size_t longest, uint32_t depth, size_t unknown, size_t units);
/* Where the bytes are refused, and the number of the fault: the fields to the first refused record, from the outside in, in path, as
   many as it holds; how many they are in *steps; and in *offset where the record begins. */
uint32_t transfer_place(const uint8_t *bytes, size_t bytes_len, size_t longest, uint32_t depth, size_t unknown, size_t units, struct buffa_step *path, size_t path_len, size_t *steps, size_t *offset);
/* The encoding of what the bytes mean: written to the front of out, with its length in *written; its length alone; and whether
   the bytes are that encoding. */
uint32_t transfer_canonical(const uint8_t *bytes, size_t bytes_len, uint8_t *out, size_t out_len, size_t *written);
uint32_t transfer_room(const uint8_t *bytes, size_t bytes_len, size_t *room);
uint32_t transfer_is_canonical(const uint8_t *bytes, size_t bytes_len);
/* The encoding of what is left without the fields that aren't declared, in the messages inside, too. It isn't longer than the other. */
uint32_t transfer_canonical_declared(const uint8_t *bytes, size_t bytes_len, uint8_t *out, size_t out_len, size_t *written);
/* Members of what the bytes mean. A text has no 0 behind it, and is never longer than bytes_len. */
uint32_t transfer_to(const uint8_t *bytes, size_t bytes_len, uint8_t *out, size_t out_len, size_t *written);
uint32_t transfer_day(const uint8_t *bytes, size_t bytes_len, int32_t *value);

#ifdef __cplusplus
}
#endif
#endif
