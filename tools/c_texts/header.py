"""The header of a library, for C and C++: the numbers of the answers, and what a caller owes."""

# The answers beside 0, in the order of their numbers, and what each says.
ANSWERS = [
    ("UNEXPECTED_EOF", "the bytes end before what was begun does, or a length passes what remains"),
    ("VARINT_TOO_LONG", "a varint of more than 64 bits"),
    ("INVALID_FIELD_NUMBER", "a field of number 0, or of more than 536,870,911"),
    ("INVALID_WIRE_TYPE", "a tag of wire type 6 or 7"),
    ("WIRE_TYPE_MISMATCH", "a known field has another wire type than its own"),
    ("INVALID_UTF8", "a text that is not UTF-8"),
    ("MESSAGE_TOO_LARGE", "a length that no address can name"),
    ("RECURSION_LIMIT_EXCEEDED", "groups or messages nest deeper than allowed"),
    ("UNKNOWN_FIELD_LIMIT_EXCEEDED", "more fields that aren't declared than allowed"),
    ("ELEMENT_MEMORY_LIMIT_EXCEEDED", "map entries and messages in lists cost more than allowed"),
    ("INVALID_END_GROUP", "the end of a group that is not open"),
    ("INVALID_MESSAGE_SET", "a MessageSet Item without a type id, or with one out of range"),
    ("UNEXPECTED_FIELD", "a field of another number than the one that is read"),
    ("OUT_OF_MEMORY", "a growth was refused; it says nothing of the bytes"),
    ("TOO_LONG", "more bytes than allowed"),
    ("NOT_CANONICAL", "the bytes are read, and aren't the encoding of what they mean"),
    ("MISSING_REQUIRED", "the bytes are read, and a required member isn't there"),
    ("NO_ROOM", "out is too small; nothing was written"),
    ("TOO_LARGE", "the encoding would have 2^31 bytes or more"),
]

OWED = """What a caller owes, which nothing checks:

- No pointer is null, also where a length is 0: pass any address then.
- bytes has bytes_len bytes that nobody changes during the call, out has out_len bytes, and path has path_len steps.
- No two of the pointers of a call overlap.
- One heap: the program's malloc, realloc and free, by heap.c (or the kit's liblibc_c.a), which align each block to 16.
- No call from a signal handler, nor from the forked child of a process with threads.
- Stack: leave 1 MiB at the usual depth of 100, and more for a greater one. Groups that nested 100 deep took 33 KB.

Several threads may call at once. A call keeps no pointer, and frees all that it asked for before it returns.

An answer is 0, BUFFA_ACCEPTED, or says why not. Where it isn't 0, out and what a number is told in are as they were, and
*written and *room are 0. So is *there, but with BUFFA_NO_ROOM. Of a place the opposite holds: it is told where the bytes are
refused, and where they are accepted, are too many, or memory runs out, path is as it was, and *steps and *offset are 0."""

STEP = """#ifndef BUFFA_USUAL
/* A field on the way to the place at which bytes are refused. */
struct buffa_step {
    uint32_t number; /* its number */
    uint32_t listed; /* 1 where it is an element of a list or an entry of a map, else 0 */
    size_t index;    /* how many fields of this number are in front of it then, else 0 */
};
/* The limits of a call that takes none, for one that does: most bytes, depth, undeclared fields, units of memory. */
#define BUFFA_USUAL 2147483647, 100, 1000000, 268435456
#endif
"""

HEAP = """/* What a library asks of the heap, over malloc, realloc and free. */
#include <stddef.h>
#include <stdlib.h>

struct rattle_block {
    size_t is_there;
    void *at;
};

static char nothing;

struct rattle_block rattle_alloc(size_t size, size_t align) {
    void *at = malloc(size ? size : align);
    return (struct rattle_block){at != 0, at ? at : &nothing};
}

struct rattle_block rattle_realloc(void *old, size_t kept, size_t size, size_t align) {
    (void)kept;
    void *at = realloc(old, size ? size : align);
    return (struct rattle_block){at != 0, at ? at : &nothing};
}

void rattle_dealloc(void *at) {
    free(at);
}
"""

LIMITS = ["size_t longest", "uint32_t depth", "size_t unknown", "size_t units"]


def comment(lines):
    return ["/* " + lines[0]] + [f"   {it}".rstrip() for it in lines[1:-1]] + [f"   {lines[-1]} */"] if len(lines) > 1 else [f"/* {lines[0]} */"]


def call(name, more):
    return f"uint32_t {name}({', '.join(['const uint8_t *bytes', 'size_t bytes_len'] + more)});"


def calls(gate, numbers):
    """The declarations of a message's exports."""
    whole = ", with all that is required" if gate.is_asked else ""
    out = ["uint8_t *out", "size_t out_len", "size_t *written"]
    made = ["", *comment([f"Whether the bytes are accepted as {gate.full}{whole}: at most 2^31 - 1 of them, 100 messages and groups deep, with at most", "1,000,000 fields that aren't declared, and 2^28 units of memory for map entries and messages in lists."])]
    made += [call(f"{gate.prefix}_check", []), *comment(["The same under limits of yours."])]
    made += [call(f"{gate.prefix}_check_within", LIMITS)]
    if gate.is_located:
        made += comment(["Where the bytes are refused, and the number of the fault: the fields to the first refused record, from the outside in, in path, as", "many as it holds; how many they are in *steps; and in *offset where the record begins."])
        made += [call(f"{gate.prefix}_place", LIMITS + ["struct buffa_step *path", "size_t path_len", "size_t *steps", "size_t *offset"])]
    made += comment(["The encoding of what the bytes mean: written to the front of out, with its length in *written; its length alone; and whether", "the bytes are that encoding."])
    made += [call(f"{gate.prefix}_canonical", out), call(f"{gate.prefix}_room", ["size_t *room"]), call(f"{gate.prefix}_is_canonical", [])]
    if gate.is_discarding:
        made += comment(["The encoding of what is left without the fields that aren't declared, in the messages inside, too. It isn't longer than the other."])
        made += [call(f"{gate.prefix}_canonical_declared", out)]
    if gate.told:
        made += comment(["Members of what the bytes mean. A text has no 0 behind it, and is never longer than bytes_len."])
    for told in gate.told:
        there = ["bool *there"] * told.is_optional
        remark = f" /* the bits of a {'float' if told.real == 'f32' else 'double'} */" if told.real else ""
        made += [call(f"{gate.prefix}_{told.name}", there + (out if told.is_text else [f"{numbers[told.number][0]} *value"])) + remark]
    return made


def text(library, numbers):
    guard = f"{library.crate.upper()}_H"
    made = comment([f"Messages of {', '.join(library.files)}, checked by a library that is proved; made by c_library.", "", *OWED.split("\n")])
    made += [f"#ifndef {guard}", f"#define {guard}", "#include <stdbool.h>", "#include <stddef.h>", "#include <stdint.h>", ""]
    made += ["#ifndef BUFFA_ANSWERS", "#define BUFFA_ANSWERS", "enum buffa_answer {", "    BUFFA_ACCEPTED = 0,"]
    made += [f"    BUFFA_{name} = {at}, /* {said} */" for at, (name, said) in enumerate(ANSWERS, 1)] + ["};", "#endif", ""]
    made += STEP.split("\n") if library.is_located else []
    made += ["#ifdef __cplusplus", 'extern "C" {', "#endif"]
    for gate in library.gates:
        made += calls(gate, numbers)
    return "\n".join(made + ["", "#ifdef __cplusplus", "}", "#endif", "#endif"]) + "\n"
