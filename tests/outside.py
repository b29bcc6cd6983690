#!/usr/bin/env python3
"""Runs the built program from outside, and compares standard output, standard error and exit status, byte for byte.

What no contract can say stands here: that `main` hands on the real streams, that status 3 comes from a read or a
write that failed and status 4 from memory that was refused. The rows are vectors/program.tsv, and vectors/first-path.tsv,
runs that agree with Google's protobuf. Prints a line for each group; exits with 1 on any difference. Needs python3 and
gcc. `rt ci` leaves the program; where there is none, `rt run` builds it.
"""
import errno
import functools
import multiprocessing
import os
import resource
import shutil
import signal
import socket
import subprocess
import sys
import tempfile

sys.dont_write_bytecode = True
from rules import varint_encoding

TOP = os.path.dirname(os.path.dirname(os.path.abspath(__file__)))
CRATE = f"{TOP}/crates/buffamap"
USAGE = b"usage: buffamap read N | write N | rewrite N | item | ext N | again node | again set\n"
FAILED = b"buffamap: input or output failed\n"
NO_MEMORY = (b"fault OutOfMemory\n", b"", 4)
CLOSED = "closed"
# where a file ends that takes so many bytes and no more
LIMIT = 1 << 16
# the bytes of stack in which a hundred messages, one in the other, are read, written and dropped
STACK = 1 << 18
SECONDS = 20

# Rows of the table whose streams fail behind each of their bytes.
EXAMPLES = [
    ("read 5", b"2a050a01611001"),
    ("read 5", b"3200"),
    ("write 5", b"61 1\n"),
    ("rewrite 5", b"2a0408071063"),
    ("ext 1", b"0805"),
    ("item", b"10031a01780c00"),
    ("again node", b"12020801"),
    ("again node", b"0800"),
    ("again set", b"0b1a017810050c"),
]
COMMANDS = ["read 5", "write 5", "rewrite 5", "ext 1", "item", "again node", "again set"]

WRONG_WORDS = ["", "read", "write", "read 0", "read 536870912", "read 0000000005", "write +5", "rewrite", "rewrite 0", "rewrite 5 5", "ext", "ext 0", "ext 1 1", "item 5", "Item", "again", "again tree", "again node x", "again 5", "node", "read 5 5", "Read 5", "help", "--help"]


class Stream:
    """A stream of a call: a pipe, closed, or a file that is opened in one way."""

    def __init__(self, name, path=None, flags=0):
        self.name, self.path, self.flags = name, path, flags


class Differences:
    def __init__(self):
        self.found = 0

    def compare(self, what, got, wanted):
        if got != wanted:
            self.found += 1
            if self.found <= 20:
                print(f"  {what}:\n    got    {show(got)}\n    wanted {show(wanted)}")


def show(answer):
    return " ".join(repr(it if not isinstance(it, bytes) or len(it) <= 200 else it[:200] + b"..") for it in answer)


@functools.cache
def rows_of(name):
    """The rows of a table: words, input, output, errors and status. A table of four columns has no errors."""
    rows = []
    with open(f"{TOP}/vectors/{name}", encoding="utf-8") as it:
        for line in it.read().split("\n"):
            if line and not line.startswith("#"):
                words, given, text, *errors, status = line.split("\t")
                given, text = (column.replace("\\n", "\n").replace("\\r", "\r").encode() for column in (given, text))
                rows.append((words, given, text, {"": b"", "usage": USAGE}[errors[0] if errors else ""], int(status)))
    return rows


def examples():
    found = [row for row in rows_of("program.tsv") if row[:2] in EXAMPLES]
    if len(found) != len(EXAMPLES):
        sys.exit("outside: an example isn't in vectors/program.tsv")
    return found


def begin(shut, limited, stack=None):
    """In the new process: closes streams, lets files take no byte behind LIMIT, and gives it so much stack."""
    for it in shut:
        os.close(it)
    if stack:
        resource.setrlimit(resource.RLIMIT_STACK, (stack, stack))
    if limited:
        signal.signal(signal.SIGXFSZ, signal.SIG_IGN)
        resource.setrlimit(resource.RLIMIT_FSIZE, (LIMIT, LIMIT))


def call(program, words, given=b"", reader=None, output=None, errors=None, env=None, fds=(), limited=False, stack=None):
    """Runs the program once, and returns its output, its errors and its status. A stream that is no pipe gives b""."""
    opened, streams, shut = [], [], []
    for number, it in enumerate((reader, output, errors)):
        if it is None:
            streams.append(subprocess.PIPE)
        elif it == CLOSED:
            streams.append(subprocess.DEVNULL)
            shut.append(number)
        elif isinstance(it, int):
            streams.append(it)
        else:
            opened.append(os.open(it.path, it.flags))
            streams.append(opened[-1])
    close = functools.partial(begin, shut, limited, stack) if shut or limited or stack else None
    words = (words.split(" ") if words else []) if isinstance(words, str) else words
    try:
        started = subprocess.Popen([program, *words], stdin=streams[0], stdout=streams[1], stderr=streams[2], env=env or {}, pass_fds=fds, preexec_fn=close)
        try:
            out, err = started.communicate(given if reader is None else None, timeout=SECONDS)
        except subprocess.TimeoutExpired:
            started.kill()
            started.communicate()
            return b"", b"", f"no end after {SECONDS} seconds"
    finally:
        for it in opened:
            os.close(it)
    return out or b"", err or b"", started.returncode


def name_of(stream):
    return stream if isinstance(stream, str) else stream.name


def answers(program, room, seen):
    """The rows: each status that needs no failure."""
    rows = rows_of("program.tsv") + rows_of("first-path.tsv")
    for words, given, text, errors, status in rows:
        seen.compare(f"{words} on {given[:60]}", call(program, words, given), (text, errors, status))
    return len(rows)


def wrong_words(program, room, seen):
    """The usage line and status 2, whatever the input is; the input stays unread, and the output unwritten."""
    runs = 0
    words = [*WRONG_WORDS, [b"read", b"\xff"], [b"read", b"5", b""]]
    readers = [None, CLOSED, Stream("a directory", room, os.O_RDONLY), Stream("no reader", "/dev/null", os.O_WRONLY)]
    for it in words:
        for reader in readers:
            what = f"{it} with the input {name_of(reader) if reader else 'a pipe'}"
            seen.compare(what, call(program, it, b"2a00", reader), (b"", USAGE, 2))
            runs += 1
        with open(f"{room}/unread", "w+b") as held:
            held.write(b"2a050a01611001\n")
            held.flush()
            held.seek(0)
            seen.compare(f"{it} with an output that is closed", call(program, it, reader=held.fileno(), output=CLOSED), (b"", USAGE, 2))
            seen.compare(f"{it}: where the input stands", (os.lseek(held.fileno(), 0, os.SEEK_CUR),), (0,))
            runs += 1
        for errors in (CLOSED, Stream("full", "/dev/full", os.O_WRONLY)):
            seen.compare(f"{it} with errors that are {name_of(errors)}", call(program, it, errors=errors), (b"", b"", 2))
            runs += 1
    return runs


def failed_reads(program, room, seen):
    """A read that fails: status 3, a line on the errors, and nothing on the output."""
    runs = 0
    for words in COMMANDS:
        for reader in (CLOSED, Stream("a directory", room, os.O_RDONLY), Stream("no reader", "/dev/null", os.O_WRONLY)):
            seen.compare(f"{words} with the input {name_of(reader)}", call(program, words, reader=reader), (b"", FAILED, 3))
            seen.compare(f"{words} with the input {name_of(reader)}, errors closed", call(program, words, reader=reader, errors=CLOSED), (b"", b"", 3))
            runs += 2
    for words, given, *_ in examples():
        for at in range(len(given) + 1):
            reader = reset_behind(given[:at])
            seen.compare(f"{words} with an input that fails behind {given[:at]}", call(program, words, reader=reader.fileno()), (b"", FAILED, 3))
            reader.close()
            runs += 1
    return runs


def reset_behind(given):
    """A stream with these bytes, of which the next read fails: its peer is gone, and left a byte unread."""
    peer, stream = socket.socketpair()
    stream.sendall(b"x")
    peer.sendall(given)
    peer.close()
    return stream


def failed_writes(program, room, seen):
    """A write that fails: status 3 and a line on the errors, whatever the answer was. Where nothing is written, none fails."""
    runs = 0
    for words, given, text, errors, status in rows_of("program.tsv"):
        wanted = (b"", FAILED, 3) if text else (b"", errors, status)
        for output in (CLOSED, Stream("full", "/dev/full", os.O_WRONLY), Stream("no writer", "/dev/null", os.O_RDONLY)):
            seen.compare(f"{words} on {given} with the output {name_of(output)}", call(program, words, given, output=output), wanted)
            seen.compare("the same, errors closed", call(program, words, given, output=output, errors=CLOSED), (b"", b"", wanted[2]))
            runs += 2
        reads, writes = os.pipe()
        os.close(reads)
        seen.compare(f"{words} on {given} with an output that nobody reads", call(program, words, given, output=writes), wanted)
        os.close(writes)
        runs += 1
    return runs


def taken(program, room, words, given, output, errors, env):
    """Runs the program with an output and errors that take so many bytes; returns what they took, and the status."""
    files = []
    for name, takes in (("output", output), ("errors", errors)):
        file = os.open(f"{room}/{name}", os.O_RDWR | os.O_CREAT | os.O_TRUNC)
        os.lseek(file, LIMIT - takes, os.SEEK_SET)
        files.append((file, LIMIT - takes))
    status = call(program, words, given, output=files[0][0], errors=files[1][0], env=env, limited=True)[2]
    texts = [os.pread(file, LIMIT, at) for file, at in files]
    for file, _ in files:
        os.close(file)
    return *texts, status


def short_writes(program, room, seen):
    """Writes that take a part of a line, a byte at a time or as much as fits, and then fail, or take no byte: what was taken
    stands, and the failure is told as far as the errors take it. Errors that fail change no status."""
    runs = 0
    shim = {"LD_PRELOAD": f"{room}/refuse.so"}
    for how, env in (("fail", {}), ("fail, a byte at a time", {**shim, "WRITE_ONE": "1"}), ("take no byte", {**shim, "WRITE_NONE": "1", "WRITE_ONE": "1"})):
        for words, given, text, errors, status in examples():
            for takes in range(len(text) + 1):
                wanted = (text[:takes], FAILED, 3) if takes < len(text) else (text, errors, status)
                seen.compare(f"{words} on {given} with writes that {how} behind {takes}", taken(program, room, words, given, takes, len(FAILED), env), wanted)
                runs += 1
        for takes in range(len(FAILED)):
            seen.compare(f"a failed output with errors that {how} behind {takes}", taken(program, room, "read 5", b"2a00", 1, takes, env), (b" ", FAILED[:takes], 3))
            runs += 1
        for takes in range(len(USAGE)):
            seen.compare(f"wrong words with errors that {how} behind {takes}", taken(program, room, "items", b"2a00", 0, takes, env), (b"", USAGE[:takes], 2))
            runs += 1
    return runs


def watched(program, room, words, given, env):
    """Runs the program with calls of streams that take a byte, of which one fails; how often the failed stream was called again
    stands behind the answer."""
    reads, tells = os.pipe()
    shim = {"LD_PRELOAD": f"{room}/refuse.so", "REFUSE_TELL": str(tells), "READ_ONE": "1", "WRITE_ONE": "1"}
    got = call(program, words, given, env={**shim, **env}, fds=(tells,))
    os.close(tells)
    with os.fdopen(reads, "rb") as it:
        return *got, len(it.read())


def failures_once(program, room, seen):
    """A call of a stream that fails once, where those behind it would go on: there are none behind it. What was read counts for
    nothing, what was written stands, and errors that fail change no status."""
    runs = 0
    faults = [("EINTR", errno.EINTR), ("EIO", errno.EIO), ("no byte", 0)]

    def once(words, given, stream, at, wanted):
        # a read of no byte is the end of the input, and no failure
        for name, fault in faults[: 3 if stream else 2]:
            env = {"FAIL_ON": str(stream), "FAIL_AT": str(at), "FAIL_WITH": str(fault)}
            what = f"{words} on {given}: call {at} on {stream} fails once, {name}"
            seen.compare(what, watched(program, room, words, given, env), (*wanted, 0))
        return 3 if stream else 2

    for words, given, text, _, _ in examples():
        for at in range(len(given) + 1):
            runs += once(words, given, 0, at + 1, (b"", FAILED, 3))
        for at in range(len(text)):
            runs += once(words, given, 1, at + 1, (text[:at], FAILED, 3))
    for at in range(len(USAGE)):
        runs += once("items", b"2a00", 2, at + 1, (b"", USAGE[:at], 2))
    return runs


def packets(stream):
    """What came in packets, and how long the longest is."""
    found = []
    while packet := stream.recv(LIMIT):
        found.append(packet)
    return b"".join(found), max(map(len, found), default=0)


def slow_streams(program, room, seen):
    """Inputs that come a byte at a time, and outputs and errors that take a byte at a time."""
    for words, given, text, errors, status in rows_of("program.tsv"):
        pairs = [socket.socketpair(socket.AF_UNIX, socket.SOCK_SEQPACKET) for _ in range(3)]
        # a new socket holds 278 bytes that are sent one by one, and the longest row has 412
        pairs[0][0].setsockopt(socket.SOL_SOCKET, socket.SO_SNDBUF, 1 << 20)
        for byte in given:
            pairs[0][0].send(bytes([byte]))
        pairs[0][0].close()
        streams = [theirs.fileno() for _, theirs in pairs]
        got = call(program, words, None, *streams, env={"LD_PRELOAD": f"{room}/refuse.so", "WRITE_ONE": "1"})[2]
        for _, theirs in pairs:
            theirs.close()
        wanted = ((text, min(len(text), 1)), (errors, min(len(errors), 1)), status)
        seen.compare(f"{words} on {given}, a byte at a time", (packets(pairs[1][0]), packets(pairs[2][0]), got), wanted)
        for ours, _ in pairs:
            ours.close()
    return len(rows_of("program.tsv"))


def nested(levels):
    """So many nodes, one in the other, each as the entry 1 of the one around it."""
    node = b""
    for _ in range(levels):
        entry = b"\x08\x01\x12" + varint_encoding(len(node)) + node
        node = b"\x12" + varint_encoding(len(entry)) + entry
    return node.hex().encode()


def small_stacks(program, room, seen):
    """As many levels as are read, in little stack, and one more."""
    for levels, wanted in ((100, (nested(100) + b"\n", b"", 0)), (101, (b"fault RecursionLimitExceeded\n", b"", 1))):
        got = call(program, "again node", nested(levels), stack=STACK)
        seen.compare(f"again node, of {levels} levels, in {STACK} bytes of stack", got, wanted)
    return 2


def pieces(program, room, seen):
    """Ten thousand lines through a pipe in pieces of many sizes, and back."""
    lines = [b"%08x %d\n" % (i * 2654435761 % 2**28 & 0x7F7F7F7F, i - 5000) for i in range(10000)]
    last = {it.split()[0]: it for it in lines}
    field, errors, status = call(program, "write 7", b"".join(lines))
    seen.compare("write 7 of ten thousand lines", (errors, status), (b"", 0))
    for size in (1 << 20, 4096, 4095, 61):
        started = subprocess.Popen([program, "read", "7"], stdin=subprocess.PIPE, stdout=subprocess.PIPE, stderr=subprocess.PIPE, env={})
        # the answer comes once the input has ended
        with started.stdin as pipe:
            for at in range(0, len(field), size):
                pipe.write(field[at : at + size])
                pipe.flush()
        text, errors = started.stdout.read(), started.stderr.read()
        seen.compare(f"read 7 in pieces of {size}", (text, errors, started.wait(SECONDS)), (b"".join(last[key] for key in sorted(last)), b"", 0))
        started.stdout.close()
        started.stderr.close()
    return 5


def refusals(program, room, seen):
    """Each request for memory refused, alone and with all that follow: the right answer, or want of memory."""
    run = b"".join(b"2a060a02%02x%02x1001" % (97 + i // 26, 97 + i % 26) for i in range(300))
    pairs = b"".join(b"%02x%02x %d\n" % (97 + i // 26, 97 + i % 26, i) for i in range(60))
    choices = b"".join(b"2a0408%02x10%02x" % (i, i % 3) for i in range(120))
    message = b"0805" * 40 + b"0a0201020b0801130c" * 20
    item = b"10031a026f6b" * 30 + b"0c0bff"
    nodes = b"".join(b"120b08%02x12070a050a016110011a0408%02x10%02x" % (i, i, i % 3) for i in range(9)) + b"0a070a036162631001" + b"2005" * 20
    sets = b"0b10051a01780c" * 9 + b"c23e0568656c6c6f" * 9 + b"0805" * 20
    long = [("read 5", run), ("write 5", pairs), ("rewrite 5", choices), ("ext 1", message), ("item", item), ("again node", nodes), ("again set", sets)]
    cases = [(words, given) for words, given, *_ in rows_of("program.tsv")] + long
    runs = told = 0
    for words, given in cases:
        right = call(program, words, given)
        for on in ({}, {"REFUSE_ON": "1"}):
            for at in range(1, 100000):
                reads, tells = os.pipe()
                env = {"LD_PRELOAD": f"{room}/refuse.so", "REFUSE_AT": str(at), "REFUSE_TELL": str(tells), **on}
                got = call(program, words, given, env=env, fds=(tells,))
                os.close(tells)
                refused = os.read(reads, 1)
                os.close(reads)
                runs += 1
                if not refused:
                    seen.compare(f"{words} on {given[:60]} with nothing refused", got, right)
                    break
                told += got == NO_MEMORY
                if got != NO_MEMORY:
                    seen.compare(f"{words} on {given[:60]} with request {at} refused{' and all after it' if on else ''}", got, right)
    # a program that never wants memory would pass too
    if told == 0:
        seen.compare("refusals that were told", (told,), ("some",))
    return runs


def programs():
    made = [it for it in (f"{CRATE}/out/buffamap", f"{CRATE}/out/buffamap.by-rattle") if os.path.isfile(it)]
    if not made:
        with open(f"{CRATE}/stdin", "rb") as given:
            subprocess.run(["rt", "run", "--", "read", "5"], cwd=CRATE, stdin=given, stdout=subprocess.DEVNULL, check=True)
        made = [f"{CRATE}/out/buffamap"]
    return made


def runs_of(task):
    """Runs a group in a room of its own: how many runs it made, and how many of them differed."""
    program, group, room = task
    seen = Differences()
    with tempfile.TemporaryDirectory(dir=room) as own:
        if os.path.exists(f"{room}/refuse.so"):
            shutil.copy(f"{room}/refuse.so", own)
        return group(program, own, seen), seen.found


def main():
    groups = [answers, wrong_words, failed_reads, failed_writes, small_stacks, pieces]
    shimmed = [refusals, failures_once, short_writes, slow_streams]
    failed = 0
    with tempfile.TemporaryDirectory(prefix="outside-") as room, multiprocessing.Pool() as pool:
        if shutil.which("gcc"):
            subprocess.run(["gcc", "-O2", "-Wall", "-Werror", "-shared", "-fPIC", "-o", f"{room}/refuse.so", f"{TOP}/tests/refuse.c"], check=True)
            groups = shimmed + groups
        else:
            print("outside: gcc is missing, so no request for memory could be refused, and no write cut")
            failed += 1
        # (the longest first)
        tasks = [(program, group, room) for group in groups for program in programs()]
        for (program, group, _), (runs, found) in zip(tasks, pool.imap(runs_of, tasks)):
            failed += found
            verdict = f"{found} DIFFERENCES" if found else "as it must be"
            print(f"outside: {os.path.basename(program)}, {group.__name__.replace('_', ' ')}: {runs} runs, {verdict}")
    print("outside: FAILED" if failed else "outside: passed")
    return 1 if failed else 0


if __name__ == "__main__":
    sys.exit(main())
