#!/usr/bin/env python3
"""Runs a command that proves crates, passes on what it says, and then prints what each crate cost.

    tests/costs.py -- rt ci
    tests/costs.py -- rt check --jobs 4     in a crate's folder: it, and those below it that are proved for it

Its table has a line for each crate that was proved, in the order of crates.txt: its functions, as the checker counted them or
else as they stand in the sources; the laws among them, which are the functions with an empty body in files of laws; the seconds
in which a process was at its proof; the jobs that this was given; the processor seconds that it took; the most memory that it
held at one time, in MB (where it is several processes, as looked up each ten seconds); and the processor seconds that the crate
took besides, for its tests, its wrong bodies and a first reading. The last line is of the whole command. To see what fewer processors make of it, say `taskset -c 0,1 tests/costs.py -- rt ci`.

It looks each second at the processes that the command has begun, so what ends within a second may be missing, and the exit status is the command's.
"""
import glob
import os
import re
import resource
import subprocess
import sys
import threading
import time

from wrong_edits import TOP, functions, listed, read

TICKS, PAGE = os.sysconf("SC_CLK_TCK"), os.sysconf("SC_PAGE_SIZE")
EMPTY = re.compile(r"\{\}\s*$")


class Process:
    """What is known of a process of the checker: its crate, whether it is at the crate's proof, and its jobs."""

    def __init__(self, words, folder):
        self.crate = words[words.index("--crate-name") + 1]
        self.jobs = int(words[words.index("--jobs") + 1]) if "--jobs" in words else 1
        reads = "--only" in words and not words[words.index("--only") + 1]
        others = {"--test", "--crate-checked"} & {*words}
        self.is_proof = words[1] in ("build", "check") and not others and not reads and folder.endswith(f"/{self.crate}")


class Cost:
    """What a crate has cost so far."""

    def __init__(self):
        self.seconds, self.jobs, self.bytes = 0, 0, 0
        # the processor seconds of each process that was begun, at its proof and besides
        self.proof, self.besides = {}, {}


def text_of(path):
    """What the system tells in a file of a process; nothing where that has ended."""
    try:
        with open(path, "rb") as it:
            return it.read().decode(errors="replace")
    except OSError:
        return ""


def status_of(number):
    """A process's parent, its processor seconds with those of its children that have ended, and its memory."""
    words = text_of(f"/proc/{number}/stat").rpartition(")")[2].split()
    return (int(words[1]), sum(map(int, words[11:15])) / TICKS, int(words[21]) * PAGE) if words else None


def shared(numbers):
    """The memory that several processes hold, with each page that they share counted once; to ask for that takes a while."""
    parts = [re.search(r"^Pss:\s+(\d+)", text_of(f"/proc/{it}/smaps_rollup"), re.M) for it in numbers]
    return sum(1024 * int(it[1]) if it else 0 for it in parts)


class Watch(threading.Thread):
    """Looks each second at what a command has begun, until it is told to end."""

    def __init__(self, command):
        super().__init__(daemon=True)
        self.command, self.costs, self.known, self.bytes, self.ended = command, {}, {}, 0, threading.Event()
        # when the memory of processes that share some was last asked for, and what it was
        self.asked = {}

    def run(self):
        last = time.monotonic()
        while not self.ended.wait(1):
            now = time.monotonic()
            self.look(now - last)
            last = now

    def process(self, number):
        """The checker's process of this number, if it is one."""
        if number not in self.known:
            words = text_of(f"/proc/{number}/cmdline").split("\0")
            if os.path.basename(words[0]) != "rattle" or "--crate-name" not in words:
                return None
            try:
                self.known[number] = Process(words, os.readlink(f"/proc/{number}/cwd"))
            except OSError:
                return None
        return self.known[number]

    def look(self, seconds):
        statuses = {int(it): status_of(it) for it in os.listdir("/proc") if it.isdigit()}
        statuses = {number: it for number, it in statuses.items() if it}
        children = {}
        for number, (parent, *_) in statuses.items():
            children.setdefault(parent, []).append(number)
        groups, left = {}, [(self.command, None)]
        while left:
            number, root = left.pop()
            root = root or (number if number in statuses and self.process(number) else None)
            if root and number in statuses:
                groups.setdefault(root, []).append(number)
            left += [(it, root) for it in children.get(number, [])]
        self.add(groups, statuses, seconds)

    def held(self, root, numbers, statuses):
        """The memory that a process and those that it has begun hold; of several it is asked for each ten seconds."""
        if len(numbers) == 1:
            return statuses[root][2]
        if time.monotonic() - self.asked.get(root, (-10,))[0] >= 10:
            self.asked[root] = time.monotonic(), shared(numbers)
        return self.asked[root][1]

    def add(self, groups, statuses, seconds):
        """Adds what the processes that were begun for crates have taken."""
        memory, at_proof = {}, set()
        for root, numbers in groups.items():
            process = self.known[root]
            cost = self.costs.setdefault(process.crate, Cost())
            (cost.proof if process.is_proof else cost.besides)[process] = sum(statuses[it][1] for it in numbers)
            memory[root] = self.held(root, numbers, statuses)
            if process.is_proof:
                cost.jobs = max(cost.jobs, process.jobs)
                cost.seconds += 0 if process.crate in at_proof else seconds
                at_proof.add(process.crate)
        for crate in at_proof:
            own = sum(size for root, size in memory.items() if self.known[root].crate == crate and self.known[root].is_proof)
            self.costs[crate].bytes = max(self.costs[crate].bytes, own)
        self.bytes = max(self.bytes, sum(memory.values()))
        for number in set(self.known) - set(statuses):
            del self.known[number]
            self.asked.pop(number, None)


class Said:
    """What the command says, of which the checker's count of each crate's functions is kept."""

    def __init__(self):
        self.counts, self.crate, self.rest = {}, None, b""

    def take(self, part):
        *lines, self.rest = (self.rest + part).split(b"\n")
        for line in lines:
            named, count = re.match(rb"crate (\w+): ", line), re.match(rb"logic=proved functions=(\d+)", line)
            if named:
                self.crate = named[1].decode()
            elif count and self.crate:
                # a check of the tests counts these too
                self.counts[self.crate] = min(int(count[1]), self.counts.get(self.crate, int(count[1])))


def counted(crate):
    """The functions of a crate's sources, and the laws among them."""
    found = laws = 0
    for path in glob.glob(f"{TOP}/crates/{crate}/src/**/*.rt", recursive=True):
        text = read(path)
        lines, own = text.split("\n"), functions(path, text)
        found += len(own)
        if "law" in os.path.relpath(path, f"{TOP}/crates"):
            laws += sum(is_empty(lines[it.start : it.end + 1]) for it in own)
    return found, laws


def is_empty(lines):
    """Whether the function of these lines, and of comments behind it, has an empty body."""
    lines = [it for it in lines if it.strip() and not re.match(r"\s*(//|#\[|\}$)", it)]
    return bool(lines and EMPTY.search(lines[-1]))


def table(watch, said, seconds, spent):
    """The lines of the table."""
    rows = [("crate", "functions", "laws", "seconds", "jobs", "processor s", "MB", "besides s")]
    known = [*listed(), *(it for it in watch.costs if it not in listed())]
    for crate in (it for it in known if it in watch.costs):
        cost, (found, laws) = watch.costs[crate], counted(crate)
        proof = (f"{cost.seconds:.0f}", cost.jobs, f"{sum(cost.proof.values()):.0f}", cost.bytes // 1_000_000) if cost.proof else ("", "", "", "")
        rows.append((crate, said.counts.get(crate, found), laws, *proof, f"{sum(cost.besides.values()):.0f}"))
    sizes = [max(len(str(it)) for it in column) for column in zip(*rows)]
    for name, *numbers in rows:
        yield "  ".join([f"{name:{sizes[0]}}", *(f"{it:>{size}}" for it, size in zip(numbers, sizes[1:]))])
    yield f"in all {seconds:.0f} seconds, {spent:.0f} processor seconds, at most {watch.bytes // 1_000_000} MB at one time"


def main(words):
    words = words[1:] if words[:1] == ["--"] else words
    if not words or words[0].startswith("-"):
        print(__doc__.strip(), file=sys.stderr)
        return 2
    begun, said = time.monotonic(), Said()
    with subprocess.Popen(words, stdout=subprocess.PIPE) as command:
        watch = Watch(command.pid)
        watch.start()
        while part := os.read(command.stdout.fileno(), 1 << 16):
            sys.stdout.buffer.write(part)
            sys.stdout.buffer.flush()
            said.take(part)
        status = command.wait()
    watch.ended.set()
    watch.join()
    used = resource.getrusage(resource.RUSAGE_CHILDREN)
    for line in table(watch, said, time.monotonic() - begun, used.ru_utime + used.ru_stime):
        print(f"costs: {line}")
    return status if status >= 0 else 128 - status


if __name__ == "__main__":
    sys.exit(main(sys.argv[1:]))
