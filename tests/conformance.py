#!/usr/bin/env python3
"""Runs the tables of vectors/ with memory refused, request by request.

Each row of vectors/cases and vectors/google is run by the program that knows its call and types, one of `PROGRAMS`. It says
when a call begins and when it has ended; between the two `refuse.c` refuses one request for memory, the first, then the
second, and so on until none is refused, and each request where the row says that the call takes no memory. The program
compares the answer and what stands after it, and prints the rows that don't hold. Needs gcc. `rt ci` leaves the programs;
where there is none, `rt run` builds it. The gate runs the same rows without refusals: `tests/conformance.py gather` writes
each program's input of them, and its output. The rows of `many.tsv` are run here alone, once each, and then with each of
the first fifty requests refused, and of the last ten.
"""
import glob
import multiprocessing.pool
import os
import re
import shutil
import subprocess
import sys
import tempfile
import time

sys.dont_write_bytecode = True
import extension_reading

TOP = os.path.dirname(os.path.dirname(os.path.abspath(__file__)))
MANY = f"{TOP}/vectors/cases/many.tsv"
SECONDS = 600
# the calls that each program knows; those on nodes and MessageSets, and payloads of messages, are one's of messages, those on
# messages from their fields the last one's
PROGRAMS = {
    "conformance": "item unknown skip varint decode copy tag records twice retain write-item item-len spell zigzag from-wire "
    "blank normal number push append reserve write-records equal cache context limits " + extension_reading.CALLS,
    "conformance_of_maps": "entry unlisted run rewrite field write size size-and-write put spell-payload payload-len payload",
    "conformance_of_messages": "merge merge-field merge-delimited encode message-size message-clear size-messages "
    "write-messages",
    "conformance_of_members": "",
}
MESSAGES = "flat two count keep tree".split()
MEMBERS = (
    "assorted branch depot explicit failure implicit inventory joined ledger load measure order palette pallet parcel payment "
    "separate settings spot store swatch train transfer wagon"
).split()


def program_of(row):
    """The program that knows the call and the types of a row."""
    _, call, types = row.decode().split("\t")[:3]
    if types in ("node", "set") or types.startswith("set,") or (call == "payload" and types in MESSAGES):
        return "conformance_of_messages"
    if types in MEMBERS:
        return "conformance_of_members"
    for name, calls in PROGRAMS.items():
        if call in calls.split():
            return name
    raise SystemExit(f"conformance: FAILED: no program knows the call `{call}`")


def rows_of(paths):
    """The rows of tables, by the program that runs them."""
    rows = {name: b"" for name in PROGRAMS}
    for path in paths:
        with open(path, "rb") as table:
            for row in table.read().splitlines():
                if row and not row.startswith(b"#"):
                    rows[program_of(row)] += row + b"\n"
    return rows


def tables():
    """The rows of all tables, but for those on a great many of one thing."""
    paths = sorted(glob.glob(f"{TOP}/vectors/cases/*.tsv")) + sorted(glob.glob(f"{TOP}/vectors/google/*.tsv"))
    return rows_of(path for path in paths if path != MANY)


def all_hold(text):
    """What a program has to say of rows: that each of them holds."""
    return b"%d held, 0 did not\n" % len(text.splitlines())


def gathered():
    """The gate's input and output of each program."""
    rows = tables().items()
    return {f"{name}/{file}": made for name, text in rows for file, made in (("stdin", text), ("stdout", all_hold(text)))}


def gather():
    for name, text in gathered().items():
        with open(f"{TOP}/crates/{name}", "wb") as it:
            it.write(text)


def run(program, library, text):
    """What the program wrote, and its status."""
    env = {"LD_PRELOAD": library, "REFUSE_CALLS": "1"}
    done = subprocess.run([program, "refused"], env=env, input=text, capture_output=True, timeout=SECONDS, check=False)
    return done.stdout.decode(), done.stderr, done.returncode


def builds():
    """The programs as they were built: by each compiler that built all of them, or else as `rt run` builds them."""
    of_each = [{name: f"{TOP}/crates/{name}/out/{name}{by}" for name in PROGRAMS} for by in ("", ".by-rattle")]
    made = [it for it in of_each if all(map(os.path.isfile, it.values()))]
    if made:
        return made
    for name in PROGRAMS:
        with open(f"{TOP}/crates/{name}/stdin", "rb") as given:
            subprocess.run(["rt", "run"], cwd=f"{TOP}/crates/{name}", stdin=given, stdout=subprocess.DEVNULL, check=True)
    return of_each[:1]


def run_many(program, text):
    """What is wrong with a run of rows on a great many of one thing, each once."""
    done = subprocess.run([program], input=text, capture_output=True, timeout=SECONDS, check=False)
    if (done.stdout, done.stderr, done.returncode) == (all_hold(text), b"", 0):
        return ""
    return f"{os.path.basename(program)}: status {done.returncode}, {done.stdout.decode()}"


def all_many(build, many):
    """What is wrong with the runs of such rows, of all programs side by side."""
    with multiprocessing.pool.ThreadPool() as pool:
        return "\n  ".join(filter(None, pool.starmap(lambda name, text: run_many(build[name], text), many.items())))


def judge(output, errors, status):
    """What is wrong with a run, and what it counted: runs, requests refused, rows that held."""
    found = re.search(r"(\d+) runs, (\d+) requests for memory refused\n(\d+) held, (\d+) did not\n\Z", output)
    if not found:
        return [f"status {status}, it ended with {output[-200:]!r}"], (0, 0, 0)
    *counts, failed = map(int, found.groups())
    wrong = output.splitlines()[:failed]
    if errors:
        wrong.append(f"it wrote {errors[:200]!r} to the errors")
    if status != (1 if failed else 0):
        wrong.append(f"status {status}")
    return wrong, counts


def run_all(build, library, rows):
    """What is wrong with the runs of all programs, side by side, and the sums of what they counted."""
    with multiprocessing.pool.ThreadPool() as pool:
        found = pool.starmap(lambda name, text: judge(*run(build[name], library, text)), rows.items())
    wrong = [f"{name}: {it}" for name, (faults, _) in zip(rows, found) for it in faults]
    runs, refused, held = (sum(counts) for counts in zip(*(counts for _, counts in found)))
    # programs whose calls never want memory, or that count none, would pass too
    if refused < held:
        wrong.append(f"only {refused} requests were refused in {held} rows")
    return "\n  ".join(wrong), f"{runs} runs, {refused} requests refused"


def told(what, start, wrong):
    """Prints what is wrong with runs; whether anything is."""
    verdict = "as it must be" if not wrong else f"\n  {wrong}"
    print(f"conformance: {what}: {time.time() - start:.1f} seconds: {verdict}")
    return bool(wrong)


def main():
    if sys.argv[1:] == ["gather"]:
        gather()
        return 0
    if not shutil.which("gcc"):
        print("conformance: gcc is missing, so no request for memory could be refused")
        return 1
    rows, many, failed = tables(), {name: text for name, text in rows_of([MANY]).items() if text}, False
    for name, wanted in gathered().items():
        with open(f"{TOP}/crates/{name}", "rb") as it:
            if it.read() != wanted:
                print(f"conformance: crates/{name} isn't what the tables are: run tests/conformance.py gather")
                failed = True
    with tempfile.TemporaryDirectory(prefix="conformance-") as room:
        library = f"{room}/refuse.so"
        subprocess.run(["gcc", "-O2", "-Wall", "-Werror", "-shared", "-fPIC", "-o", library, f"{TOP}/tests/refuse.c"], check=True)
        for build in builds():
            names, start = ", ".join(map(os.path.basename, build.values())), time.time()
            wrong, counts = run_all(build, library, rows)
            failed |= told(f"{names}: {counts}", start, wrong)
            start = time.time()
            failed |= told("a great many", start, all_many(build, many))
            start = time.time()
            wrong, counts = run_all(build, library, many)
            failed |= told(f"a great many: {counts}", start, wrong)
    print("conformance: FAILED" if failed else "conformance: passed")
    return 1 if failed else 0


if __name__ == "__main__":
    sys.exit(main())
