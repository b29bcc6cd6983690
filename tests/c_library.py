#!/usr/bin/env python3
"""Calls the library of sample_payment_c from C, Rust and Python, and compares each answer with the second reading of the rules.

    tests/c_library.py [SEED] [COUNT]

The bytes are those of the rows of vectors/ that are of a payment or a transfer, each front of them, and so many made of them
at random. What the second reading leaves of them without undeclared fields is compared with what Google's Python leaves. From C each request for memory is refused in turn, and pages that nothing may touch or write stand around the
caller's memory (tests/c_library.c). Some rows go through valgrind, through the module of Python, and through the examples, that of
Rust over its crate; `make` builds these. What is checked in has to be what tools/c_library writes, and what it writes of the cases
of the plugin has to be read by gcc, python3 and rustc.

Where the library isn't there, or is older than its sources, `rt lib` makes one in a repository of its own, in out/, which takes
what is built here of the crates below, also by `rt ci`. That proves sample_payment_c. Needs gcc, make and python3; what needs
protoc, rustc or valgrind is left out, and told, where that isn't there. The status is 1 on any difference.
"""
import glob
import importlib.machinery
import importlib.util
import os
import random
import re
import shutil
import subprocess
import sys
import tempfile

import rules
import member_reading  # noqa: F401, which declares the types
import place_reading
from rules import BLANKS, BY_MEMBERS, Budget, Fault, merge, message_text

TOP = os.path.dirname(os.path.dirname(os.path.abspath(__file__)))
NAME = "sample_payment_c"
CRATE = f"{TOP}/crates/{NAME}"
LIBRARY = f"{CRATE}/out/lib{NAME}.a"
TABLES = ["cases/members.tsv", "google/members.tsv"]
KINDS = ["payment", "transfer"]
FAULTS = """UnexpectedEof VarintTooLong InvalidFieldNumber InvalidWireType WireTypeMismatch InvalidUtf8 MessageTooLarge
    RecursionLimitExceeded UnknownFieldLimitExceeded ElementMemoryLimitExceeded InvalidEndGroup InvalidMessageSet UnexpectedField""".split()
TOO_LONG, NOT_CANONICAL = 15, 16
USUAL = (rules.MOST_BYTES, rules.MOST_LEVELS, rules.MOST_UNKNOWN, rules.MOST_UNITS)
# The members that a call tells: the place of the number, and that of the text.
TOLD = {"payment": (0, 4), "transfer": (1, 0)}
OLD = -777
BELOW = ["sample_payment", "buffa_c"]
SECONDS = 300
HEADER = ["-fsyntax-only", "-Wall", "-Wextra", "-Werror", "-x"]


def read(kind, text, limits):
    """The message that bytes mean under limits, or the number of the answer."""
    longest, depth, unknown, units = limits
    if len(text) > longest:
        return TOO_LONG
    try:
        return merge(kind, BLANKS[kind], text, depth, Budget(unknown, units))
    except Fault as it:
        return FAULTS.index(str(it).split()[0]) + 1


def number_of(read):
    return read if isinstance(read, int) else 0


def wanted(kind, text, limits):
    """The line that tests/c_library.c has to print."""
    message = read(kind, text, USUAL)
    answer, checked = number_of(message), number_of(read(kind, text, limits))
    if answer:
        return f"{answer} {checked} {answer} 0 {answer} - {answer} {answer} {OLD} {answer} - {place(kind, text, limits)} {answer} -"
    encoding, (number, told) = message_text(kind, message), TOLD[kind]
    canonical = 0 if encoding == text else NOT_CANONICAL
    told = f"0 {message[number]} 0 {message[told].hex() or '-'}"
    left = message_text(kind, declared(kind, message)).hex() or "-"
    return f"0 {checked} 0 {len(encoding)} 0 {encoding.hex() or '-'} {canonical} {told} {place(kind, text, limits)} 0 {left}"


def place(kind, text, limits):
    """The answer of a call for a place, the offset and the path."""
    longest, depth, unknown, units = limits
    found = "read" if len(text) > longest else place_reading.place(kind, text, depth, unknown, units)
    if found == "read":
        return f"{number_of(read(kind, text, limits))} 0 -"
    path, _, rest = found.partition(" at ")
    offset, fault = rest.split(": ", 1)
    return f"{FAULTS.index(fault.split()[0]) + 1} {offset} {path or '-'}"


def declared(kind, message):
    """What is left of a message of cases and single members without what it keeps, in those inside, too."""
    parts = zip(BY_MEMBERS[kind].members, message)
    return *(declared(of, part) if of in BY_MEMBERS and part is not None else part for (_, _, of), part in parts), b""


def rows():
    """What the rows merge: the bytes of the message that stands, those that are merged, and both; and the limits of a row."""
    found = set()
    for table in TABLES:
        with open(f"{TOP}/vectors/{table}", encoding="utf-8") as it:
            for line in it.read().split("\n"):
                parts = line.split("\t")
                if len(parts) > 5 and parts[2] in KINDS:
                    said = dict(it.split("=", 1) for it in parts[3].split(" ") if "=" in it)
                    limits = tuple(int(said.get(name, other)) for name, other in zip(("longest", "depth", "unknown", "units"), USUAL))
                    before, given = (bytes.fromhex(it.strip("-")) for it in parts[4:6])
                    found |= {(parts[2], it, limits) for it in (before, given, before + given)}
    return sorted(found)


def changed(text, at):
    """Bytes with a few that are others, are gone or come twice."""
    made = bytearray(text)
    for _ in range(at.randrange(1, 4)):
        place = at.randrange(len(made) + 1)
        kind = at.randrange(4)
        if kind == 0 or not made:
            made.insert(place, at.choice([0, 1, 8, 0x12, 0x22, 0x2A, 0x80, 0xFF, at.randrange(256)]))
        elif kind == 1:
            del made[min(place, len(made) - 1)]
        elif kind == 2:
            made[min(place, len(made) - 1)] ^= 1 << at.randrange(8)
        else:
            made[place:place] = made[place // 2 : place]
    return bytes(made[:4000])


def inputs(seed, count):
    """All that is called: of each the kind, the bytes and the limits."""
    made, at = rows(), random.Random(seed)
    made = {*made, *((kind, text[:cut], limits) for kind, text, limits in made for cut in range(len(text)))}
    texts = sorted({text for _, text, _ in made})
    for _ in range(count):
        text = changed(at.choice(texts), at)
        limits = (at.choice([len(text), max(len(text), 1) - 1, USUAL[0]]), at.randrange(3), at.randrange(3), at.choice([0, USUAL[3]]))
        made.add((at.choice(KINDS), text, limits))
    return sorted(made)


def vendor():
    """tools/vendor as a module."""
    loader = importlib.machinery.SourceFileLoader("vendor", f"{TOP}/tools/vendor")
    made = importlib.util.module_from_spec(importlib.util.spec_from_loader("vendor", loader))
    loader.exec_module(made)
    return made


def built(room):
    """The library: the one that stands, or one that is made in a repository of its own, with what is built of the crates below."""
    sources = [f"{at}/{it}" for name in (NAME, *BELOW) for at, _, files in os.walk(f"{TOP}/crates/{name}/src") for it in files]
    if os.path.exists(LIBRARY) and os.path.getmtime(LIBRARY) > max(map(os.path.getmtime, sources)):
        return LIBRARY
    tool = vendor()
    lines = tool.crates_below([NAME])
    for name in lines:
        tool.copy_crate(name, f"{room}/crates/{name}")
    tool.write_lines(lines, f"{room}/crates.txt")
    shutil.copy(f"{TOP}/HANDLES", room)
    absent = [it for it in tool.copy_built([it for it in lines if it != NAME], room, os.link) if it != NAME]
    if absent:
        print(f"the library in C: not built here, and proved anew: {' '.join(absent)}", flush=True)
    ran = subprocess.run(["rt", "lib", "--jobs", "1"], cwd=f"{room}/crates/{NAME}", capture_output=True, text=True)
    if ran.returncode:
        sys.exit(f"the library in C: rt lib ended with status {ran.returncode}: {ran.stdout[-3000:]}")
    return f"{room}/crates/{NAME}/out/lib{NAME}.a"


def is_as_made():
    """Whether what is checked in is what c_library writes, where protoc is there to say it."""
    words = [f"{TOP}/tools/c_library", "--check", "--types", "sample_payment", "discard=all", "places=all", "-I../sample_payment", "../sample_payment/payment.proto", "Payment", "Transfer"]
    return not shutil.which("protoc") or subprocess.run(words, cwd=CRATE).returncode == 0


def lines_of(calls):
    return "".join(f"{kind} {text.hex() or '-'} {' '.join(map(str, limits))}\n" for kind, text, limits in calls)


class Differences:
    def __init__(self):
        self.found = 0

    def compare(self, what, calls, got, told):
        for (kind, text, limits), line, other in zip(calls, got + ["nothing"] * len(calls), told):
            if line != other:
                self.found += 1
                if self.found <= 10:
                    print(f"  {what}: {kind} {text.hex()[:200]} {limits}\n    got    {line[:300]}\n    wanted {other[:300]}")


def from_c(room, calls, words=(), before=()):
    """What the program in C prints of the calls."""
    ran = subprocess.run([*before, f"{room}/calls", *words], input=lines_of(calls), capture_output=True, text=True, timeout=SECONDS)
    if ran.returncode:
        print(f"  the program in C ended with status {ran.returncode}: {ran.stdout[-300:]}{ran.stderr[-2000:]}")
    return ran.stdout.split("\n")[:-1] if not ran.returncode else ran.stdout.split("\n")[:-2]


def from_python(room, calls):
    """The same lines, by the module of Python."""
    spec = importlib.util.spec_from_file_location(NAME, f"{room}/library/{NAME}.py")
    module = importlib.util.module_from_spec(spec)
    spec.loader.exec_module(module)

    def told(call, *args):
        try:
            return 0, call(*args)
        except module.Refused as it:
            return it.answer, None

    def line(kind, text, limits):
        answers = {name: told(getattr(module, f"{kind}_{name}"), text) for name in ("check", "room", "canonical", "is_canonical")}
        answers["within"] = told(module.__dict__[f"{kind}_check_within"], text, *limits)
        number, member = (told(getattr(module, f"{kind}_{it}"), text) for it in {"payment": ("amount", "note"), "transfer": ("day", "to")}[kind])
        made = [answers["check"][0], answers["within"][0], answers["room"][0], answers["room"][1] or 0, answers["canonical"][0]]
        made += [(answers["canonical"][1] or b"").hex() or "-", answers["is_canonical"][0], number[0], OLD if number[1] is None else number[1]]
        answer, found = told(module.__dict__[f"{kind}_place"], text, *limits)
        answer, offset, path = (found.fault, found.offset, found.path) if found else (answer, 0, ())
        left = told(getattr(module, f"{kind}_canonical_declared"), text)
        made += [member[0], (member[1] or "").encode().hex() or "-", answer, offset, "".join(f".{it.number}" for it in path) or "-"]
        return " ".join(map(str, [*made, left[0], (left[1] or b"").hex() or "-"]))

    return [line(*it) for it in calls]


def from_example(program, calls):
    """What an example prints of each: the encoding, or the answer."""
    return [subprocess.run(program, input=text, capture_output=True, timeout=SECONDS).stdout.decode().strip() for _, text, _ in calls]


# The names of the fields of a payment; a transfer is in the fourth.
FIELD_NAMES = {".1": "amount", ".2": "card", ".3": "cash", ".4": "transfer", ".5": "note", ".4.1": "transfer.to", ".4.2": "transfer.day"}


def of_example(kind, text, has_names):
    """What an example prints: the encoding, or where the bytes are refused, in names or as the number of the answer."""
    message = read(kind, text, USUAL)
    if not isinstance(message, int):
        return message_text(kind, message).hex()
    answer, offset, path = place(kind, text, USUAL).split()
    fault = re.sub(r"(?<!^)([A-Z])", r"_\1", FAULTS[message - 1]).upper()
    named = FIELD_NAMES.get(path, path.strip("-.").replace("4.", "transfer."))
    return f"refused: {named}{' ' if named else ''}at byte {offset}: {fault}" if has_names else f"refused {answer} at byte {offset}"


def see_examples(room, payments, differences):
    """Runs the examples."""
    examples = {"example in C": [f"{room}/library/out/example"], "example in Python": [sys.executable, f"{room}/library/example.py"]}
    if shutil.which("rustc"):
        examples["example in Rust"] = [f"{room}/library/out/example_rust"]
    for name, program in examples.items():
        differences.compare(name, payments, from_example(program, payments), [of_example(kind, text, name != "example in C") for kind, text, _ in payments])


def see_google(room, calls):
    """How many messages Google's Python leaves otherwise when it takes out what isn't declared; none where it isn't there."""
    try:
        from google.protobuf import descriptor_pb2, descriptor_pool, message_factory
    except ImportError:
        return 0
    if not shutil.which("protoc"):
        return 0
    subprocess.run(["protoc", f"-o{room}/payment.bin", f"-I{TOP}/crates/sample_payment", "payment.proto"], check=True)
    pool = descriptor_pool.DescriptorPool()
    with open(f"{room}/payment.bin", "rb") as it:
        pool.Add(descriptor_pb2.FileDescriptorSet.FromString(it.read()).file[0])
    types = {kind: message_factory.MessageFactory(pool).GetPrototype(pool.FindMessageTypeByName(f"buffa.sample.{kind.title()}")) for kind in KINDS}
    differ = 0
    for kind, text in sorted({(kind, text) for kind, text, _ in calls}):
        ours = read(kind, text, USUAL)
        if not isinstance(ours, int):
            theirs = types[kind].FromString(text)
            theirs.DiscardUnknownFields()
            left = types[kind].FromString(message_text(kind, declared(kind, ours)))
            differ += left.SerializeToString() != theirs.SerializeToString()
    return differ


def see_cases(room):
    """How many of the plugin's cases have a library whose header, module or crate isn't read by its language's compiler."""
    failed = 0
    for proto in sorted(glob.glob(f"{TOP}/tools/cases/*.proto")) if shutil.which("protoc") else []:
        name = f"case_{os.path.basename(proto)[:-6]}"
        os.makedirs(f"{room}/{name}")
        how = {"cwd": f"{room}/{name}", "capture_output": True, "text": True}
        ran = [subprocess.run([f"{TOP}/tools/c_library", f"-I{TOP}/tools/cases", proto, "--all"], **how)]
        ran += [subprocess.run(["gcc", *HEADER, kind, f"library/{name}.h"], **how) for kind in ("c", "c++")]
        ran += [subprocess.run([sys.executable, "-c", f"compile(open('library/{name}.py').read(), '', 'exec')"], **how)]
        if shutil.which("rustc"):
            words = ["rustc", "--edition=2021", "--crate-type=lib", "--emit=metadata", "-Anon_snake_case", "-o", "made", "library/rust/src/lib.rs"]
            ran += [subprocess.run(words, **how)]
        for it in (it for it in ran if it.returncode):
            failed += 1
            print(f"  {name}: {' '.join(it.args[:2])} ended with status {it.returncode}: {it.stderr[-500:]}")
    return failed


def main(seed, count):
    calls, differences = inputs(seed, count), Differences()
    differences.found += not is_as_made()
    told = [wanted(*it) for it in calls]
    some = random.Random(seed).sample(range(len(calls)), min(300, len(calls)))
    few, few_told = [calls[it] for it in some], [told[it] for it in some]
    os.makedirs(f"{TOP}/out", exist_ok=True)
    with tempfile.TemporaryDirectory(dir=f"{TOP}/out") as room:
        library = built(room)
        shutil.copytree(f"{CRATE}/library", f"{room}/library", ignore=shutil.ignore_patterns("out"))
        subprocess.run(["make", "-s", f"PROVED={library}"], cwd=f"{room}/library", check=True)
        words = ["gcc", "-O1", "-g", "-Wall", "-Wextra", "-Werror", f"-I{room}/library", "-o", f"{room}/calls", f"{TOP}/tests/c_library.c", library]
        subprocess.run(words, check=True)
        differences.found += see_cases(room) + see_google(room, calls)
        differences.compare("from C", calls, from_c(room, calls), told)
        differences.compare("from Python", few, from_python(room, few), few_told)
        see_examples(room, [it for it in few if it[0] == "payment"][:20], differences)
        if shutil.which("valgrind"):
            before = ["valgrind", "-q", "--error-exitcode=9", "--leak-check=full"]
            differences.compare("under valgrind", few, from_c(room, few, (), before), few_told)
    absent = [it for it in ("protoc", "rustc", "valgrind") if not shutil.which(it)]
    print(f"the library in C: {len(calls)} calls, {differences.found} differences" + (f"; not there: {', '.join(absent)}" if absent else ""))
    return 1 if differences.found else 0


if __name__ == "__main__":
    sys.exit(main(int(sys.argv[1]) if sys.argv[1:] else 1, int(sys.argv[2]) if sys.argv[2:] else 2000))
