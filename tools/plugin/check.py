"""Whether the files of a crate are those that the plugin would write now: it writes them into another folder, and compares."""
import os
import re
import subprocess
import sys
import tempfile

# The first line of a file that the plugin writes.
HEAD = re.compile(r"(?://!|--) (?:.* made of|What protoc-gen-buffa made of) (.*?)(?: by protoc-gen-buffa)?\.")
SAME, DIFFERENT, REFUSED = 0, 1, 2


def lines_of(file):
    """The lines of a file, as bytes, or nothing where it isn't there."""
    if not os.path.isfile(file):
        return None
    with open(file, "rb") as it:
        return it.read().split(b"\n")


def written_of(file):
    """The .proto files of which the plugin wrote a file, by its first line; none, where another wrote it."""
    found = HEAD.fullmatch((lines_of(file) or [b""])[0].decode(errors="replace"))
    return set(found[1].split(", ")) if found else set()


def files_in(folder):
    """The files below a folder, by their names in it."""
    found = [os.path.join(at, it) for at, _, names in os.walk(folder) for it in names]
    return sorted(os.path.relpath(it, folder) for it in found)


def difference(wanted, file):
    """A line on what differs in a file from what would be written, or nothing."""
    ours, theirs = lines_of(wanted), lines_of(file)
    if theirs is None:
        return f"{file}: it is missing"
    if ours == theirs:
        return None
    number = next((at for at, (a, b) in enumerate(zip(ours, theirs), 1) if a != b), min(len(ours), len(theirs)) + 1)
    return f"{file}:{number}: it differs from what would be written"


def stale(made, module, protos):
    """Files that the plugin wrote before and wouldn't write now. With no module, they are those of the same .proto files."""
    for file in files_of("src", module, ".rt") + files_of("specs", module, ".antt"):
        of = written_of(file)
        if file in made or not of or not module and not of & protos:
            continue
        yield file
        if file.startswith("src"):
            answers = os.path.join(*filter(None, ["proofs", module, os.path.basename(file).removesuffix(".rt")]))
            yield from (os.path.join(answers, it) for it in files_in(answers))


def files_of(top, module, ending):
    """The files in the folder of a module, and of specs the one that names them: that of `src` is made anew in each run."""
    folder = os.path.join(top, module) if module else top
    names = sorted(it for it in (os.listdir(folder) if os.path.isdir(folder) else []) if it.endswith(ending))
    return [folder + ending] * bool(module and top == "specs") + [os.path.join(folder, it) for it in names]


def differences(top, module):
    """What differs, a line each, where what would be written lies below `top`."""
    made = files_in(top)
    protos = set().union(*(written_of(os.path.join(top, it)) for it in made))
    lines = filter(None, (difference(os.path.join(top, it), it) for it in made))
    return [*lines, *(f"{it}: it is stale: nothing writes it now" for it in stale(set(made), module, protos))]


def main(call, module):
    """Runs protoc, by a function that makes its call for a folder, and answers by the status whether all is the same."""
    with tempfile.TemporaryDirectory() as top:
        os.makedirs(f"{top}/src")
        ran = subprocess.run(call(f"{top}/src"), capture_output=True, text=True)
        if ran.returncode:
            sys.stderr.write(ran.stderr)
            return REFUSED
        found = differences(top, module)
    print("\n".join(found), end="\n" * bool(found))
    return DIFFERENT if found else SAME
