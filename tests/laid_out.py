#!/usr/bin/env python3
"""Sees that each crate is laid out as `rt fmt` lays it out: of a copy, in seconds, before anything is proved."""
import os
import shutil
import subprocess
import sys
import tempfile

ROOT = os.path.dirname(os.path.dirname(os.path.realpath(__file__)))


def files_below(folder):
    """Returns the source files of a crate by their paths below it."""
    found = {}
    for at, _, names in os.walk(folder):
        for name in names:
            if name.endswith((".rt", ".antt")):
                with open(os.path.join(at, name), "rb") as it:
                    found[os.path.relpath(os.path.join(at, name), folder)] = it.read()
    return found


def main():
    differ = []
    with tempfile.TemporaryDirectory() as copy:
        shutil.copy(f"{ROOT}/crates.txt", copy)
        shutil.copytree(f"{ROOT}/crates", f"{copy}/crates", ignore=shutil.ignore_patterns("out"))
        for crate in sorted(os.listdir(f"{copy}/crates")):
            folder = f"{copy}/crates/{crate}"
            before = files_below(folder)
            subprocess.run(["rt", "fmt"], cwd=folder, check=True, stdout=subprocess.DEVNULL)
            after = files_below(folder)
            differ += [f"crates/{crate}/{it}" for it in sorted(before) if before[it] != after[it]]
    for it in differ:
        print(f"laid_out: {it}: run rt fmt in the crate's folder")
    print(f"laid_out: {len(differ)} files differ from what rt fmt writes")
    return 1 if differ else 0


if __name__ == "__main__":
    sys.exit(main())
