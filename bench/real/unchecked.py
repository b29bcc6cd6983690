#!/usr/bin/env python3
"""unchecked.py [CRATE=FOLDER..]: standard input to standard output, the text of a module that `rt try` makes, as of a proved program.

Without its checks: calls of functions rattle-llvm-checks::NAME, bytes 0xAA in what has no value yet, and attributes that have clang add
more. And with the hints that `rt try` leaves out, such as #[inline(always)], by the names of functions in the sources of the crates."""
import os
import re
import sys

ADDED = re.compile(r'sanitize_address |"(frame-pointer|probe-stack|stack-probe-size|target-cpu)"="[^"]*" ?')
CHECK, UNSET = '"rattle-llvm-checks::', ", i8 -86, i64 "
HINTS = {"#[inline(always)]": "alwaysinline", "#[inline]": "inlinehint", "#[inline(never)]": "noinline", "#[cold]": "cold"}
FUNCTION = re.compile(r'(?:pub(?:\([a-z]+\))? )?(?:final )?(?:const )?(?:unsafe )?(?:extern "C" )?fn (\w+)')
OWNER = re.compile(r"(?:pub(?:\([a-z]+\))? )?(?:impl (?:([\w:]+) for )?\W*([\w:]+)|trait (\w+))")
DEFINED = re.compile(r'define internal [^@]*@"((?:[a-z_0-9]+::)+)(?:([^"]*?)::)?(\w+)(?:::<[^"]*)?"\(')


def owner_of(line):
    """How the name of the impl or of the trait that a line begins starts and ends."""
    while "<" in line.replace("->", ""):
        fewer = re.sub(r"<[^<>]*>", "", line.replace("->", ""))
        if fewer == line:
            break
        line = fewer
    found = OWNER.match(line)
    return ((found[2] or found[3]).split("::")[-1], (found[1] or "").split("::")[-1]) if found else None


def hints_of(crate, folder, found):
    """Adds the hints of a crate's functions, by module and name: how the owner's name starts and ends, and the hint."""
    for at, _, files in os.walk(folder):
        for file in (it for it in files if it.endswith(".rt")):
            parts = [crate, *os.path.relpath(f"{at}/{file}", folder)[:-3].split("/")]
            module = "::".join(it for it in parts if it not in ("lib", "main", "mod")) + "::"
            hint, owner = "", ("", "")
            with open(f"{at}/{file}", encoding="utf-8") as text:
                for line in text:
                    owner = (owner_of(line) or owner) if line[0] != "}" else ("", "")
                    hint = HINTS.get(line.strip(), hint)
                    function = FUNCTION.match(line.strip())
                    if function:
                        found.setdefault((module, function[1]), []).append((*owner, hint))
                        hint = ""


def hint_of(hints, line):
    """The hint for the function that a line defines, if the sources say one alone: in the longest module that its name begins with, of
    the owner that its name has, or else of all."""
    found = DEFINED.match(line)
    module, owner, name = (found[1], (found[2] or "").split("::")[0], found[3]) if found else ("", "", "")
    while module and (module, name) not in hints:
        module, owner = module[:-2].rpartition("::")[0], ""
        module += "::" if module else ""
    rows = hints.get((module, name), [])
    fit = {hint for start, end, hint in rows if owner.startswith(start) and owner.endswith(end) and bool(owner) == bool(start)}
    fit = fit or {hint for _, _, hint in rows}
    return fit.pop() if len(fit) == 1 else ""


def main(crates):
    hints = {}
    for crate in crates:
        hints_of(*crate.split("="), hints)
    is_check = False
    for line in sys.stdin:
        is_check = is_check or line.startswith("define internal void @" + CHECK)
        drops = is_check or f"call void @{CHECK}" in line or (line.startswith("  call void @llvm.memset.") and UNSET in line) or line == "  call void @llvm.trap()\n"
        is_check = is_check and line != "}\n"
        if line.startswith("attributes #"):
            line = ADDED.sub("", line).replace("= { }", "= { nounwind }")
        elif line.startswith("define internal "):
            hint = hint_of(hints, line)
            line = line.replace(" #0 {", f" #0 {hint} {{") if hint else line
        if not drops:
            sys.stdout.write(line)


main(sys.argv[1:])
