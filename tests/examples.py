#!/usr/bin/env python3
"""Compares examples with code that is proved: the blocks of docs, and the lines of code in the `///` and `//!` comments of the crates.

**A block** between fences in README.md, docs/GUIDE.md, docs/BY_HAND.md or docs/CONTRACTS.md is a run of lines of one file: of `src/` or
`specs/` of a crate (`rust`, `antt`), of a crate's `.proto` (`proto`), or of what a program has to print, its file `stdout` (`text`).
Spaces at a line's beginning and end don't count, nor do comments and empty lines. A line `..` alone stands for lines that are left out:
what follows it stands further down in the same file, and in the same item, unless the item has ended there and another begins.

**A line** of a comment has to stand in a file of a crate, its `src/` or, for a definition, its `specs/`. Lines are compared as tokens, so
layout and comments don't count, nor does a comma before a closing bracket; a statement may be broken over lines there. What may differ:

- the names of plain variables, one for one within a line. `self`, what is called, what follows a dot, the members of a struct,
  types, constants and literals are as they are.
- `let name =` before a call or a struct, `mut` behind `let`, and `;`. A pattern or a type behind `let` has to be there.
- `?` at the end, if each function of that name answers a `Result`: a test may look at the answer itself.
- `rt.alloc()` is `alloc`; `assert_eq!(rt; a, b)` is `a == b`.
- `_` among type arguments stands for any type; two dots stand for what is left out.

Of a `use` each name has to be imported from that path somewhere.

So an expression may stand within a longer one, but not a function behind another type or value. A line of one word, or of
brackets alone, is passed over. REFUSED has lines that are nearly right, and REFUSED_BLOCKS such blocks: the script sees that it refuses
each.

    tests/examples.py          lists the blocks and the lines that no file says
    tests/examples.py -q       counts them alone
    tests/examples.py -v       lists where each is said

The last line is 'N lines, B blocks, M that no proved function says'; the status is 1 where M isn't 0.
"""
import bisect
import collections
import glob
import itertools
import os
import re
import sys

TOP = os.path.dirname(os.path.dirname(os.path.abspath(__file__)))
TOKEN = re.compile(r"b?\"(?:\\.|[^\"\\])*\"|b?'(?:\\.|[^'\\])'|'?\w+|::|=>|->|==|!=|<=|>=|&&|\|\||\.\.|\S")
COMMENT = re.compile(r"(?m)(?:^|(?<=\s))(?://|-- ).*$")
USE = re.compile(r"use ((?:\w+ :: )+)(?:\{ (.*?) \}|(\w+)) ;")
CALLS = re.compile(r" fn (\w+) (?=([^{;]*))")
ASSERTED = re.compile(r"assert_eq ! \( rt ; ")
CLOSING = {")", "]", "}", ">"}
# A type, its arguments nested twice at most.
ATOM = r"& |:: |'?\w+ |\[ \w+ \] "
TYPE = f"(?:{ATOM}|< (?:{ATOM}|, |< (?:{ATOM}|, )*> )*> )+"
NAME = re.compile(r"[a-z_][a-z_0-9]*$")
KEPT = set("""self super crate let mut if else match for in while loop return break continue fn pub struct enum impl trait type
use mod as where move ref ghost const static true false alloc _ u8 u16 u32 u64 usize i8 i16 i32 i64 isize bool str char f32
f64""".split())
PAGES = ("README.md", "docs/GUIDE.md", "docs/BY_HAND.md", "docs/CONTRACTS.md")
# The files that a block is a part of, by the word behind its fence.
PLACES = {
    "rust": ("crates/*/src/**/*.rt", "crates/*/specs/*.antt"),
    "antt": ("crates/*/src/**/*.rt", "crates/*/specs/**/*.antt", "crates/*/proofs/**/*.antt"),
    "proto": ("crates/*/*.proto",),
    "text": ("crates/*/stdout",),
}
# Lines that no proved function can say: what the line is, and why.
ALLOWED = {}
# Lines that are wrong, each of which has to be refused.
REFUSED = (
    "write_item(1001, b\"hello\", &mut text)?;",
    "fields.retain(|kept| kept.number == gone);",
    "let len = varint_len(number)?;",
    "let bytes = decode_bytes(buf)?;",
    "let tag = Tag::encode(&mut rest)?;",
    "let size = field_len::<Int32, Str, _>(&self.counts, 1);",
    "merge_entry::<Str, Int32, _>(alloc, &mut self.counts, buf, lent)?;",
    "let (number, payload, left) = merge_item(alloc, &mut rest, ctx)?;",
    "let field = UnknownField { number: 9, data };",
    "write_item(number, number, &mut text)?;",
    "let number = counts.decode_varint(&mut rest)?;",
    "let mut message: Stock = Blank::blank(alloc);",
    "use buffa_fields::map_codec::{Int32, Integer};",
)
# Blocks that are wrong: a line is left out, or two functions are joined.
REFUSED_BLOCKS = (
    ("rust", ["let mut info = ErrorInfo::blank(alloc);", "info.domain = domain;"]),
    ("rust", ["info.domain = domain;", "..", "let mut info = ErrorInfo::blank(alloc);"]),
    ("rust", ["info.merge_from_slice(alloc, bytes)?;", "..", "info.merge_from_slice(alloc, BYTES)?;"]),
    ("proto", ["string reason = 1;", "map<string, string> metadata = 3;"]),
    ("text", ["NO_STOCK, now 36 bytes"]),
)


def tokens(code):
    """The tokens of code, without its comments."""
    found = TOKEN.findall(COMMENT.sub("", code))
    return [token for token, after in zip(found, found[1:] + [""]) if token != "," or after not in CLOSING]


def words(line):
    """How many names and numbers a line has."""
    return len([token for token in tokens(line) if re.match(r"'?\w", token)])


def text_of(path):
    """The code of a file, as one line of tokens."""
    with open(path, encoding="utf-8") as it:
        return f" {' '.join(tokens(it.read()))} "


def plain(text):
    """A text with the names for one thing made one."""
    return text.replace(" rt . alloc ( ) ", " alloc ").replace(" let mut ", " let ")


def with_equations(text):
    """A text, and behind it what its assertions say, as equations."""
    said = []
    for found in ASSERTED.finditer(text):
        parts, depth = [[]], 0
        for token in text[found.end():].split(" "):
            depth += (token in ("(", "[", "{")) - (token in (")", "]", "}"))
            if depth < 0:
                break
            if token == "," and depth == 0:
                parts.append([])
            else:
                parts[-1].append(token)
        said.append(" ".join(parts[0] + ["=="] + parts[1]) if len(parts) > 1 else "")
    return text + " ; ".join(said) + " ; "


def doc_line(line):
    """What stands in a doc comment, or nothing."""
    found = re.match(r"\s*//[/!] ?(.*)$", line)
    return found.group(1) if found else None


def bare(line):
    """A line without its comment and the spaces around it."""
    return COMMENT.sub("", line).strip()


def blocks():
    """Each block of a page: the page, the number of its first line, its word, its lines."""
    for page in PAGES:
        word, lines, start = None, [], 0
        for number, line in enumerate(open(f"{TOP}/{page}", encoding="utf-8"), 1):
            text = line.strip()
            if not text.startswith("```"):
                lines.append(line)
            elif word is None:
                word, lines, start = text[3:], [], number + 1
            else:
                yield page, start, word, [it for it in map(bare, lines) if it]
                word = None


def items_of(lines):
    """For each line of a file the number of the item that it belongs to: one begins where no bracket is open."""
    found, depth, item = [], 0, 0
    for line in lines:
        found.append(item)
        plain_line = re.sub(r"b?\"(?:\\.|[^\"\\])*\"|b?'(?:\\.|[^'\\])'", "", line)
        depth += sum(plain_line.count(it) for it in "({[") - sum(plain_line.count(it) for it in ")}]")
        item += depth <= 0 and line.endswith(("}", ";"))
    return found


class Lines:
    """The lines of the files that blocks may be parts of."""

    def __init__(self):
        self.files, self.places = {}, {}
        for word, patterns in PLACES.items():
            paths = sorted({it for each in patterns for it in glob.glob(f"{TOP}/{each}", recursive=True) if "/out/" not in it})
            for path in paths:
                if path not in self.files:
                    lines = [it for it in map(bare, open(path, encoding="utf-8")) if it]
                    self.files[path] = (lines, items_of(lines))
            self.places[word] = collections.defaultdict(list)
            for path in paths:
                for at, line in enumerate(self.files[path][0]):
                    self.places[word][line].append((path, at))

    def follow(self, path, at, parts):
        """Whether parts stand in a file one below the other, the first of them at a line."""
        lines, items = self.files[path]
        end = at + len(parts[0])
        if lines[at:end] != parts[0]:
            return False
        if not parts[1:]:
            return True
        whole = end == len(lines) or items[end] != items[end - 1]
        return any(
            self.follow(path, to, parts[1:])
            for to in range(end, len(lines))
            if lines[to] == parts[1][0] and (items[to] == items[end - 1] or whole and items[to] != items[to - 1])
        )

    def said_in(self, word, block):
        """The file that a block is a part of, or nothing."""
        parts = [list(part) for is_gap, part in itertools.groupby(block, lambda it: it == "..") if not is_gap]
        for path, at in self.places.get(word, {}).get(parts[0][0] if parts else None, []):
            if self.follow(path, at, parts):
                return os.path.relpath(path, TOP)
        return None


def fenced(path, strip):
    """The lines of code between fences, with their numbers."""
    inside = False
    for number, line in enumerate(open(path, encoding="utf-8"), 1):
        text = strip(line)
        if text is None:
            inside = False
        elif text.strip().startswith("```"):
            inside = not inside
        elif inside:
            yield number, text.strip()


def examples():
    """Each line of an example in a comment: the file, its number, the line."""
    for path in sorted(glob.glob(f"{TOP}/crates/*/src/**/*.rt", recursive=True)):
        for number, text in fenced(path, doc_line):
            yield os.path.relpath(path, TOP), number, text


def imports_of(text):
    """The names that a text imports, each with its path."""
    for path, names, name in USE.findall(text):
        for each in (names or name).split(" , "):
            yield path + each


def variables(code):
    """Which tokens of a line are names of plain variables."""
    found, inside = [], []
    for at, token in enumerate(code):
        before = code[at - 1] if at else ""
        after = code[at + 1] if at + 1 < len(code) else ""
        if token in ("(", "[", "{"):
            inside.append(token == "{" and re.match(r"[A-Z]\w*$|>$", before))
        elif token in (")", "]", "}") and inside:
            inside.pop()
        is_member = before in ("{", ",") and (after == ":" or (inside and inside[-1]))
        found.append(bool(NAME.match(token)) and token not in KEPT and before not in (".", "::")
                     and after not in ("(", "::", "!") and not is_member)
    return found


def pattern_of(code):
    """What says the tokens of a line: the longest text that it has for sure, and an expression with its variables as groups."""
    names, made, runs = [], [], [" "]
    for at, (token, is_variable) in enumerate(zip(code, variables(code))):
        is_inferred = token == "_" and code[at - 1] in ("<", ",") and code[at + 1: at + 2] in ([","], [">"])
        if not is_variable and not is_inferred:
            made.append(re.escape(token + " "))
            runs[-1] += token + " "
            continue
        runs.append(" ")
        if is_inferred:
            made.append(TYPE)
        elif token in names:
            made.append(f"(?P=v{names.index(token)}) ")
        else:
            made.append(f"(?P<v{len(names)}>[a-z_][a-z_0-9]*) ")
            names.append(token)
    return max(runs, key=len), re.compile("(?<= )" + "".join(made))


def stands_alone(text, found, is_closed):
    """Whether what was found is an expression: no function behind another value or type, nor cut off at its end."""
    earlier, before = ["", "", *text[max(0, found.start() - 200): found.start()].split(" ")][-3:-1]
    after = text[found.end(): found.end() + 200].split(" ")[0]
    if before in (".", "fn") or before == "::" and not NAME.match(earlier):
        return False
    return is_closed or after in (";", ",", ")", "]", "}", "{", "?")


def partly_merged_in(code, pattern, text):
    """Whether a text says the tokens of a line."""
    run, expression = pattern
    if run not in text:
        return False
    is_closed = code[-1] in (")", "}", "?", "{")
    for found in expression.finditer(text):
        names = list(found.groupdict().values())
        if len(set(names)) == len(names) and not KEPT & set(names) and stands_alone(text, found, is_closed):
            return True
    return False


def called(code):
    """The function whose call a line of tokens ends in, or nothing."""
    depth = 0
    for at in range(len(code) - 1, 0, -1):
        depth += (code[at] in CLOSING) - (code[at] in ("(", "[", "{", "<"))
        if depth == 0 and code[at] in ("(", "<"):
            before = code[at - 1]
            if code[at] == "(" and before == ">":
                continue
            name = code[at - 2] if before == "::" else before
            return name if NAME.match(name) else None
    return None


def forms_of(line, answering):
    """The ways in which code may say a line, as tokens."""
    code = plain(f" {' '.join(tokens(line))} ").split()
    while code and code[-1] in (";", ","):
        code.pop()
    forms = [code]
    if code[:1] == ["let"] and code[2:3] == ["="] and {"(", "{"} & set(code):
        forms.append(code[3:])
    for form in list(forms):
        if form[-2:] == [")", "?"] and called(form[:-1]) in answering:
            forms.append(form[:-1])
    return [form for form in forms if form]


def said_in(line, sources):
    """The file that says a line, each part between two dots for itself, or nothing."""
    code = tokens(line)
    if code[0] == "use":
        return "imports" if set(imports_of(" ".join(code))) <= sources.imports else None
    parts = [part for part in f" {' '.join(code)} ".split(" .. ") if re.search(r"\w", part)]
    wanted = []
    for part in parts:
        forms = [(form, pattern_of(form)) for form in forms_of(part, sources.answering)]
        wanted.append((f" {part.strip(' ,')} ", forms))
    exact, forms = wanted[0]
    for path, text in sources.with_any([exact] + [run for _, (run, _) in forms]):
        if all(exact in text or any(partly_merged_in(*form, text) for form in forms) for exact, forms in wanted):
            return path
    return None


class Sources:
    """The code of the crates: each file's text, what they import, and the names of functions that answer a `Result`."""

    def __init__(self):
        self.texts, self.imports, self.answering, silent = [], set(), set(), set()
        for path in sorted(glob.glob(f"{TOP}/crates/*/src/**/*.rt", recursive=True) + glob.glob(f"{TOP}/crates/*/specs/*.antt")):
            text = text_of(path)
            self.imports |= set(imports_of(text))
            text = with_equations(plain(text))
            self.texts.append((os.path.relpath(path, TOP), text))
            for name, head in CALLS.findall(text):
                (self.answering if "-> Result " in head else silent).add(name)
        self.answering -= silent
        coded = [text.encode() for _, text in self.texts]
        self.whole, self.starts = b"".join(coded), list(itertools.accumulate([0] + [len(text) for text in coded]))

    def with_any(self, runs):
        """The files that have one of these texts, each with its own text."""
        found = set()
        for run in {run.encode() for run in runs}:
            at = self.whole.find(run)
            while at >= 0:
                file = bisect.bisect(self.starts, at) - 1
                found.add(file)
                at = self.whole.find(run, self.starts[file + 1])
        return [self.texts[file] for file in sorted(found)]


def main():
    sources = Sources()
    lines = [each for each in examples() if words(each[2]) > 1]
    known = {text: ALLOWED.get(text) or said_in(text, sources) for _, _, text in lines}
    missing = 0
    for path, number, text in lines:
        missing += known[text] is None
        if known[text] is None and "-q" not in sys.argv[1:]:
            print(f"{path}:{number}: {text}")
        elif "-v" in sys.argv[1:]:
            print(f"{path}:{number}: {text}\n    {known[text]}")
    files, count = Lines(), 0
    for page, number, word, block in blocks():
        count += 1
        path = files.said_in(word, block)
        missing += path is None
        if path is None and "-q" not in sys.argv[1:]:
            print(f"{page}:{number}: this {word or 'nameless'} block is no part of one file: {block[0] if block else ''}")
        elif "-v" in sys.argv[1:]:
            print(f"{page}:{number}: {path}")
    passed = [line for line in REFUSED if said_in(line, sources)]
    passed += [" / ".join(block) for word, block in REFUSED_BLOCKS if files.said_in(word, block)]
    for line in passed:
        print(f"not refused: {line}")
    print(f"{len(lines)} lines, {count} blocks, {missing} that no proved function says")
    return 1 if missing or passed else 0


if __name__ == "__main__":
    sys.exit(main())
