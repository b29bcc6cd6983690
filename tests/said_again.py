"""Which clauses of laws say no more than the text by which a type's own ghost is defined, such as `⟦<ImplicitField<C> as Member>⟧.shape.takes ≡
value_taken C.reading` beside `takes = value_taken C.reading`. Such a clause keeps the text from being changed unseen, and is no evidence."""
import re

IMPL = re.compile(r"\bimpl(?:<[^{]*?>)? ([A-Z]\w*(?:<[^{}]*?>)?) for ([^{]+?) \{")
GHOST = re.compile(r"ghost (\w+) = \{")
LAW = re.compile(r"^pub fn (\w+)(.*?)^\{\}", re.S | re.M)
ENSURES = re.compile(r"ensures (?:(\w+) )?\{")
FOR_ALL = re.compile(r"^(\([^()]* : [^→]*?\) → )+")
SAYS = re.compile(r"⟦<(.+?) as (.+?)>⟧\.([\w.]+)((?: \w+)*) (?:≡|↔) (.*)$")
CLOSING = {"(": ")", "{": "}"}


def one_line(text):
    """A text without comments, as one line."""
    return re.sub(r"\s+", " ", re.sub(r"(?m)^\s*//.*$", "", text)).strip()


def inside(text, at):
    """What stands in the bracket that opens at a place."""
    depth, end = 0, CLOSING[text[at]]
    for place in range(at, len(text)):
        depth += (text[place] == text[at]) - (text[place] == end)
        if depth == 0:
            return text[at + 1 : place]
    return text[at + 1 :]


def parts(text):
    """The parts of a record, of which each ends in a semicolon."""
    found, depth = [""], 0
    for letter in text:
        depth += (letter in "({[") - (letter in ")}]")
        if letter == ";" and depth == 0:
            found.append("")
        else:
            found[-1] += letter
    return [it.strip() for it in found if it.strip()]


def bare(text):
    """A term without brackets around it."""
    text = text.strip()
    while text.startswith("(") and len(inside(text, 0)) == len(text) - 2:
        text = text[1:-1].strip()
    return text


def ghosts_of(text):
    """The ghosts of the impls of a file, those in records too: by type, trait and name, the term."""
    found, text = {}, one_line(text)
    for head in IMPL.finditer(text):
        body = inside(text, head.end() - 1)
        for ghost in GHOST.finditer(body):
            owner = (head[2].split(" where ")[0].strip(), head[1])
            term = inside(body, ghost.end() - 1).strip()
            found[(*owner, ghost[1])] = term
            if re.match(r"record \{.*\}$", term):
                for part in parts(inside(term, term.index("{"))):
                    name, _, value = part.partition(" = ")
                    found[(*owner, f"{ghost[1]}.{name}")] = value
    return found


def applied(term, names):
    """A term of these arguments, without blanks; nothing where it takes more."""
    term = bare(term)
    function = re.match(r"λ ([^.]*)\. (.*)$", term)
    if not function:
        return re.sub(r"\s", "", bare(" ".join([term, *names])))
    taken = function[1].split()
    if len(taken) != len(names):
        return None
    put = dict(zip(taken, names))
    return re.sub(r"\s", "", bare(re.sub(r"[\w']+", lambda it: put.get(it[0], it[0]), function[2])))


def said_again(texts):
    """Of files, each by its path: by file and law, the names of the clauses that say a ghost's own text again."""
    ghosts, found = {}, {}
    for text in texts.values():
        ghosts.update(ghosts_of(text))
    for path, text in texts.items():
        for law in LAW.finditer(text):
            body = one_line(law[2])
            for clause in ENSURES.finditer(body):
                says = SAYS.match(FOR_ALL.sub("", inside(body, clause.end() - 1).strip()))
                term = ghosts.get((says[1], says[2], says[3])) if says else None
                if term and applied(term, says[4].split()) == re.sub(r"\s", "", bare(says[5])):
                    found.setdefault((path, law[1]), []).append(clause[1] or "only")
    return found
