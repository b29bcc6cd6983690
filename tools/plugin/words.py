"""The words of a message: a file of specs, by which contracts say what its members mean by their names, and not by their places in pairs."""
import re

import recursive
from blocks import Block, pieces
from files import clean
from names import ESCAPED, KEYWORDS
from oneof import OneOf, nested

TERMS = "Rattle.buffa_fields.specs.Terms"
OR = "Rattle.buffa_fields.specs.declared.meaning.Or"
TREE = "Rattle.buffa_recursive.specs.MessageTree"
# Where a file imports its words from; those of the last three in messages that hold themselves alone.
PLAIN = {
    **{it: "Rattle.std.specs.Prelude" for it in ("Bool", "List", "Option", "ℕ", "ℤ")},
    **{it: f"{OR}.TheVariants" for it in ("Other", "This")},
    "FieldData": TERMS,
    "Or": OR,
}
OF_TREES = {
    **{it: TREE for it in ("MessageTree", "children_list", "head_many", "head_one", "many", "of_list")},
    **{it: TREE for it in ("of_option", "one", "option_of", "rest_of", "tail_inner", "tree_of")},
    **{it: "Rattle.buffa_recursive.specs.MapTree" for it in ("child_pairs", "keys_in", "values_in")},
}
# Names that no definition may have: tactics, and what is there without an import.
RESERVED = set("assumption cc grind ground grw hlevel omega rw search simp subst Unit tt absurd".split())
LONGEST = 120


class Words:
    """The words of a message: the names that contracts have for its members and cases, and the types of what these mean."""

    def __init__(self, message):
        self.message, self.named, self.others = message, {}, []
        self.module = PLAIN | (OF_TREES if message.holds_itself else {})
        for it in [each for k in message.members for each in (k, *getattr(k, "cases", ()))]:
            self.name(it, it.name)
        if message.is_keeping:
            self.name(None, "unknown_fields")
        words = set(self.named.values())
        self.words = words | {f"with_{it}" for it in words}
        self.m, self.x, self.meaning, self.own = (self.free(it) for it in ("m", "x", "Meaning", "Own"))
        # The types of all members, by which it is known of which messages they are.
        self.types = {k: self.type_of_member(k) for k in message.members if not k.itself}

    def name(self, it, name):
        """Gives a member or a case its word: with `_` behind it where the language, the file or another word has the name."""
        word, taken = name if name[0] != "_" else f"of{name}", set(self.named.values())
        taken |= {f"with_{each}" for each in taken} | {each.removeprefix("with_") for each in taken if each.startswith("with_")}
        while word in taken or word in KEYWORDS | ESCAPED | RESERVED | set(self.module):
            word += "_"
        self.named[it] = word

    def changed(self):
        """The members and cases that have another name in contracts, and this name."""
        return [(it, word) for it, word in self.named.items() if it and word != it.name]

    def free(self, name):
        """A name of the file's own, that is none of its words: no .proto has a prime in a name."""
        return name + "'" if name in self.words else name

    def type_name(self, rust):
        """What a message in it, or its oneof, is called among the types of the file."""
        return rust + "'" * (rust in self.words | ESCAPED | {"Meaning", "Own"} | set(self.module))

    def variable(self, means):
        """What a message means, which is a variable of the file, or nothing where a type is none."""
        found = re.fullmatch(r"<(\w+) as Blank>::Meaning", means)
        name = found and self.type_name(found[1])
        if name and name not in self.others:
            self.others.append(name)
        return name

    def type_of(self, means):
        """A type as contracts write it."""
        if means in recursive.TYPES:
            return recursive.TYPES[means][0]
        for pattern, word in ((r"Option<(.*)>", "Option"), (r"\[(.*); 0\]", "List")):
            inner = re.fullmatch(pattern, means)
            if inner:
                return f"{word} {argument('ℕ' if inner[1] == 'u8' else self.type_of(inner[1]))}"
        pair = re.fullmatch(r"And<([^<>,]*), (.*)>", means)
        return f"{side(self.type_of(pair[1]))} × {side(self.type_of(pair[2]))}" if pair else self.variable(means)

    def type_of_member(self, member):
        """The type of what a member means; of one of the message's own type, by that of the message."""
        if isinstance(member, OneOf):
            return f"Option {argument(self.cases_of(member))}"
        if not member.itself:
            return self.type_of(member.means)
        if member.itself == "map":
            return f"List ({side(self.keys_of(member))} × {self.applied()})"
        return f"{'List' if member.itself == 'list' else 'Option'} {argument(self.applied())}"

    def keys_of(self, member):
        return self.type_of("[u8; 0]" if member.key_type == "String" else member.key_type)

    def inside(self, one):
        """The variables of the messages in a oneof."""
        return list(dict.fromkeys(filter(None, (self.variable(k.said) for k in one.cases))))

    def cases_of(self, one):
        """The type of what the cases of a oneof mean, by its name."""
        return " ".join([self.type_name(one.enum), *self.inside(one)])

    def applied(self):
        """The type of what the message means, by its name."""
        return " ".join([self.meaning, *self.others])

    def last(self):
        """The type of what is kept."""
        return "List (ℕ × FieldData)" if self.message.is_keeping else "Unit {0}"


def side(text):
    """A type as one side of a pair: between parentheses where it is one itself."""
    depths = [text[:at].count("(") - text[:at].count(")") for at, it in enumerate(text) if it == "×"]
    return f"({text})" if 0 in depths else text


def argument(text):
    """A type as an argument: between parentheses where it has several words."""
    return f"({text})" if " " in text else text


def paired(types):
    """The type of pairs of what has these types, each in the one before."""
    return nested([side(it) for it in types], lambda a, b: f"{a} × {side(b)}")


def binder(names):
    """What binds variables in front of a type."""
    return f"{{{' '.join(names)} : Type 0}} → " if names else ""


def step(at, count, place):
    """The one at a place of so many things that are pairs, each in the one before: the last is no pair."""
    return at + ".1" * place + ".0" * (place < count - 1)


def put(at, count, place, value):
    """These things with another one at a place."""
    behind = [at + ".1" * (place + 1)] * (place < count - 1)
    return nested([step(at, count, it) for it in range(place)] + [value] + behind, lambda a, b: f"({a}, {b})")


def type_named(name, names, lines):
    """A definition of a type, of some variables."""
    head = " ".join([name, *names])
    made = [f"abbrev pub {name} : {'Type 0 → ' * len(names)}Type 0"]
    return made + ([f"{head} = {lines[0]}"] if len(lines) == 1 else [f"{head} =", *(f"    {it}" for it in lines)])


def lines_of_pairs(types):
    """The same type as `paired` says, on a line, or with each part on one of its own."""
    line = paired(types)
    if len(line) <= LONGEST - 20:
        return [line]
    return [f"{side(it)} × (" for it in types[:-1]] + [f"{types[-1]}{')' * (len(types) - 1)}"]


def places(words):
    """Of each member of a message, and of what it keeps, what it is in a meaning, and that meaning with another one."""
    members, m, x = pieces(words.message), words.m, words.x
    count, made = len(members) + 1, {}
    for at, piece in enumerate(members):
        if isinstance(piece, Block):
            block = step(m, count, at)
            for within, k in enumerate(piece.members):
                size = len(piece.members)
                made[k] = step(block, size, within), put(m, count, at, put(block, size, within, x))
        else:
            made[piece] = step(m, count, at), put(m, count, at, x)
    made[None] = step(m, count, count - 1), put(m, count, count - 1, x)
    return made


def places_in_tree(words):
    """The same of a message that holds itself: what it has of its own, and its slots."""
    message, m, x = words.message, words.m, words.x
    own, slots, made = recursive.owned(message), [k for k in message.members if k.itself], {}
    first, others = f"(rest_of {m}).0", f"(rest_of {m}).1"
    count = len(own) + 1
    for at, k in enumerate([*own, None]):
        made[k] = step(first, count, at), f"tree_of ({put(first, count, at, x)}, {others})"
    for at, k in enumerate(slots):
        head = f"head_{'one' if k.itself == 'one' else 'many'} {tail(others, at)}"
        value = {"list": f"many (of_list {x})", "one": f"one (of_option {x})", "map": f"many (values_in {x})"}[k.itself]
        new = f"{value} {tail(others, at + 1)}"
        for before in reversed(range(at)):
            word = "one" if slots[before].itself == "one" else "many"
            new = f"{word} (head_{word} {tail(others, before)}) ({new})"
        if k.itself == "map":
            keys = own.index(k)
            made[k] = f"child_pairs {step(first, count, keys)} ({head})", f"tree_of ({put(first, count, keys, f'keys_in {x}')}, {new})"
        else:
            made[k] = f"{'option_of' if k.itself == 'one' else 'children_list'} ({head})", f"tree_of ({first}, {new})"
    return made


def tail(slots, count):
    """What is behind so many slots."""
    for _ in range(count):
        slots = f"(tail_inner {slots})"
    return slots


def meaning(words):
    """The types of what the message means, and of what its oneofs do."""
    message, made = words.message, []
    for one in message.oneofs:
        groups = [nested([words.type_of(k.said) for k in cases] + ["Unit {0}"], either) for cases in one.groups()]
        made += type_named(words.type_name(one.enum), words.inside(one), [nested(groups, either)]) + [""]
    if message.holds_itself:
        own = [f"List {argument(words.keys_of(k))}" if k.itself else words.types[k] for k in recursive.owned(message)]
        made += type_named(words.own, words.others, lines_of_pairs([*own, words.last()])) + [""]
        return made + type_named(words.meaning, words.others, [f"MessageTree {argument(' '.join([words.own, *words.others]))}"])
    types = [paired([words.types[k] for k in it.members]) if isinstance(it, Block) else words.types[it] for it in pieces(message)]
    return made + type_named(words.meaning, words.others, lines_of_pairs([*types, words.last()]))


def either(first, others):
    """The type of the first of two, or of the others."""
    return f"Or {argument(first)} {argument(others)}"


def member(words, it, said, kind, place):
    """The words of a member: what it is, and a meaning that has another one."""
    name, whole, bound = words.named[it], words.applied(), binder(words.others)
    made = [""] + [f"-- {line}" for line in said]
    made += [f"abbrev pub {name} : {bound}{whole} → {kind}", f"{name} {words.m} = {place[0]}"]
    made += ["", f"abbrev pub with_{name} : {bound}{kind} → {whole} → {whole}", f"with_{name} {words.x} {words.m} = {place[1]}"]
    return made


def case(words, one, at):
    """The word of a case."""
    k, steps = one.cases[at], one.way(at)
    name, value = words.named[k], f"{''.join(f'{it} (' for it in steps[:-1])}{steps[-1]} {words.x}{')' * (len(steps) - 1)}"
    made = [f"abbrev pub {name} : {binder(words.inside(one))}{words.type_of(k.said)} → {words.cases_of(one)}"]
    return ["", f"-- {clean(k.declared())}", *made, f"{name} {words.x} = {value}"]


def said_of(member):
    """A member as the .proto has it, for a comment of one line each."""
    return [f"oneof {member.it.name}"] if isinstance(member, OneOf) else [clean(member.declared())]


def text(message):
    """The file of a message's words."""
    words = Words(message)
    found = places_in_tree(words) if message.holds_itself else places(words)
    made = meaning(words)
    for k in message.members:
        made += member(words, k, said_of(k), words.type_of_member(k), found[k])
        for at in range(len(getattr(k, "cases", ()))):
            made += case(words, k, at)
    if message.is_keeping:
        made += member(words, None, ["the fields that aren't declared"], words.last(), found[None])
    head = [f"-- Words for what {message.name.full} means, made of {message.name.file.shown} by protoc-gen-buffa."]
    return "\n".join(head + uses(words, made) + [""] + made) + "\n"


def uses(words, made):
    """The lines that import what the definitions cite."""
    code, found = "\n".join(it for it in made if not it.startswith("--")), {}
    for word, module in words.module.items():
        if re.search(rf"(?<![\w'.]){word}(?![\w'])", code):
            found.setdefault(module, []).append(word)
    return [f"use {module}.{{{', '.join(sorted(it))}}}" for module, it in sorted(found.items())]


def tell(message):
    """Says which members and cases have another name in contracts."""
    for it, word in Words(message).changed():
        message.world.tell(f"{it.field.at()}: in contracts it is called {word}")


def files(world, made):
    """The files of the words of a run's messages, and one that names them."""
    if not world.words:
        return []
    names, module = sorted(module_of(it.rust) for it in made), module_of(world.module)
    folder = "/".join(["../specs", module] if module else ["../specs"])
    for message in made:
        tell(message)
    found = [(f"{folder}/{module_of(it.rust)}.antt", text(it)) for it in made]
    head = f"-- Words for what messages mean, a file for each, made of {', '.join(f.shown for f in world.asked)} by protoc-gen-buffa.\n"
    return found + [(f"{folder}.antt", head + "".join(f"pub mod {it}\n" for it in names))] * bool(module)


def module_of(name):
    """The module of specs that is called so, with `_` behind it where the language has the name."""
    return name + "_" if name in ESCAPED | {"Lib", "contracts", "declared"} else name
