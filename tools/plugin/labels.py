"""The names that a .proto has, as calls: of a message its full name and the names of its fields, of an enum those of its values."""
import re

from names import place
from oneof import OneOf

WIDTH = 100
LONGEST = 120
# As many fields, and as many names of values, are tested one after the other: of more some stand together, since the checker's work for
# one test is that for all before it.
MOST_FIELDS = 24
MOST_NAMES = 12


def full_name(name, kind):
    """The constant of a full name."""
    line = "    pub const FULL_NAME: &'static str ="
    made = [f"    /// The full name of the {kind}."]
    return made + ([f'{line} "{name.full}";'] if len(line) + len(name.full) + 4 <= WIDTH else [line, f'        "{name.full}";'])


def chain(indent, parts, last):
    """An `if` of contracts, with a test on each line, and behind the last what is there where none holds."""
    return [f"{indent}{it} else" for it in parts] + [indent + last]


def arm(indent, head, value):
    """An arm of a `match`, on one line or, where it is too long, in braces."""
    line = f"{indent}{head} => {value},"
    return [line] if len(line) <= WIDTH else [f"{indent}{head} => {{", f"{indent}    {value}", f"{indent}}}"]


def in_groups(items, size):
    """The items one after the other, in as few groups as can be, of as many each or one more."""
    count = -(-len(items) // size)
    ends = [len(items) * at // count for at in range(count + 1)]
    return [items[ends[at] : ends[at + 1]] for at in range(count)]


def fields_of(message):
    """The fields that have members, in the order of their numbers: of a oneof its cases."""
    return sorted((f for k in message.members for f in (k.cases if isinstance(k, OneOf) else [k])), key=lambda k: k.number)


def parts_of_clause(chains):
    """A clause that is what the first of some chains gives, or else the next: the lines of all, one after the other."""
    made = []
    for chained in chains[:-1]:
        made += ["            option_or (", *chained[:-1], f"{chained[-1]}) ("]
    return made + [*chains[-1][:-1], f"{chains[-1][-1]}{')' * len(chains)} }}"]


def in_turn(name, of, argument, count):
    """The body of a function that asks others in turn, until one has an answer."""
    made = ["    {"]
    for at in range(1, count):
        made += [f"        if let Some(found) = {of}::{name}_{at}({argument}) {{", "            return Some(found);", "        }"]
    return made + [f"        {of}::{name}_{count}({argument})", "    }"]


def by_groups(doc, head, clause, groups, of, argument):
    """A function of some tests; or, where they are many, one for each group of them, and one that asks these in turn.

    A group has a word for it, the tests as contracts have them, and the arms of its match.
    """
    name = re.search(r"fn (\w+)\(", head)[1]
    made = [[doc, f"    pub {head}", f"        ensures {{ {clause} ≡ (", *parts_of_clause([tests for _, tests, _ in groups])]]
    if len(groups) > 1:
        made[0] += in_turn(name, of, argument, len(groups))
        made += [
            [f"    // The same, of {said} alone.", f"    {head.replace(name, f'{name}_{at + 1}', 1)}", f"        ensures {{ {clause} ≡ (", *parts_of_clause([tests])]
            for at, (said, tests, _) in enumerate(groups)
        ]
    for at, (_, _, arms) in enumerate(groups):
        part = made[at + 1 if len(groups) > 1 else 0]
        part += ["    {", f"        match {argument} {{", *arms, "            _ => None,", "        }", "    }"]
    return made


def field_names(message):
    """The functions from the number of a field to its name."""
    doc = "    /// The name in the `.proto` of the field that has this number; none where the message has no member for it."
    if not fields_of(message):
        head = "    pub fn field_name(_number: u32) -> Option<&'static str>"
        return [[doc, head, "        ensures { result ≡ None }", "    {", "        None", "    }"]]
    groups = []
    for group in in_groups(fields_of(message), MOST_FIELDS):
        tests = chain(" " * 12, [f'if number == {k.number} then Some (codes "{k.it.name}")' for k in group], "None")
        arms = [line for k in group for line in arm(" " * 12, k.number, f'Some("{k.it.name}")')]
        groups.append((f"{group[0].it.name} to {group[-1].it.name}", tests, arms))
    head = "fn field_name(number: u32) -> Option<&'static str>"
    return by_groups(doc, head, "option_map (λ name. name.now) result", groups, message.rust, "number")


def is_asked(it):
    """Whether the names of fields and values are asked for."""
    return bool(it.world.names)


def words_of_message(message):
    """The words of std that the clauses of a message have."""
    if not is_asked(message):
        return set()
    if not message.members:
        return {"None", "◌≡◌"}
    return {"None", "Some", "◌≡◌", "◌==◌", "codes", "if◌then◌else◌", "option_map"}


def uses_of_message(message):
    """The line of an impl by which its clauses have the word for one answer or else another."""
    is_in_groups = is_asked(message) and len(fields_of(message)) > MOST_FIELDS
    return ["    ghost use Rattle.std.specs.Option.{option_or};"] * is_in_groups


def of_message(message):
    """What a message is called: its parts, one after the other."""
    return [full_name(message.name, "message")] + (field_names(message) if is_asked(message) else [])


def names_in(enum):
    """Each name of a value, also where the value has several, with the value that has it."""
    return [(it.name, enum.by_name[it.name][1]) for it in enum.name.it.value]


def proto_name(enum):
    """The function from a value to its name."""
    made = ["    /// The name of the value in the `.proto`, the first where it has several.", "    pub fn proto_name(&self) -> &'static str"]
    parts = [f'{v} ↦ codes "{value.it.name}"' for v, _, value in enum.values]
    line = f"        ensures {{ result.now ≡ elim self.now [ {' | '.join(parts)} ] }}"
    long = ["        ensures { result.now ≡ elim self.now ["] + [f"          | {it}" for it in parts] + ["        ] }"]
    made += [line] if len(line) <= LONGEST else long
    made += ["    {", "        match self {"]
    made += [line for v, _, value in enum.values for line in arm(" " * 12, f"{enum.rust}::{v}", f'"{value.it.name}"')]
    return made + ["        }", "    }"]


def from_proto_names(enum):
    """The functions from a name to its value."""
    groups = []
    for names in in_groups(names_in(enum), MOST_NAMES):
        tests = chain(" " * 12, [f'if bytes_eq name.now (codes "{name}") then Some {v}' for name, v in names], "None")
        arms = [line for name, v in names for line in arm(" " * 12, f'"{name}"', f"Some({enum.rust}::{v})")]
        groups.append((f"{names[0][0]} to {names[-1][0]}", tests, arms))
    doc = "    /// The value that has this name in the `.proto`; none where no value has it."
    return by_groups(doc, f"fn from_proto_name(name: &str) -> Option<{enum.rust}>", "result", groups, enum.rust, "name")


def uses_of_enum(enum, variants):
    """The lines of an impl by which its clauses have their words."""
    if not is_asked(enum):
        return []
    made = ["    ghost use Rattle.std.specs.Prelude.{None, Some, codes, if◌then◌else◌, ◌≡◌};"]
    made += ["    ghost use Rattle.std.specs.Option.{option_or};"] * (len(names_in(enum)) > MOST_NAMES)
    return made + ["    ghost use Rattle.std.specs.Str.{bytes_eq};", f"    ghost use {variants};"]


def of_enum(enum):
    """What an enum and its values are called: its parts, one after the other."""
    return [full_name(enum.name, "enum")] + ([proto_name(enum), *from_proto_names(enum)] if is_asked(enum) else [])


def handed_on(types):
    """The types that a module hands on, by the names of their files, and those that it doesn't: their names differ in capitals alone."""
    count, by_file, apart = {}, {}, []
    for _, rust in types:
        count[rust.lower()] = count.get(rust.lower(), 0) + 1
    for file, rust in sorted(types, key=lambda it: (place(it[0]), place(it[1]))):
        if count[rust.lower()] > 1:
            apart.append(f"{file}::{rust}")
        else:
            by_file.setdefault(file, []).append(rust)
    return by_file, apart
