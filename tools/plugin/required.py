"""What a message requires: the call that says whether it is there, in the messages inside too."""
from google.protobuf.descriptor_pb2 import FieldDescriptorProto as Field

import recursive
from blocks import Block, pieces
from oneof import OneOf

WIDTH = 100
LONGEST = 120


class Asked:
    """Of one message the members that have to be there, those whose messages are looked into, and those of its own type."""

    def __init__(self, message, messages, needing):
        self.message = message
        self.needing = needing
        for one in message.oneofs:
            one.asked = [k for k in one.cases if self.is_looked(k, messages)]
        self.there = [k for k in message.members if k.is_required and k.rust.startswith("Option<")]
        self.looked = [k for k in message.members if (k.asked if isinstance(k, OneOf) else self.is_looked(k, messages))]
        self.itself = [k for k in message.members if k.itself]
        # Whether a message that holds itself has it inside: then it says by what it means whether all is there.
        self.is_inside = False

    def is_looked(self, member, messages):
        """Whether the messages of a member are looked into: in a message that holds itself, where they say it by what they mean."""
        inside = self.needing & set(member.inside)
        says = not self.message.holds_itself or all(says_by_meaning(messages[it], messages, self.needing) for it in inside)
        return bool(inside) and "optional" not in member.told and says

    def inside(self):
        """The messages that are looked into, but for those of its own type."""
        return {it for k in self.looked_cases() for it in k.inside if it in self.needing}

    def looked_cases(self):
        return [it for k in self.looked for it in (k.asked if isinstance(k, OneOf) else [k])]

    def looked_fields(self):
        """The fields whose messages are looked into."""
        return sorted(self.looked_cases() + self.itself, key=lambda k: k.number)

    def is_asked(self):
        return bool(self.there or self.looked)

    def parts(self):
        """What is asked, one after the other: of each part its term in contracts, and its call."""
        if self.message.holds_itself:
            return self.own_parts()
        there = [(f"is_some m.{k.in_contract}", f"self.{k.name}.is_some()") for k in self.there]
        looked = [(f"⟦<{k.rust} as Required>⟧.initialized m.{k.in_contract}", f"self.{k.name}.is_initialized()") for k in self.looked]
        return there + looked

    def own_parts(self):
        """The same of what a message that holds itself has of its own."""
        there = [(f"is_some {held(self.message, k)}", f"self.{k.name}.is_some()") for k in self.there]
        return there + [(meant(k, held(self.message, k)), call_of(k)) for k in self.looked]


def says_by_meaning(message, messages, needing):
    """Whether a message says by what it means whether all is there: not where another crate has it, or one in it."""
    inside = set() if message.holds_itself else {it for k in message.fields for it in k.inside if it in needing}
    return not message.world.is_mapped(message.name.full) and all(says_by_meaning(messages[it], messages, needing) for it in inside)


def held(message, member):
    """What a message m that holds itself has for a member, in contracts."""
    if member.itself:
        slots = [k for k in message.members if k.itself]
        count = slots.index(member)
        return f"(option_of (head_one {'(tail_slots ' * count}(rest_of m).1{')' * count}))"
    return f"(rest_of m){recursive.at(message, member)}"


def meant(member, at):
    """Whether what a member means, which stands there, has all that is required."""
    if isinstance(member, OneOf):
        return f"true_if_there ⟦<{member.enum} as RequiredCases>⟧.by_meaning {at}"
    return f"⟦<{member.member_type} as RequiredMember>⟧.by_meaning {at}"


def call_of(member):
    if isinstance(member, OneOf):
        return f"{member.enum}::case_initialized(&self.{member.name})"
    return f"{member.member_type.replace('<', '::<', 1)}::part_initialized(&self.{member.name})"


def requiring(world):
    """The messages in which something is required, of them or of messages in them at any depth, by their full names."""
    inside, found = {}, set()
    for full, name in world.found.items():
        fields = [it for it in getattr(name.it, "field", []) if f"{full}.{it.name}" not in world.left | world.fields["optional"]]
        inside[full] = {world.target(it) for it in fields}
        found |= {full} if any(it.label == Field.LABEL_REQUIRED for it in fields) else set()
    more = found
    while more:
        more = {full for full, targets in inside.items() if targets & more} - found
        found |= more
    return found


def find_passed(world, messages):
    """Gives each message the fields in whose messages something is required, and that no call looks into."""
    found = requiring(world)
    for message in messages.values():
        looked = message.asked.looked_fields() if message.asked else []
        message.passed = [k for k in message.fields if k not in looked and "optional" not in k.told and world.target(k.it) in found]


def find_required(messages):
    """Gives each message what is asked of it: nothing, where nothing is required of it or of a message in it."""
    needing, before = set(), None
    while needing != before:
        before = set(needing)
        for full, message in messages.items():
            message.asked = Asked(message, messages, needing)
            if message.asked.is_asked():
                needing.add(full)
    for full in set(messages) - needing:
        messages[full].asked = None
    find_inside(messages, needing)


def find_inside(messages, needing):
    """Says of each message whether one that holds itself has it inside, at any depth."""
    more = set().union(*(messages[it].asked.inside() for it in needing if messages[it].holds_itself))
    while more:
        for full in more:
            messages[full].asked.is_inside = True
        found = set().union(*(messages[it].asked.inside() for it in more if not messages[it].holds_itself))
        more = {it for it in found if not messages[it].asked.is_inside}


def words(message):
    """The words of std that the term of a message has."""
    if not message.asked:
        return set()
    return ({"is_some"} if message.asked.there else set()) | ({"◌&&◌"} if len(message.asked.parts()) > 1 else set())


def terms(message):
    """The words of `buffa_recursive` that its terms have."""
    asked = message.asked
    if not asked or not (message.holds_itself or asked.is_inside):
        return set()
    found = {"true_if_there"} if any(isinstance(k, OneOf) for k in asked.looked) else set()
    if message.holds_itself:
        found |= {"each_asked", "rest_of"}
        found |= {"head_one", "option_of"} if any(k.itself for k in asked.there) else set()
        found |= {"tail_slots"} if any("tail_slots" in held(message, k) for k in asked.there) else set()
    return found


def names_of(message):
    """The names that the impls have."""
    asked = message.asked
    if not asked:
        return set()
    found = {"Required"} | ({"RequiredMeaning"} if asked.is_inside else set())
    if message.holds_itself:
        found |= {"SelfAsked", "SelfAsker", "SelfRequired", "tree_initialized"} | {f"{k.itself}_initialized" for k in asked.itself}
    elif not asked.is_inside:
        return found
    found |= {"RequiredCases"} if any(isinstance(k, OneOf) for k in asked.looked) else set()
    return found | ({"RequiredMember"} if any(not isinstance(k, OneOf) for k in asked.looked) else set())


def initialized(message):
    """The impls of what is asked of a message, if anything is."""
    if not message.asked:
        return []
    if message.holds_itself:
        return self_required(message)
    return by_meaning(message) if message.asked.is_inside else required(message)


def required(message):
    """The impl of `Required`."""
    found, calls = zip(*message.asked.parts())
    made = ["", f"impl Required for {message.rust} {{"] + rows("    ghost initialized = { λ m. ", found, " };", " &&", LONGEST) + [""]
    return made + ["    fn is_initialized(&self) -> bool {"] + sum_of(calls) + ["    }", "}"]


def self_required(message):
    """The impls of a message that holds itself: what is asked of each, and the call for all."""
    found, calls = zip(*message.asked.parts())
    name, itself = message.rust, [f"{k.itself}_initialized(&self.{k.name}, inner)" for k in message.asked.itself]
    made = ["", f"impl SelfAsked for {name} {{", f"    ghost tree = {{ ⟦<{name} as RecursiveType>⟧.schema }};", ""]
    made += rows("    ghost asking = { each_asked (λ m. ", found, ") };", " &&", LONGEST) + ["}", "", f"impl SelfRequired for {name} {{"]
    made += [f"    fn is_initialized_by<I: SelfAsker<{name}>>(&self, inner: &I) -> bool {{"] + sum_of([*calls, *itself]) + ["    }", "}", ""]
    made += [f"impl Required for {name} {{", f"    ghost initialized = {{ ⟦<{name} as SelfAsked>⟧.asking.whole }};", ""]
    made += ["    fn is_initialized(&self) -> bool {", "        tree_initialized(self)", "    }", "}"]
    if not message.asked.is_inside:
        return made
    made += ["", f"impl RequiredMeaning for {name} {{", f"    ghost by_meaning = {{ ⟦<{name} as Required>⟧.initialized }};", ""]
    return made + ["    fn meaning_initialized(&self) -> bool {", "        self.is_initialized()", "    }", "}"]


def by_meaning(message):
    """The impls of a message inside one that holds itself: by what it means, and so the call."""
    name, asked = message.rust, message.asked
    found = [f"is_some y{place(message, k)}" for k in asked.there] + [meant(k, f"y{place(message, k)}") for k in asked.looked]
    calls = [f"self.{k.name}.is_some()" for k in asked.there] + [call_of(k) for k in asked.looked]
    made = ["", f"impl RequiredMeaning for {name} {{"] + rows("    ghost by_meaning = { λ y. ", found, " };", " &&", LONGEST)
    made += ["", "    fn meaning_initialized(&self) -> bool {"] + sum_of(calls) + ["    }", "}", "", f"impl Required for {name} {{"]
    made += [f"    ghost initialized = {{ λ m. ⟦<{name} as RequiredMeaning>⟧.by_meaning (⟦<{name} as Blank>⟧.meaning m) }};", ""]
    return made + ["    fn is_initialized(&self) -> bool {", "        self.meaning_initialized()", "    }", "}"]


def place(message, member):
    """Where what a member means stands in what its message does."""
    for at, piece in enumerate(pieces(message)):
        if piece is member:
            return ".1" * at + ".0"
        if isinstance(piece, Block) and member in piece.members:
            within = piece.members.index(member)
            return ".1" * at + ".0" + ".1" * within + ".0" * (within + 1 < len(piece.members))
    return ""


def says_cases(one, message):
    """Whether the enum of a oneof says by what its cases mean whether all is there."""
    return bool(one.asked and message.asked and (message.holds_itself or message.asked.is_inside))


def names_of_enum(one, message):
    made = {"Required"} if one.asked else set()
    return made | ({"RequiredCases", "RequiredMeaning"} if says_cases(one, message) else set())


def head_of_enum(one, message):
    if not one.asked:
        return []
    by_cases = says_cases(one, message)
    made = ["ghost use Rattle.std.specs.Prelude.{true};"] * (by_cases or len(one.asked) < len(one.cases))
    return made + [f"ghost use {recursive.TERMS_INSIDE}.{{by_case}};"] * by_cases


def initialized_enum(one, message):
    """The impl of `Required` for the enum of a oneof."""
    if not one.asked:
        return []
    others = len(one.asked) < len(one.cases)
    made = ["", f"impl Required for {one.enum} {{", "    ghost initialized = { elim ["]
    made += [f"      | {k.in_elim} x ↦ ⟦<{k.value} as Required>⟧.initialized x" for k in one.asked]
    made += ["      | _ ↦ true"] * others + ["    ] };", "", "    fn is_initialized(&self) -> bool {", "        match self {"]
    made += [f"            {one.enum}::{k.variant}(it) => it.is_initialized()," for k in one.asked]
    made += ["            _ => true,"] * others + ["        }", "    }", "}"]
    return made + (cases_by_meaning(one) if says_cases(one, message) else [])


def cases_by_meaning(one):
    """The impl by which the enum of a oneof says it by what its cases mean."""
    groups = []
    for cases in one.groups():
        made = "(λ _. true)"
        for case in reversed(cases):
            of = f"⟦<{case.value} as RequiredMeaning>⟧.by_meaning" if case in one.asked else "(λ _. true)"
            made = f"(by_case {of} {made})"
        groups.append(made)
    tree = groups[-1]
    for group in reversed(groups[:-1]):
        tree = f"(by_case {group} {tree})"
    made = ["", f"impl RequiredCases for {one.enum} {{", f"    ghost by_meaning = {{ {tree[1:-1]} }};", ""]
    made += [f"    fn case_initialized(part: &Option<{one.enum}>) -> bool {{", "        match part {"]
    made += [f"            Some({one.enum}::{k.variant}(it)) => it.meaning_initialized()," for k in one.asked]
    return made + ["            _ => true,", "        }", "    }", "}"]


def rows(head, parts, tail, by, width):
    """Parts with a word between them, as many as fit on each line."""
    made = [head + parts[0]]
    for part in parts[1:]:
        made[-1] += by
        if len(made[-1]) + len(part) + 1 + len(tail) <= width:
            made[-1] += f" {part}"
        else:
            made.append(f"        {part}")
    return made[:-1] + [made[-1] + tail]


def sum_of(calls):
    """The calls as one bool: without `&&`, since each is a branch, and of many branches the checker finds no proof."""
    line = f"        {' & '.join(calls)}"
    if len(line) <= WIDTH:
        return [line]
    return [f"        {calls[0]}"] + [f"            & {it}" for it in calls[1:]]
