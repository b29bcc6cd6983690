"""The text of a message that holds itself: what contracts see of it, its members, and its calls."""
import re

from names import TERMS, TERMS_INSIDE, ordered
from oneof import OneOf

LONGEST = 120
# What a type of what a member means is in contracts, and the words in that.
TYPES = {
    "bool": ("Bool", {"Bool"}),
    "i32": ("ℤ", {"ℤ"}),
    "i64": ("ℤ", {"ℤ"}),
    "u32": ("ℕ", {"ℕ"}),
    "u64": ("ℕ", {"ℕ"}),
    "(bool, i32)": ("Bool × ℤ", {"Bool", "ℤ"}),
}


def shape(member):
    return f"⟦<{member.member_type} as Member>⟧.shape"


def cases(one):
    return f"⟦<{one.enum} as OneOf>⟧.cases"


def type_of(means):
    """A type as contracts write it, and the words in it; nothing where a message or a oneof is in it."""
    if means in TYPES:
        return TYPES[means]
    for pattern, word in ((r"Option<(.*)>", "Option"), (r"\[(.*); 0\]", "List")):
        inner = re.fullmatch(pattern, means)
        made = inner and ("ℕ", {"ℕ"}) if inner and inner[1] == "u8" else inner and type_of(inner[1])
        if inner:
            return made and (f"{word} {made[0]}" if " " not in made[0] else f"{word} ({made[0]})", made[1] | {word})
    pair = re.fullmatch(r"And<([^<>]*), (.*)>", means)
    made = pair and [type_of(pair[1]), type_of(pair[2])]
    return (f"{made[0][0]} × {side(made[1][0])}", made[0][1] | made[1][1]) if made and all(made) else None


def side(text):
    """The second of a pair, which is a pair itself only between parentheses."""
    return f"({text})" if " × " in text else text


def owned(message):
    """The members of which a message has something of its own: those of another type, and maps, whose keys it has."""
    return [k for k in message.members if k.itself in (None, "map")]


def at(message, member):
    """What a message has of its own for a member, in contracts."""
    return ".0" + ".1" * owned(message).index(member) + ".0"


def last(message):
    """What is kept: its type, its words, and what a message m has of it."""
    kept = f"(has_unknown_fields m.{kept_in(message)}.records)"
    return ("List (ℕ × FieldData)", {"List", "ℕ"}, kept) if message.is_keeping else ("Unit {0}", set(), "has_none")


def value_type(member):
    """The type of what a message has of its own for a member, as one side of a pair, and the words in it."""
    if isinstance(member, OneOf):
        return f"CaseMeaningOf {cases(member)}", set()
    if member.itself:
        return type_of(f"[{'[u8; 0]' if member.key_type == 'String' else member.key_type}; 0]")
    made = type_of(member.means)
    return (side(made[0]), made[1]) if made else (f"MeaningOf {shape(member)}", set())


def view(member):
    """What a message m has for a member, as contracts see it."""
    held = f"m.{member.in_contract}"
    if isinstance(member, OneOf):
        return f"has_case {cases(member)} {held}"
    if member.itself == "list":
        return f"has_list {held}.items"
    if member.itself == "one":
        return f"has_one (option_map (λ b. b.value) {held})"
    if member.itself:
        return f"has_map ⟦<{member.key_type} as Blank>⟧.meaning {held}.entries"
    return f"has ({shape(member)}.meaning {held})"


def uses_of_model(message, kinds):
    """What the model cites."""
    types = [value_type(k) for k in owned(message)]
    prelude = last(message)[1].union(*(words for _, words in types))
    recursive = {"MessageTree", "coded_tree", "tree_height", "tree_of"} | ({"most-of_list"} if "list" in kinds else set())
    maps, wire = {"most-of_map"} if "map" in kinds else set(), {"FieldData"} if message.is_keeping else set()
    views = {view(k).split()[0] for k in message.members} | {"has_unknown_fields" if message.is_keeping else "has_none"}
    views |= {made.split()[0] for made, _ in types if made.startswith(("MeaningOf", "CaseMeaningOf"))}
    cases = {"coded_or"} if any(isinstance(k, OneOf) for k in message.members) else set()
    made = [("Rattle.std.specs.Coded", {"codes"}), ("Rattle.std.specs.Option", {"option_map"} if "one" in kinds else set())]
    made += [("Rattle.std.specs.Prelude", prelude), ("Rattle.std.proofs.Common", {"arith"})]
    made += [(TERMS, {"coded_field_data"} | wire | cases), (TERMS_INSIDE, recursive | maps | views)]
    return [f"    ghost use {module}.{{{', '.join(ordered(words))}}};" for module, words in made if words]


def nested(head, parts, last):
    """Parts, each with those after it between parentheses."""
    return [head] + [f"        {it} (" for it in parts[:-1]] + [f"        {parts[-1]} {last}{')' * len(parts)} }};"]


def model(message):
    """What contracts see of a message, by its members, one after the other."""
    own, kinds = owned(message), {k.itself for k in message.members}
    made = [f"impl Model for {message.rust} {{"] + uses_of_model(message, kinds) + [""]
    types = [value_type(k)[0] for k in own]
    line = f"    ghost Value = {{ MessageTree ({''.join(f'{it} × (' for it in types[:-1])}{''.join(f'{it} × ' for it in types[-1:])}{last(message)[0]}{')' * max(len(types), 1)} }};"
    made += [line] if len(line) <= LONGEST else nested("    ghost Value = { MessageTree (", [f"{it} ×" for it in types], last(message)[0])
    codes = ["codes", "coded_field_data", "coded_tree"] + ["coded_or"] * any(isinstance(k, OneOf) for k in message.members)
    made += ["", f"    ghost coded = {{ Prim.hlevel ({', '.join(codes)}) }};", ""]
    made += nested("    ghost view = { λ m. tree_of (", [view(k) for k in message.members], last(message)[2])
    most = [f"most-of_list m.{k.in_contract}.items" for k in message.members if k.itself == "list"]
    most += [f"most-of_map ⟦<{k.key_type} as Blank>⟧.meaning m.{k.in_contract}.entries" for k in message.members if k.itself == "map"]
    made += ["", "    ghost size = { tree_height };", ""]
    line = f"    ghost size_decreases = {{ λ m h. Prim.grind {'(' * bool(most)}{', '.join(['arith'] + most)}{')' * bool(most)} }};"
    if len(line) > LONGEST:
        made += ["    ghost size_decreases = { λ m h. Prim.grind ("] + [f"      {it}," for it in ["arith"] + most] + ["    ) };"]
    else:
        made.append(line)
    return made + ["}", ""]


def layer(member):
    """A member in contracts."""
    if isinstance(member, OneOf):
        return f"member_one_of {cases(member)}"
    if member.itself == "map":
        return f"map_inside {member.number} ⟦<ByKey<{member.key}> as Keyed>⟧.keys"
    if member.itself:
        return f"{member.itself}_inside {member.number}"
    if member.keeps:
        return f"member_with_unknowns {member.number} {shape(member)} ⟦<{member.member_type} as KeepsUnknowns>⟧.unknowns"
    return f"member {member.number} {shape(member)}"


def layers(message):
    """The words of its members in contracts."""
    return {layer(k).split()[0] for k in message.members} | {"recursive_message", "keeps_unknown" if message.is_keeping else "skips_unknown"}


def head(message, asked):
    """What the file of a message cites besides: its members, and what it has of its own where a clause reads that."""
    reads = {"rest_of"} if any(k.has_getter for k in message.members) else set()
    return [f"ghost use {TERMS_INSIDE}.{{{', '.join(ordered(layers(message) | reads | asked))}}};"]


def laid(message, cost):
    """What a message is: what an element costs, and its members."""
    made = [f"impl RecursiveType for {message.rust} {{", f"    const COST: usize = {cost};", "", f"    ghost COST = {{ {cost} }};", ""]
    made += ["    ghost positive = { lit< tt };", ""]
    made += nested("    ghost schema = { recursive_message (", [layer(k) for k in message.members], "keeps_unknown" if message.is_keeping else "skips_unknown")
    return made + ["", "    ghost sound = { λ w. refl };", "}", ""]


def visit(message, called):
    """The function that visits the members, one after the other, and then the fields that are kept."""
    made = [f"    fn visit<V: RecursiveVisitor<{message.rust}>>(&self, visitor: &mut V) {{"]
    for k in message.members:
        if isinstance(k, OneOf):
            made.append(f"        visitor.visit_one_of(&self.{k.name});")
            continue
        word = f"visit_map::<{k.key}>" if k.itself == "map" else f"visit_{k.itself}" if k.itself else f"visit::<{k.member_type}>"
        word = f"visit_with_unknowns::<{k.member_type}>" if k.keeps else word
        made += called("        ", f"visitor.{word}", [str(k.number), f"&self.{k.name}"], ";")
    made += [f"        visitor.visit_unknown_fields(&self.{kept_in(message)});"] * message.is_keeping
    return made + ["    }", ""]


def kept_in(message):
    """The member of the fields that aren't declared."""
    return "unknown_fields.fields" if message.rest else "unknown_fields"


def arm(message, member):
    """The call that takes a field of a member, and what it is passed."""
    args = [f"&mut self.{member.name}"] + [f"&mut self.{kept_in(message)}"] * member.keeps + ["alloc", "tag", "buf", "ctx"]
    if isinstance(member, OneOf):
        return "take_one_of", args
    if not member.itself:
        return f"{member.member_type.replace('<', '::<', 1)}::{'merge_with_unknowns' if member.keeps else 'merge'}", args
    call = f"take_map::<{member.key}, {message.rust}, I>" if member.itself == "map" else f"take_{member.itself}"
    return call, args + ["inner"]


def take(message, called):
    """The function that takes a field."""
    head = ["&mut self", "alloc: Global", "tag: Tag", "buf: &mut &[u8]", "ctx: DecodeContext<'_>", "inner: &I"]
    made = [f"    fn take<I: InnerMerger<{message.rust}>>("] + [f"        {it}," for it in head]
    made += ["    ) -> Result<(), DecodeError> {", "        match tag.field_number() {"]
    for k in message.members:
        call, args = arm(message, k)
        for number in [it.number for it in getattr(k, "cases", [k])]:
            made += called("            ", f"{number} => {call}", args, ",")
    other = f"unknown::keep(alloc, &mut self.{kept_in(message)}, tag, buf, ctx)" if message.is_keeping else "unknown::pass(tag, buf, ctx)"
    return made + [f"            _ => {other},", "        }", "    }"]


def form(message, cost, blank, called):
    """All that makes a struct a message that holds itself."""
    name = message.rust
    made = model(message) + laid(message, cost)
    made += [f"impl RecursiveFields for {name} {{"] + visit(message, called) + take(message, called) + ["}", ""]
    made += [f"impl Blank for {name} {{", f"    type Meaning = {name};", "", "    ghost meaning = { λ m. m };", ""]
    made += [f"    ghost blank_is = {{ ⟦<{name} as RecursiveType>⟧.schema.into ⟦<{name} as RecursiveType>⟧.schema.blank }};", ""]
    made += blank + ["}", "", f"impl RecursiveMeaning for {name} {{", "    ghost means = { λ m. refl };", "", "    ghost starts = { refl };", "}", ""]
    return made + [f"impl MessageImpl for {name} {{", "    type Impl = RecursiveFieldByField;", "}"]


def names_of(message):
    """The names that the form has."""
    return set("Blank MessageImpl RecursiveType Model RecursiveFields RecursiveFieldByField RecursiveMeaning InnerMerger RecursiveVisitor".split())
