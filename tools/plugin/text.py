"""The text of a file: a message from its fields, or an enum, laid out as rt fmt has it."""
import re

import blocks
import discard
import getters
import recursive
import labels
import limits
import oneof
import packed
import places
import required
import sets
from derived import derives, says_what_is_missing
from names import MODULE, TERMS, TERMS_INSIDE, ordered, place, snake

WIDTH = 100
CALL_WIDTH = 60
LITERAL_WIDTH = 18
LONGEST = 120


def uses(world, names, own, module_of=MODULE, local=lambda name: name):
    """The use lines of names, whose modules are given, and of types of the .proto's, which are given by their full names, as a file calls them."""
    by_module = {}
    for name in names:
        by_module.setdefault(module_of[name], set()).add(name)
    for full in own:
        name = world.types[full]
        by_module.setdefault(world.module_of(full), set()).add(name if local(name) == name else f"{name} as {local(name)}")

    def order(module):
        """Where rt fmt puts a line: a name that stands alone among the modules, and names in braces behind them."""
        last = [(1, place(it)) for it in by_module[module]] if len(by_module[module]) == 1 else [(9, [])]
        return not module.startswith("crate::"), [(1, place(it)) for it in module.split("::")] + last

    modules = sorted(by_module, key=order)
    made = []
    for module in modules:
        made += use_line(module, ordered(by_module[module]))
    return made


def use_line(module, names, word="use"):
    if len(names) == 1:
        return [f"{word} {module}::{names[0]};"]
    line = f"{word} {module}::{{{', '.join(names)}}};"
    if len(line) < WIDTH - 1:
        return [line]
    made, row = [f"{word} {module}::{{"], "   "
    for name in names:
        if len(row) + len(name) + 2 >= WIDTH:
            made.append(row)
            row = "   "
        row += f" {name},"
    return made + [row, "};"]


def called(indent, head, args, tail, limit=CALL_WIDTH):
    """A call on one line, or with each argument on its own."""
    line = f"{indent}{head}({', '.join(args)}){tail}"
    if len(line) <= WIDTH and len(", ".join(args)) <= limit:
        return [line]
    return [f"{indent}{head}("] + [f"{indent}    {it}," for it in args] + [f"{indent}){tail}"]


def meaning(parts, indent="    ", head="type Meaning = ", tail=";"):
    """The pairs of what the members mean; the sixteenth has what follows it."""
    if len(parts) == 1:
        return [f"{indent}{head}{parts[0]}{tail}"]
    name = "And" if len(parts) == 2 else f"And{min(len(parts), 16)}"
    one = f"{indent}{head}{joined(parts)}{tail}"
    if len(one) <= WIDTH:
        return [one]
    first, last = (parts, []) if len(parts) <= 16 else (parts[:15], parts[15:])
    made = [f"{indent}{head}{name}<"] + [f"{indent}    {it}," for it in first]
    return made + (meaning(last, indent + "    ", "", ",") if last else []) + [f"{indent}>{tail}"]


def joined(parts):
    if len(parts) == 1:
        return parts[0]
    if len(parts) > 16:
        return f"And16<{', '.join(parts[:15])}, {joined(parts[15:])}>"
    return f"And{len(parts) if len(parts) > 2 else ''}<{', '.join(parts)}>"


def docs(lines, indent=""):
    return [f"{indent}/// {it}".rstrip() for it in lines]


def message_docs(message, messages):
    made = list(message.name.said) + ([""] if message.name.said else [])
    made += [f"message {message.it.name} {{"] + [f"    {line}" for k in message.members for line in lines_of(k.declared())]
    made += ["    option message_set_wire_format = true;"] * message.is_set
    made += [f"    {r};" for r in ranges(message)] + ["}"]
    for said, fields in remarks(message):
        if fields:
            made += ["", f"{said}: " + ", ".join(f"{f.name} = {f.number}" for f in fields) + "."]
    made += says_what_is_missing(message)
    made += ["", "Its extensions are those of its `unknown_fields`."] * bool(message.rest)
    made += ["", "A MessageSet: the message of an Item is kept under its type id, where an extension of that number finds it."] * message.is_set
    made += limits.remarks(message, messages)
    return docs(made if message.is_keeping else made + ["", "The fields that aren't declared are passed over."])


def lines_of(declared):
    return [declared] if isinstance(declared, str) else declared


def remarks(message):
    """What the .proto doesn't say of fields, and of which."""
    def told(key):
        return [k.it for k in message.fields if key in k.told]

    where = "Left among the fields that aren't declared" if message.is_keeping else "Passed over"
    yield where, [f.it for f in message.left]
    there = message.asked.there if message.asked else []
    yield "Read where it isn't there, too", [k.it for k in message.fields if k.is_required and k not in there]
    yield "Read where it isn't there, too, and `is_initialized` says whether it is", [k.it for k in there]
    if message.asked:
        yield "`is_initialized` looks into the messages of these", [k.it for k in message.asked.looked_fields()]
    passed = "`is_initialized` doesn't look into these" if message.asked else "Something is required in these, and no call says whether it is there"
    yield passed, [k.it for k in message.passed]
    held = [k for k in message.fields if k.is_encoded and not k.is_case]
    yield "Held as the encodings of its messages, which merge_from_slice reads", [k.it for k in held if k.is_list]
    one = "Held as the encodings of its records, which merge_from_slice reads one after the other into one message"
    yield one, [k.it for k in held if not k.is_list]
    cases = [k.it for k in message.fields if k.is_encoded and k.is_case]
    yield "Held as the encoding of its last record, which merge_from_slice reads", cases
    yield "Held as bytes, which needn't be UTF-8", [k.it for k in message.fields if k.is_bytes]
    yield "Held as an open enum, though it is a closed one", [k.it for k in message.fields if k.is_opened]
    yield "Written at the first case of the `oneof`, before lower numbers", [k.it for one in message.oneofs for k in one.parted]
    yield "Written as groups", told("delimited")
    yield "Written in the order of their keys", [k.it for k in message.fields if k.member_type.startswith("Ordered") or k.itself == "map"]
    yield "Not written where it is the default", told("implicit")


def ranges(message):
    ends = [(r.start, "max" if r.end > 536870911 else r.end - 1) for r in message.it.extension_range]
    return [f"extensions {a}" if a == b else f"extensions {a} to {b}" for a, b in ends]


def layout(members, is_keeping):
    made = []
    for member in members:
        if isinstance(member, blocks.Block):
            made.append(f"block {member.members_in} (")
            continue
        if isinstance(member, oneof.OneOf):
            made.append(f"one_of (λ m. m.{member.in_contract}) ⟦<{member.enum} as OneOf>⟧.cases (")
            continue
        shape = f"⟦<{member.member_type} as Member>⟧.shape"
        word = "field_with_unknowns" if member.keeps else "field"
        made.append(f"{word} {member.number} (λ m. m.{member.in_contract}) {shape}")
        if member.keeps:
            made.append(f"⟦<{member.member_type} as KeepsUnknowns>⟧.unknowns")
        made[-1] += " ("
    made.append(("keep_unknown (λ m. m.unknown_fields.records)" if is_keeping else "skip_unknown") + ")" * len(members) + " };")
    return ["    ghost schema = { " + made[0]] + ["        " + it for it in made[1:]]


def visits(members, is_keeping, argument="&self", of="self"):
    """The function that visits the members, one after the other, and then the fields that are kept."""
    made = []
    for member in members:
        if isinstance(member, blocks.Block):
            made.append(f"        {member.name}::visit(self, visitor);")
            continue
        if isinstance(member, oneof.OneOf):
            made.append(f"        visit_one_of(&{of}.{member.name}, visitor);")
            continue
        word = "visit_with_unknowns" if member.keeps else "visit"
        made += called("        ", f"visitor.{word}::<{member.member_type}>", [str(member.number), f"&{of}.{member.name}"], ";")
    made += ["        visitor.visit_unknown_fields(&self.unknown_fields);"] * is_keeping
    if not made:
        return ["    fn visit<V: Visitor>(&self, _visitor: &mut V) {}"]
    return [f"    fn visit<V: Visitor>({argument}, visitor: &mut V) {{"] + made + ["    }"]


def take(message):
    members = message.members
    alloc = "alloc" if members or message.is_keeping else "_alloc"
    made = ["    fn take("]
    made += [f"        {it}," for it in ("&mut self", f"{alloc}: Global", "tag: Tag", "buf: &mut &[u8]", "ctx: DecodeContext<'_>")]
    made += ["    ) -> Result<(), DecodeError> {"]
    other = "unknown::keep(alloc, &mut self.unknown_fields, tag, buf, ctx)" if message.is_keeping else "unknown::pass(tag, buf, ctx)"
    if not members:
        return made + [f"        {other}", "    }"]
    if blocks.blocks(message):
        return made + blocks.take(message, other, called)
    made += ["        match tag.field_number() {"]
    for member in members:
        if isinstance(member, oneof.OneOf):
            numbers = [str(k.number) for k in member.cases]
            made += blocks.arm(numbers, f"{member.enum}::take", [f"&mut self.{member.name}", "alloc", "tag", "buf", "ctx"], called)
            continue
        beside = ["&mut self.unknown_fields"] if member.keeps else []
        call = f"{member.member_type.replace('<', '::<', 1)}::{'merge_with_unknowns' if member.keeps else 'merge'}"
        args = [f"&mut self.{member.name}"] + beside + ["alloc", "tag", "buf", "ctx"]
        made += called("            ", f"{member.number} => {call}", args, ",")
    return made + [f"            _ => {other},", "        }", "    }"]


def has_extensions(message):
    """Whether it has a range of extensions: the Items of a MessageSet are such, without one, too."""
    return bool(message.it.extension_range) or message.is_set


def extension_set(message):
    full, member = message.name.full, "fields" if message.rest else "unknown_fields"
    line = "    const PROTO_FQN: &'static str ="
    line += f' "{full}";' if len(line) + len(full) + 4 <= WIDTH else f'\n        "{full}";'
    return f"""
impl ExtensionSet for {message.rest or message.rust} {{
{line}

    ghost fqn = {{ codes "{full}" }};

    ghost fields_of = {{ λ m. m.{member} }};

    ghost with_fields = {{ λ m w. record m {{ {member} = w }} }};

    fn extendee_name() -> &'static str {{
        Self::PROTO_FQN
    }}

    fn unknown_fields(&self) -> &UnknownFields {{
        &self.{member}
    }}

    fn unknown_fields_mut(&mut self) -> &mut UnknownFields {{
        &mut self.{member}
    }}

    ghost fields_of_with = {{ λ m w. refl }};

    ghost with_fields_of = {{ λ m. refl }};

    ghost with_fields_twice = {{ λ m w u. refl }};
}}""".split("\n")


def names_of(message, fields):
    """The names that the file of a message imports, but for types of the .proto's."""
    members = message.members
    names = set("unknown DecodeContext DecodeError Tag Global".split())
    names = names.union(*[k.needs for k in members])
    names |= {"UnknownFields"} if message.is_keeping else set()
    names |= {"ExtensionSet"} if has_extensions(message) else set()
    names |= required.names_of(message)
    names |= {"Member"} if fields else set()
    if message.holds_itself:
        names |= {"take_one_of"} if message.oneofs else set()
        return (names - {"And", "visit_one_of"}) | recursive.names_of(message)
    names |= {"Blank", "MessageFields", "MessageImpl", "FieldByField", "FieldsMeaning", "Visitor"} | ({"Unknowns"} if message.is_keeping else set())
    in_blocks = blocks.blocks(message)
    of_blocks = set().union(*[ands(len(it.members)) | ({"And"} & k.needs) for it in in_blocks for k in it.members])
    names |= {"MemberBlock"} if of_blocks else set()
    if message.is_opaque:
        return {it for it in names if it != "Unknowns" and not re.fullmatch(r"And\d*", it)} | {"Model"} | of_blocks
    return names | ands(len(blocks.pieces(message)) + 1) | of_blocks


def ands(count):
    """The names of the pairs of so many parts."""
    made = set()
    while count > 1:
        made.add("And" if count == 2 else f"And{min(count, 16)}")
        count = count - 15 if count > 16 else 0
    return made


def head_of_message(world, message, enums):
    """What the file of a message begins with: what it cites and imports."""
    fields = [k for k in message.members if not isinstance(k, oneof.OneOf) and not k.itself]
    made = [f"//! {message.name.full}, made of {message.name.file.shown} by protoc-gen-buffa.", ""]
    if message.is_set:
        return made + sets.head() + [""] + uses(world, sets.NAMES | packed.names(world), (), packed.modules(world, sets.MODULE_OF))
    made += ["ghost use Rattle.std.proofs.Common.{lit<, refl};"]
    prelude = required.words(message) | ({"codes"} if message.it.extension_range else set())
    made += [f"ghost use Rattle.std.specs.Prelude.{{{', '.join(sorted(prelude))}}};"] * bool(prelude)
    made += recursive.head(message, required.terms(message)) if message.holds_itself else layers(message, fields)
    own = {i for k in message.members for i in k.imports} | places.types(message)
    return made + [""] + uses(world, names_of(message, fields) | packed.names(world), own, packed.modules(world, MODULE))


def layers(message, fields):
    """The words of its members in contracts."""
    pieces, made = blocks.pieces(message), blocks.blocks(message)
    fields = [k for k in fields if k in pieces]
    found = ["field"] * any(not k.keeps for k in fields) + ["field_with_unknowns"] * any(k.keeps for k in fields)
    found += sorted(set().union(*[blocks.words(it) for it in made]))
    found += ["keep_unknown"] if message.is_keeping else ["skip_unknown"]
    found += ["one_of"] * any(isinstance(k, oneof.OneOf) for k in pieces)
    asked = ordered(required.terms(message))
    return [f"ghost use {TERMS}.{{{', '.join(found)}}};"] + [f"ghost use {TERMS_INSIDE}.{{{', '.join(asked)}}};"] * bool(asked)


def struct(message, messages):
    """The struct of the members."""
    made, parts = message_docs(message, messages), []
    for member in message.members:
        parts += docs(member.field.said, "    ") + [f"    pub {member.name}: {member.rust},"]
    rest = message.rest or "UnknownFields"
    kept = sets.KEPT if message.is_set else "The fields that aren't declared, in order."
    parts += [f"    /// {kept}", f"    pub unknown_fields: {rest},"] * message.is_keeping
    made += [derives(message), f"pub struct {message.rust} {{"]
    made = made + parts + ["}"] if parts else made[:-1] + [f"pub struct {message.rust} {{}}"]
    return made + rest_of(message) if message.rest else made


def rest_of(message):
    """What the extensions of a message that holds itself are set in: its calls need a struct whose contracts see its fields."""
    made = ["", f"/// The fields of a `{message.rust}` that aren't declared, in order, with its extensions.", "#[derive(Debug, Drop)]"]
    return made + [f"pub struct {message.rest} {{", "    /// The fields.", "    pub fields: UnknownFields,", "}"]


def blank(message):
    """The function of the default."""
    members, rest = [(k.name, k.blank) for k in message.members], "UnknownFields::new(alloc)"
    members += [("unknown_fields", rest)] * (message.is_keeping and not message.rest)
    alloc = "alloc" if message.is_keeping or any("alloc" in of for _, of in members) else "_alloc"
    made = [f"    fn blank({alloc}: Global) -> {message.rust} {{"]
    short = ", ".join(f"{name}: {of}" for name, of in members)
    if len(short) <= LITERAL_WIDTH and not message.rest:
        made += [f"        {message.rust} {{ {short} }}" if members else f"        {message.rust} {{}}"]
    else:
        made += [f"        {message.rust} {{"] + [f"            {name}: {of}," for name, of in members]
        made += [f"            unknown_fields: {message.rest} {{", f"                fields: {rest},", "            },"] * bool(message.rest) + ["        }"]
    return made + ["    }"]


def some_value(means):
    """A value of what a member means, as contracts write it, and the words in it."""
    if means.startswith("Option<"):
        return "None", {"None"}
    if means.startswith("["):
        return "[]", {"[]"}
    return {
        "bool": ("false", {"false"}),
        "i32": ("pos 0", {"pos"}),
        "i64": ("pos 0", {"pos"}),
        "(bool, i32)": ("(false, pos 0)", {"false", "pos"}),
    }.get(means, ("0", set()))


def codes_of(message, messages):
    """The codes of what is in a message at any depth: of messages that hold themselves, and of oneofs."""
    seen, members = set(), list(message.members)
    for member in members:
        for full in set(member.inside) & set(messages) - seen:
            seen.add(full)
            members += messages[full].members
    codings = ["coded_tree"] * any(messages[full].holds_itself for full in seen)
    return codings + ["coded_or"] * any(isinstance(it, oneof.OneOf) for it in members)


def codes_used(message, codes):
    """What a meaning of its own cites."""
    found = ["FieldData"] * message.is_keeping + ["coded_field_data"] + [it for it in codes if it == "coded_or"]
    made = [f"    ghost use {TERMS}.{{{', '.join(found)}}};"]
    return made + [f"    ghost use {TERMS_INSIDE}.{{coded_tree}};"] * ("coded_tree" in codes) + [""]


def opaque_meaning(message, messages):
    """What the members of a message mean, as a struct that has none of their types in it."""
    codes = codes_of(message, messages)
    pieces = blocks.pieces(message)
    values = [value_of(k) for k in pieces] + [("[]", {"[]"}) if message.is_keeping else ("tt", set())]
    words = set().union(*[w for _, w in values]) | ({"List", "ℕ"} if message.is_keeping else set())
    name = f"{message.rust}Meaning"
    made = docs([f"What the members of `{message.rust}` mean, one after the other. It is never made."])
    made += ["#[derive(Drop)]", f"pub struct {name} {{", "    never: (),", "}", "", f"impl Model for {name} {{"]
    made += ["    ghost use Rattle.std.specs.Coded.{codes};"]
    made += [f"    ghost use Rattle.std.specs.Prelude.{{{', '.join(sorted(words))}}};"] * bool(words)
    made += codes_used(message, codes)
    made += ["    ghost Value = { let Means : (P X : Type 0) → (P → X) → Type 0 = λ P X f. X in"]
    made += [f"        Means _ _ {meaning_of(k)} × (" for k in pieces]
    made += [f"        {'List (ℕ × FieldData)' if message.is_keeping else 'Unit {0}'}{')' * len(pieces)} }};", ""]
    made += [f"    ghost coded = {{ Prim.hlevel ({', '.join(['codes', 'coded_field_data'] + codes)}) }};", ""]
    return made + pairs("    ghost view = { λ m. ", [v for v, _ in values]) + ["}", ""]


def value_of(member):
    """A value of what a member means, or a block of them, and the words in it."""
    if not isinstance(member, blocks.Block):
        return some_value(member.means)
    values = [some_value(k.means) for k in member.members]
    return blocks.pair([v for v, _ in values]), set().union(*[w for _, w in values])


def meaning_of(member):
    """The function by which contracts say what a member means."""
    if isinstance(member, blocks.Block):
        return f"{member.members_in}.block.part.meaning"
    if isinstance(member, oneof.OneOf):
        return f"⟦<{member.enum} as OneOf>⟧.cases.all.cases.meaning"
    return f"⟦<{member.member_type} as Member>⟧.shape.meaning"


def pairs(head, parts):
    """Pairs of parts, one in the other, on one line, or with each part and each pair on its own."""
    line = f"{head}{', ('.join(parts[:-1])}, {parts[-1]}{')' * (len(parts) - 2)}"
    line = f"{head}({line[len(head):]}) }};" if len(parts) > 1 else f"{head}{parts[0]} }};"
    if len(line) <= LONGEST or len(parts) == 1:
        return [line]
    made, last = [f"{head}("], len(parts) - 2
    for at, part in enumerate(parts[:-1]):
        made += [f"{'  ' * at}      {part},"] + ([f"{'  ' * at}      ("] if at < last else [f"{'  ' * at}      {parts[-1]},"])
    return made + [f"{'  ' * at}      )," for at in reversed(range(last))] + ["    ) };"]


def listed_form(message, messages):
    """All that makes a struct a message."""
    name, cost = message.rust, message.cost(messages)
    pieces, made = blocks.pieces(message), []
    for block in blocks.blocks(message):
        made += blocks.text(block, called, meaning, visits)
    made += opaque_meaning(message, messages) if message.is_opaque else []
    made += [f"impl MessageFields for {name} {{"]
    means = meaning([k.means for k in pieces] + ["Unknowns" if message.is_keeping else "()"])
    made += ([f"    type Meaning = {name}Meaning;"] if message.is_opaque else means) + [""]
    made += [f"    const COST: usize = {cost};", "", f"    ghost COST = {{ {cost} }};", "", "    ghost positive = { lit< tt };", ""]
    made += layout(pieces, message.is_keeping) + ["", "    ghost sound = { refl };", ""]
    made += visits(pieces, message.is_keeping) + [""] + take(message) + ["}", ""]
    made += [f"impl Blank for {name} {{", f"    type Meaning = <{name} as MessageFields>::Meaning;", ""]
    made += [f"    ghost {a} = {{ ⟦<{name} as MessageFields>⟧.schema.{b} }};\n" for a, b in (("meaning", "meaning"), ("blank_is", "blank"))]
    made += blank(message) + ["}", "", f"impl FieldsMeaning for {name} {{"]
    made += ["    ghost means = { λ m. refl };", "", "    ghost starts = { refl };", "}", ""]
    return made + [f"impl MessageImpl for {name} {{", "    type Impl = FieldByField;", "}"]


def takes_its_cost(message):
    """What has the checker see that an element takes no more memory than is charged for it."""
    head, bound = "const _: () = prove!(", f"size_of::<{message.rust}>() <= {message.rust}::COST"
    line = f"{head}{bound});"
    return ["", line] if len(line) <= WIDTH else ["", head, f"    {bound}", ");"]


def write_message(world, message, messages, enums):
    made = head_of_message(world, message, enums) + [""] + struct(message, messages) + [""]
    if message.holds_itself:
        made += recursive.form(message, message.cost(messages), blank(message), called)
    elif message.is_set:
        made += sets.form(message, message.cost(messages), blank(message))
    else:
        made += listed_form(message, messages)
    made += extension_set(message) if has_extensions(message) else []
    made += [] if message.has_told_cost(messages) else takes_its_cost(message)
    made += required.initialized(message) + packed.impl(message) + own_calls(message, enums)
    return "\n".join(made + places.located(message, blocks.arm, called) + discard.discarding(message)) + "\n"


def own_calls(message, enums):
    """The impl of a message's own calls: what it and its fields are called, and its getters."""
    words = getters.words(message, enums) | labels.words_of_message(message)
    uses = [prelude_line(words)] * bool(words) + labels.uses_of_message(message) + getters.uses(message, enums)
    return own_impl(message.rust, uses, labels.of_message(message) + getters.getters(message, enums))


def prelude_line(words):
    """The line of an impl by which its clauses have words of std."""
    return f"    ghost use Rattle.std.specs.Prelude.{{{', '.join(sorted(words))}}};"


def own_impl(name, uses, parts):
    """An impl of some parts, with a blank line between them."""
    made = ["", f"impl {name} {{", *uses, *[""] * bool(uses)]
    for at, part in enumerate(parts):
        made += [""] * (at > 0) + part
    return made + ["}"]


def write_module(files, modules, types):
    """The file that names those of a run, and hands on their types."""
    by_file, apart = labels.handed_on(types)
    made = [f"//! What protoc-gen-buffa made of {files}."]
    made += ["//!", f"//! The names of these differ in capital letters alone, so each is named with its file: {', '.join(apart)}."] * bool(apart)
    made += [""] + [f"pub mod {it};" for it in modules] + [""] * bool(by_file)
    return "\n".join(made + [line for file, names in by_file.items() for line in use_line(file, names, "pub use")]) + "\n"


def write_oneof(world, one, message):
    """The file of a oneof's enum."""
    module = [it for it in (world.module, snake(one.enum)) if it]
    made = [f"//! The oneof {one.field.full}, made of {message.name.file.shown} by protoc-gen-buffa.", ""]
    made += required.head_of_enum(one, message) + oneof.head(one, world.crate, module)
    needs = oneof.uses_of_enum(one) | required.names_of_enum(one, message)
    made += uses(world, needs, {i for k in one.cases for i in k.imports}) + [""] + oneof.enum(one, docs)
    made += [f"impl OneOf for {one.enum} {{"] + oneof.meaning(one) + [""] + oneof.cases(one) + oneof.visit(one)
    made += oneof.take(one) + oneof.reads_back(one) + ["}"] + oneof.takes_of_groups(one)
    return "\n".join(made + required.initialized_enum(one, message) + discard.discarding_enum(one, message)) + "\n"


def cases(head, parts):
    """A function by cases, on one line, or where they are too many on one each."""
    line = f"    {head} {{ elim [ {' | '.join(parts)} ] }};"
    if len(line) <= LONGEST:
        return [line]
    return [f"    {head} {{ elim ["] + [f"      | {it}" for it in parts] + ["    ] };"]


def tests(head, parts, last):
    """Tests one after the other, on one line, or where they are too many on several."""
    line = f"    {head} {' else '.join(parts + [last])} }};"
    if len(line) <= LONGEST:
        return [line]
    made = [f"    {head}"]
    for part in parts:
        if made[-1].endswith("else") and len(made[-1]) + len(part) + 6 <= WIDTH:
            made[-1] += f" {part} else"
        else:
            made.append(f"        {part} else")
    return made + [f"        {last} }};"]


def integer(number):
    """A number as contracts write it."""
    return f"pos {number}" if number >= 0 else f"negsuc {-number - 1}"


def write_enum(world, enum):
    name, values = enum.rust, enum.values
    numbers = {n for _, n, _ in values}
    plain = ["None", "Some", "if◌then◌else◌"] + ["negsuc"] * any(n < 0 for n in numbers) + ["pos"] * any(n >= 0 for n in numbers)
    variants = f"{getters.declared(world, enum.name.full)}.{{{', '.join(v for v, _, _ in values)}}}"
    made = [f"//! {enum.name.full}, made of {enum.name.file.shown} by protoc-gen-buffa.", ""]
    made += [f"ghost use Rattle.std.specs.Prelude.{{{', '.join(plain)}, refl}};", "ghost use Rattle.std.specs.Ordering.{int_eq};", ""]
    made += uses(world, {"Blank", "Enumeration", "Global"}, ()) + [""]
    listing = [f"enum {enum.name.it.name} {{"] + [f"    {v.name} = {v.number};" for v in enum.name.it.value] + ["}"]
    made += docs(enum.name.said + [""] * bool(enum.name.said) + listing)
    made += ["#[derive(Clone, Copy, Debug, PartialEq, Eq)]", f"pub enum {name} {{"]
    for variant, _, value in values:
        made += docs(value.said, "    ") + [f"    {variant},"]
    means = [f"{v} ↦ {integer(n)}" for v, n, _ in values]
    made += ["}", "", f"impl Blank for {name} {{", f"    ghost use {variants};", "", "    type Meaning = i32;", ""]
    made += cases("ghost meaning =", means) + ["", f"    ghost blank_is = {{ {integer(values[0][1])} }};", ""]
    made += [f"    fn blank(_alloc: Global) -> {name} {{", f"        {name}::{values[0][0]}", "    }", "}", ""]
    asked = [f"if int_eq n ({integer(n)}) then Some {v}" for v, n, _ in values]
    made += [f"impl Enumeration for {name} {{", f"    ghost use {variants};", ""]
    made += tests("ghost of_number = { λ n.", asked, "None") + [""]
    made += [f"    fn from_i32(number: i32) -> Option<{name}> {{", "        match number {"]
    made += [f"            {n} => Some({name}::{v})," for v, n, _ in values] + ["            _ => None,", "        }", "    }", ""]
    made += ["    fn to_i32(&self) -> i32 {", "        match self {"] + [f"            {name}::{v} => {n}," for v, n, _ in values]
    stays = [f"{v} ↦ refl" for v, _, _ in values]
    made += ["        }", "    }", ""] + cases("ghost stays =", stays) + ["", "    ghost blank_declared = { refl };", "}"]
    made += own_impl(name, labels.uses_of_enum(enum, variants), labels.of_enum(enum))
    return "\n".join(made) + "\n"
