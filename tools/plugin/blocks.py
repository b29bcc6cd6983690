"""Blocks: the members of a message that has more than are proved in one piece, some at a time."""
from oneof import OneOf

# A message of more members than these is written in blocks, each of so many at most.
MOST_FLAT = 60
SIZE = 8
# What the arguments of `take` and the words of its contract are called.
ARGUMENTS = {"alloc", "tag", "buf", "ctx", "unknown_fields", "result"}
LONGEST = 120
WIDTH = 100
# The words by which contracts say so many members, one after the other.
IN_ALL = dict(enumerate("two three four five six seven eight".split(), 2))


def holds_messages(message, member):
    found = message.world.found
    return any(it in found and hasattr(found[it].it, "field") for it in member.inside)


def lends(message, member):
    """Whether its visit is to be answered behind others: sizes of messages come next, or are said to."""
    return isinstance(member, OneOf) or (member.lends if isinstance(member, Block) else holds_messages(message, member))


class Block:
    """Members of a message, one after the other. It stands in the message as one of them does."""

    itself = None

    def __init__(self, message, at, members):
        self.message, self.members, self.name = message, members, f"{message.rust}Block{at}"
        self.inside = [it for k in members for it in k.inside]
        self.lends = any(lends(message, k) for k in members)
        self.keeps = any(k.keeps for k in members)
        self.needs = {"MemberBlock"}
        self.own_depth = max(place + 1 + k.own_depth for place, k in enumerate(members))
        self.means = f"<{self.name} as MemberBlock>::Meaning"
        self.members_in = f"⟦<{self.name} as MemberBlock>⟧.members"

    def numbers(self):
        return [n for k in self.members for n in numbers_of(k)]


def numbers_of(member):
    return [k.number for k in member.cases] if isinstance(member, OneOf) else [member.number]


def pieces(message):
    """The members of a message; or, where they are many, blocks of as many of them each, or one more."""
    many = len(message.members)
    if message.holds_itself or many <= MOST_FLAT:
        return message.members
    count = -(-many // SIZE)
    ends = [many * at // count for at in range(count + 1)]
    return [Block(message, at + 1, message.members[ends[at]:ends[at + 1]]) for at in range(count)]


def blocks(message):
    return [it for it in pieces(message) if isinstance(it, Block)]


def pair(parts):
    """Pairs of parts, one in the other."""
    return parts[0] if len(parts) == 1 else f"({parts[0]}, {pair(parts[1:])})"


def listed(parts):
    """Members one after the other, as contracts write them."""
    return f"{IN_ALL[len(parts)]} {' '.join(parts)}"


def words(block):
    """What contracts cite."""
    made = {"block", "block_of", "both_blocks", IN_ALL[len(block.members)], "TakesWithUnknowns" if block.keeps else "TakesBlock"}
    for k in block.members:
        made |= {"one_case" if isinstance(k, OneOf) else "one_with_unknowns" if k.keeps else "one"}
        made |= {"no_unknowns"} if block.keeps and not k.keeps else set()
    return made


def one(block, member):
    if isinstance(member, OneOf):
        made = f"one_case ⟦<{member.enum} as OneOf>⟧.cases"
    else:
        made = f"{'one_with_unknowns' if member.keeps else 'one'} {member.number} ⟦<{member.member_type} as Member>⟧.shape"
        made += f" ⟦<{member.member_type} as KeepsUnknowns>⟧.unknowns" if member.keeps else ""
    return f"no_unknowns ({made})" if block.keeps and not member.keeps else made


def members(block):
    """The ghost of its members."""
    made = [f"    ghost members = {{ block_of (λ m. {listed([f'm.{k.in_contract}' for k in block.members])}) ("]
    last = len(block.members) - 1
    made += [f"        both_blocks ({one(block, k)}) (" for k in block.members[:last]]
    return made + [f"        {one(block, block.members[last])}{')' * (last + 1)} }};", ""]


def argument(member):
    return member.name + "_" * (member.name in ARGUMENTS)


def in_contract(member):
    return member.in_contract if member.name not in ARGUMENTS else argument(member)


def clause(block):
    """What `take` ensures, on lines that aren't too long."""
    word = "TakesWithUnknowns" if block.keeps else "TakesBlock"
    made = f"ensures {{ {word} tag ctx.entry ctx.exit {block.members_in}"
    for when in ("old", "new"):
        made += f" ({listed([f'{in_contract(k)}.{when}' for k in block.members])})"
    made += " unknown_fields.old.records unknown_fields.new.records" * block.keeps + " buf.old buf.new result"
    lines, row = [], "       "
    for part in made.split(" "):
        if len(row) + len(part) + 1 > LONGEST:
            lines.append(row)
            row = "           "
        row += f" {part}"
    return lines + [f"{row} }}"]


def arm(numbers, call, args, called):
    """The arm of some numbers: they are on one line, if they fit there, and so is what is called, if its head fits behind them."""
    indent, line = " " * 12, " | ".join(numbers)
    if len(f"{indent}{line} => {call}(") <= WIDTH:
        return called(indent, f"{line} => {call}", args, ",")
    if len(f"{indent}{line} =>") <= WIDTH:
        return [f"{indent}{line} =>", *called(indent + "    ", call, args, ",")]
    return [f"{indent}{numbers[0]}", *(f"{indent}| {it}" for it in numbers[1:-1]), *called(indent, f"| {numbers[-1]} => {call}", args, ",")]


def call(block, member, called, at):
    """The arm of a member's numbers; the last takes all that are left."""
    numbers = [str(n) for n in numbers_of(member)] if at < len(block.members) - 1 else ["_"]
    args = [argument(member)] + ["unknown_fields"] * member.keeps + ["alloc", "tag", "buf", "ctx"]
    if isinstance(member, OneOf):
        return arm(numbers, f"{member.enum}::take", args, called)
    way = f"{member.member_type.replace('<', '::<', 1)}::{'merge_with_unknowns' if member.keeps else 'merge'}"
    return arm(numbers, way, args, called)


def text(block, called, meaning, visits):
    """The struct of a block, and its functions."""
    first, last = block.members[0].name, block.members[-1].name
    made = [f"/// The members from `{first}` to `{last}` of a [`{block.message.rust}`], which are read and written together."]
    made += [f"pub struct {block.name};", "", f"impl MemberBlock for {block.name} {{", f"    type Message = {block.message.rust};", ""]
    made += meaning([k.means for k in block.members]) + [""] + members(block)
    made += visits(block.members, False, f"message: &{block.message.rust}", "message") + [""] + has(block, called) + ["}", ""]
    made += [f"impl {block.name} {{", f"    // Merges the field whose tag was read into the member of its number.", "    fn take("]
    made += [f"        {argument(k)}: &mut {k.rust}," for k in block.members]
    made += ["        unknown_fields: &mut UnknownFields,"] * block.keeps
    made += [f"        {it}," for it in ("alloc: Global", "tag: Tag", "buf: &mut &[u8]", "ctx: DecodeContext<'_>")]
    made += ["    ) -> Result<(), DecodeError>"] + clause(block) + ["    {", "        match tag.field_number() {"]
    for at, member in enumerate(block.members):
        made += call(block, member, called, at)
    return made + ["        }", "    }", "}", ""]


def has(block, called):
    """Whether a number is that of one of its members."""
    numbers = [str(n) for n in block.numbers()]
    line, indent = " | ".join(numbers), "            "
    made = called("        ", "matches!", ["number", line], "")
    if len(made) > 1:
        row = f"{indent}{line}"
        made[2:3] = [row] if len(row) <= WIDTH else [f"{indent}{numbers[0]}"] + [f"{indent}    | {it}" for it in numbers[1:]]
    return ["    fn has(number: u32) -> bool {", *made, "    }"]


def take(message, other, called):
    """The body of the message's `take`: the block that has the number takes the field."""
    made, word = ["        let number = tag.field_number();"], "        if"
    for block in blocks(message):
        args = [f"&mut self.{k.name}" for k in block.members] + ["&mut self.unknown_fields"] * block.keeps + ["alloc", "tag", "buf", "ctx"]
        made += [f"{word} {block.name}::has(number) {{"] + called("            ", f"{block.name}::take", args, "")
        word = "        } else if"
    return made + ["        } else {", f"            {other}", "        }", "    }"]
