"""What says of a message in which of its fields messages are, so that the crate buffa_locate tells where bytes were refused."""
from oneof import OneOf
from world import MESSAGES

WIDTH = 100
CALL_WIDTH = 60
CRATE = "buffa_locate"
KEY = "buffa_fields::map_codec::MapValueDecode"


class Held:
    """A field that holds messages as they are, and not as their encodings: how, and of which type."""

    def __init__(self, message, member):
        entry = message.world.entries.get(member.it.type_name)
        self.member, self.number, self.is_own = member, member.number, bool(member.itself)
        self.full = (entry.field[1] if entry else member.it).type_name.lstrip(".")
        self.rust = message.world.types[self.full]
        group, own = "group" * member.is_group(), "own_" * self.is_own
        if entry:
            self.call = f"{own}value::<{self.rust}>"
        elif member.is_list:
            self.call = f"{own}{group}{'_' * bool(group)}element::<{self.rust}>"
        else:
            self.call = f"boxed::<{self.rust}>" if self.is_own else group or "one"

    def arm(self):
        """The arm of `inside`, on one line or, where it is too long, in braces."""
        codec, call = self.member.key_codec, f"{CRATE}::Inside::{self.call}"
        if not codec and len(call) + 2 <= CALL_WIDTH:
            return [f"            {self.number} => Some({call}()),"]
        key, indent = "key" * bool(codec), " " * 16
        made = [f"{indent}let key = <{codec} as {KEY}>::COST;"] * bool(codec)
        head = f"{indent}let held = {call}"
        if len(f"{head}({key});") <= WIDTH:
            made.append(f"{head}({key});")
        elif key and len(head) < WIDTH:
            made += [f"{head}(", f"{indent}    {key},", f"{indent});"]
        else:
            made += [head.replace(f"<{self.rust}>", "<"), f"{indent}    {self.rust},", f"{indent}>({key});"]
        return [f"            {self.number} => {{", *made, f"{indent}Some(held)", "            }"]


def fields(message):
    """The fields that have members, each with whether messages are in it."""
    members = [f for k in message.members for f in (k.cases if isinstance(k, OneOf) else [k])]
    return sorted(members, key=lambda k: k.number)


def is_held(message, member):
    """Whether messages are in a field as they are."""
    entry = message.world.entries.get(member.it.type_name)
    return (entry.field[1] if entry else member.it).type in MESSAGES and not member.is_encoded


def held(message):
    """The fields into which a place goes: those of messages that this run writes."""
    return [Held(message, k) for k in fields(message) if is_held(message, k) and not is_elsewhere(message, k)]


def is_elsewhere(message, member):
    """Whether the message in a field is of a type that is taken from a module."""
    return message.world.is_mapped(message.world.target(member.it))


def is_asked(world):
    return bool(world.places)


def types(message):
    """The types in whose messages a place may be, but its own."""
    return {it.full for it in held(message) if not it.is_own} if is_asked(message.world) else set()


def name_of(message):
    """The function from the number of a field to its name."""
    line = "    fn name_of({}number: u32) -> Option<&'static str> {{"
    if not message.members:
        return [line.format("_"), "        None", "    }"]
    if message.world.names:
        return [line.format(""), f"        {message.rust}::field_name(number)", "    }"]
    made = [line.format(""), "        match number {"]
    for k in fields(message):
        arm = f'            {k.number} => Some("{k.it.name}"),'
        made += [arm] if len(arm) <= WIDTH else [f"            {k.number} => {{", f'                Some("{k.it.name}")', "            }"]
    return made + ["            _ => None,", "        }", "    }"]


def inside(found):
    """The function from the number of a field to what is known of the message in it."""
    line = f"    fn inside({{}}number: u32) -> Option<{CRATE}::Inside> {{{{"
    if not found:
        return [line.format("_"), "        None", "    }"]
    made = [line.format(""), "        match number {"]
    return made + [row for it in found for row in it.arm()] + ["            _ => None,", "        }", "    }"]


def arm_of_type(rust, numbers, arm, called):
    """The arm of `find_inside` for the fields of a type."""
    indent, args = " " * 12, "alloc, search, path"
    head = f"{indent}{' | '.join(numbers)} => {CRATE}::find::<"
    if len(f"{head}{rust}>({args}),") <= WIDTH:
        return [f"{head}{rust}>({args}),"]
    if len(f"{head}{rust}>(") <= WIDTH:
        return [f"{head}{rust}>(", f"{indent}    {args},", f"{indent}),"]
    if len(head) <= WIDTH:
        return [head, f"{indent}    {rust},", f"{indent}>({args}),"]
    return arm(numbers, f"{CRATE}::find::<{rust}>", args.split(", "), called)


def find_inside(found, arm, called):
    """The function that goes into messages of other types."""
    by_type = {}
    for it in found:
        if not it.is_own:
            by_type.setdefault(it.rust, []).append(str(it.number))
    of = "" if by_type else "_"
    made = ["    fn find_inside(", f"        {of}number: u32,", f"        {of}alloc: Global,"]
    made += [f"        search: {CRATE}::Search<'_>,", f"        path: &mut Vec<{CRATE}::Step>,"]
    made += ["    ) -> Result<Option<usize>, std::alloc::AllocError> {"]
    if not by_type:
        return made + [f"        {CRATE}::nothing_inside(search, path)", "    }"]
    made += ["        match number {"]
    for rust, numbers in by_type.items():
        made += arm_of_type(rust, numbers, arm, called)
    return made + [f"            _ => {CRATE}::nothing_inside(search, path),", "        }", "    }"]


def located(message, arm, called):
    """The impl of `Locate`, where it is asked for."""
    if not is_asked(message.world):
        return []
    found = held(message)
    made = ["", f"impl {CRATE}::Locate for {message.rust} {{", *name_of(message), "", *inside(found), ""]
    return made + find_inside(found, arm, called) + ["}"]


def tell(world, messages):
    """Says at which fields a place ends though messages are in them, but for those that are told as encodings."""
    if not is_asked(world):
        return
    for message in (it for it in messages.values() if not world.is_mapped(it.name.full)):
        for k in (k for k in fields(message) if is_held(message, k) and is_elsewhere(message, k)):
            world.tell(f"{k.field.at()}: a place ends at it, and isn't in its messages: their type {world.target(k.it)} is taken from a module")
