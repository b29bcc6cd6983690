"""What takes the fields out of a message that its type doesn't declare, and out of each message in it."""
from answers import home_of
from oneof import OneOf
from places import is_held

CRATE = "buffa_discard"
TRAIT = f"{CRATE}::DiscardUnknown"
LONGEST = 120


def is_asked(world):
    return bool(world.discard)


def find_discarding(messages):
    """Says of each message whether it can be asked: not where it holds itself or is held in a module, or one of those in it is."""
    for message in messages.values():
        message.discards = not message.holds_itself and not message.world.is_mapped(message.name.full)
    more = True
    while more:
        more = [it for it in messages.values() if it.discards and not all(messages[full].discards for full in inside(it))]
        for message in more:
            message.discards = False


def inside(message):
    """The messages that the fields of a message hold as they are."""
    return {message.world.target(k.it) for k in fields(message) if is_held(message, k)}


def fields(message):
    return [f for k in message.members for f in (k.cases if isinstance(k, OneOf) else [k])]


def is_gone_through(message, member):
    """Whether messages are in a member."""
    return any(is_held(message, k) for k in (member.cases if isinstance(member, OneOf) else [member]))


def relation(message):
    """What holds of the message before and after: one part for each member, and one for the fields that aren't declared."""
    made = []
    for k in message.members:
        old, new = f"old.{k.in_contract}", f"new.{k.in_contract}"
        made += [f"(⟦<{k.rust} as {TRAIT}>⟧.Discarded {old} {new})" if is_gone_through(message, k) else f"({new} ≡ {old})"]
    return made + ["(new.unknown_fields.records ≡ [])"] * message.is_keeping or ["(new ≡ old)"]


def words(message):
    """The words of std that it has."""
    return ["◌≡◌"] + ["[]"] * message.is_keeping


def discarding(message):
    """The impl of a message, where it is asked for."""
    if not is_asked(message.world) or not message.discards:
        return []
    calls = [f"        self.{k.name}.discard_unknown_fields(alloc);" for k in message.members if is_gone_through(message, k)]
    calls += ["        self.unknown_fields = UnknownFields::new(alloc);"] * message.is_keeping
    made = ["", f"impl {TRAIT} for {message.rust} {{", f"    ghost use Rattle.std.specs.Prelude.{{{', '.join(sorted(words(message)))}}};", ""]
    parts = relation(message)
    made.append(f"    ghost Discarded = {{ λ old new. {parts[0]}")
    for part in parts[1:]:
        if len(made[-1]) + len(part) + 6 <= LONGEST:
            made[-1] += f" × {part}"
        else:
            made.append(f"        × {part}")
    made[-1] += " };"
    of = "alloc" if calls else "_alloc"
    made += ["", f"    fn discard_unknown_fields(&mut self, {of}: Global) {{"] if calls else ["", f"    fn discard_unknown_fields(&mut self, {of}: Global) {{}}"]
    return made + ([*calls, "    }"] if calls else []) + ["}"]


def discarding_enum(one, message):
    """The impl of the enum of a oneof in which messages are."""
    if not is_asked(message.world) or not message.discards or not is_gone_through(message, one):
        return []
    held = [k for k in one.cases if is_held(message, k)]
    others = len(held) < len(one.cases)
    made = ["", f"impl {TRAIT} for {one.enum} {{", "    ghost use Rattle.std.specs.Prelude.{◌≡◌};", "", "    ghost Discarded = { λ old new. elim old ["]
    made += [f"      | {k.in_elim} x ↦ (y : _) × (new ≡ {k.in_elim} y) × ⟦<{k.value} as {TRAIT}>⟧.Discarded x y" for k in held]
    made += ["      | other ↦ new ≡ other"] * others + ["    ] };", "", "    fn discard_unknown_fields(&mut self, alloc: Global) {", "        match self {"]
    made += [f"            {one.enum}::{k.variant}(it) => it.discard_unknown_fields(alloc)," for k in held]
    return made + ["            _ => {}"] * others + ["        }", "    }", "}"]


def answers_of_enum(world, one, message):
    """The file of the answers of that impl, by its name beside `src`: that each message is the one of its case."""
    if not discarding_enum(one, message):
        return None
    goals, file = home_of(world, one, f"{one.enum}DiscardUnknown", "discard_unknown_fields")
    made = ["use Rattle.std.proofs.Common.{refl}", f"use {goals} as goal"]
    for at, k in enumerate(k for k in one.cases if is_held(message, k)):
        goal, call = f"returns-in-{k.variant}", f"c.discard_unknown_fields{f'-in-{k.variant}' * (at > 0)}"
        made += ["", f"pub {goal} : goal.{goal}", f"{goal} c = rw c.in-{k.variant}.is ({call}.new.self, refl, {call}.ensures)"]
    return file, "\n".join(made) + "\n"


def tell(world, messages):
    """Says of which messages no call takes them out."""
    if not is_asked(world):
        return
    for message in (it for it in messages.values() if not world.is_mapped(it.name.full) and not it.discards):
        why = "it holds itself" if message.holds_itself else "a message in it holds itself, or is taken from a module"
        world.tell(f"{message.name.at()}: no call takes out the fields of it that aren't declared, since {why}")
