"""The answers where the checker finds no proof by itself: of `visit` behind a message and of many members, and of `take` of a oneof's numbers
and messages."""
from blocks import Block, blocks, holds_messages, lends, pieces
from names import TERMS, snake
from oneof import OneOf

# Of as many members and blocks it is proved without an answer that they were visited in turn.
MOST_SEEN = 7
# Of as many cases it is proved without an answer that a refused message leaves what stands.
MOST_REFUSED = 4

# Of a signed number as contracts see it, how many bits the machine reads it back from.
SIGNED = {"i32": 32, "i64": 64}


def to_answer(message):
    """The places of the members that hold messages and whose call of `visit` is answered: all but the first, that too where many stand before it,
    and all behind a block."""
    found, is_second, is_behind = [], False, False
    for at, member in enumerate(pieces(message)):
        if is_behind and lends(message, member):
            found.append(at)
        is_behind = is_behind or isinstance(member, Block)
        if is_behind or not holds_messages(message, member):
            continue
        if is_second or at > MOST_SEEN:
            found.append(at)
        is_second = True
    return found


def calls(members):
    """Of each member the word of its call, and which of these calls it is."""
    counts, made = {}, []
    for member in members:
        word = "visit_one_of" if isinstance(member, OneOf) else "visit"
        word = "visit_with_unknowns" if member.keeps and not isinstance(member, Block) else word
        counts[word] = counts.get(word, 0) + 1
        made.append((word, counts[word]))
    return made


def numbered(word, count, behind=""):
    """The name that the checker gives the so-manieth of some goals."""
    return f"{word}{behind}" if count == 1 else f"{word}{behind}-{count}"


def goal(member, word, count):
    """What the call of a member owes."""
    return numbered(word, count, "-requires") + "-clause-comes" * (not isinstance(member, (Block, OneOf)))


def answers_of_blocks(world, message):
    """The files of the answers of `visit` of its blocks, where members of these hold messages."""
    return [answers_of_block(world, message, it) for it in blocks(message) if it.lends]


def answers_of_block(world, message, block):
    """Sizes that come next come in turn; and once all members were visited, those behind the block do."""
    head = ".".join(it for it in ("Rattle", world.crate, "proofs", world.module, snake(message.rust)) if it)
    made = [f"use {TERMS}.{{both_waited, first_comes, second_comes}}"]
    made += [f"use {head}.{block.name}MemberBlock.visit.Goals as goal"]
    order, last, comes = calls(block.members), len(block.members) - 1, "c.requires"
    waits = [f"c.{numbered(word, count)}.ensures.waits" for word, count in order]
    slots = ["_" if lends(message, k) else "[]" for k in block.members]
    for at, member in enumerate(block.members):
        if slots[at] == "_":
            name = goal(member, *order[at])
            term = f"first_comes g.V.Visitor.Waits g.V.Visitor.begins _ _ _ ({comes})" if at < last else comes
            made += ["", f"pub {name} : goal.{name}", f"{name} g c = {term}"]
        comes = f"second_comes g.V.Visitor.Waits {slots[at]} _ _ _ {waits[at]} ({comes})"
    term = waits[last]
    for at in reversed(range(last)):
        behind = "_" if "_" in slots[at + 1:] else "[]"
        term = f"both_waited g.V.Visitor.Waits {slots[at]} {behind} _ _ _ {waits[at]} ({term})"
    made += ["", "pub returns-clause-waits : goal.returns-clause-waits", f"returns-clause-waits g c = {term}"]
    if "[]" in slots:
        made.insert(0, "use Rattle.std.proofs.Common.{[]}")
    folder = "/".join(it for it in ("../proofs", world.module, snake(message.rust)) if it)
    return f"{folder}/{block.name}MemberBlock/visit/Answers.antt", "\n".join(made) + "\n"


def answers(world, message):
    """The file of the answers, by its name beside `src`, where one is needed."""
    places, order = to_answer(message), calls(pieces(message))
    is_long = len(pieces(message)) > MOST_SEEN
    if not places and not is_long:
        return None
    head = ".".join(it for it in ("Rattle", world.crate, "proofs", world.module, snake(message.rust)) if it)
    made = [f"use {head}.{message.rust}MessageFields.visit.Goals as goal"]
    for at in places:
        waits = "c.requires"
        for word, count in order[:at]:
            waits = f"c.{numbered(word, count)}.ensures.waits _ {f'({waits})' if ' ' in waits else waits}"
        name = goal(pieces(message)[at], *order[at])
        made += ["", f"pub {name} : goal.{name}", f"{name} g c = g.V.Visitor.begins _ _ _ ({waits})"]
    if is_long:
        seen = f"c.{order[0][0]}.ensures.seen z h"
        for word, count in [*order[1:], *[("visit_unknown_fields", 1)] * message.is_keeping]:
            seen = f"c.{numbered(word, count)}.ensures.seen _ ({seen})"
        made += ["", "pub returns-clause-seen : goal.returns-clause-seen", f"returns-clause-seen g c = λ z h. {seen}"]
    folder = "/".join(it for it in ("../proofs", world.module, snake(message.rust)) if it)
    return f"{folder}/{message.rust}MessageFields/visit/Answers.antt", "\n".join(made) + "\n"


def answers_of_oneof(world, one):
    """The files of the answers of `take` of a oneof, each by its name beside `src`: of all its cases; or of those of each group, and of how a
    field is handed on to a group."""
    if len(one.groups()) == 1:
        return [answers_of_cases(world, one, one.cases, f"{one.enum}OneOf", "take")]
    found = [answers_of_cases(world, one, cases, one.enum, f"take_{at}") for at, cases in enumerate(one.groups(), 1)]
    return [*found, answers_of_groups(world, one)]


def home_of(world, one, holder, call):
    """The module of the goals of a call of a oneof, and the file of their answers."""
    names = [it for it in (world.module, snake(one.enum)) if it]
    return ".".join(["Rattle", world.crate, "proofs", *names, holder, call, "Goals"]), "/".join(["../proofs", *names, holder, call, "Answers.antt"])


def answers_of_cases(world, one, cases, holder, call):
    """Of each case that is a number, that it is no case before it; and of each message, if there are some cases, that a refused one leaves
    what stands."""
    numbers = [at for at, it in enumerate(cases) if it.is_number and len(cases) > 1]
    messages = [at for at, it in enumerate(cases) if it.is_message and len(cases) > MOST_REFUSED]
    if not numbers and not messages:
        return None
    goals, file = home_of(world, one, holder, call)
    is_behind = any(at > 0 for at in numbers + messages)
    common = "rules, refl, sym, ap, ◌∙◌, ◌==◌" if is_behind else "rules, sym, ◌∙◌"
    made = [f"use Rattle.std.proofs.Common.{{{common}}}"]
    widths = sorted({f"w{SIGNED[cases[at].said]}" for at in numbers if cases[at].said in SIGNED})
    made += ["use Rattle.std.proofs.lemmas.Int.{to_z-of_z}", f"use Rattle.std.specs.Int.{{{', '.join(widths)}}}"] if widths else []
    made += ["use Rattle.std.proofs.lemmas.Result.{err_from_is_err_and}"] * bool(messages)
    made += [f"use {TERMS}.{{chosen{', not_here' * is_behind}}}"]
    made += [f"use {goals} as goal"]
    for at in numbers:
        branch = f"in_ok-it-in-{cases[at].number}"
        read, bits = f"c.{branch}.ensures.ok", SIGNED.get(cases[at].said)
        if bits:
            kept = f"    let kept = to_z-of_z w{bits} c.{branch}.it (search rules) in"
            term = f"simp (c.replace{f'-in-{cases[at].number}' * (at > 0)}.ensures.after, kept) {read}"
            made += answer_of_case(cases[at], branch, taken_by(cases, at, term), [kept])
        else:
            made += answer_of_case(cases[at], branch, taken_by(cases, at, f"let read = {read} in search (rules, read)"))
    for count, at in enumerate(messages, 1):
        branch = f"in_err-it-{place('in_default-slot', count)}"
        term = taken_by(cases, at, f"let refused = c.{branch}.ensures.err in search (rules, refused)")
        residual = f"c.from_residual{f'-{branch}' * (at > 0)}"
        told = f"    let told = err_from_is_err_and {residual}.result {residual}.ensures.1 in"
        made += answer_of_case(cases[at], branch, f"rw (told.1, told.2) ({term})", [told])
    return file, "\n".join(made) + "\n"


def taken_by(cases, at, term):
    """The proof that a case took the field, and none before it did."""
    term = f"chosen _ n {cases[at].number} is ({term})"
    for before in reversed(cases[:at]):
        term = f"not_here _ (sym (ap (λ z. z == {before.number}) is)) refl ({term})"
    return term


def answer_of_case(case, branch, term, more=()):
    """The answer of where a case was read, or was refused."""
    made = ["", f"pub returns-{branch} : goal.returns-{branch}", f"returns-{branch} c =", "    let n = c.args.tag.number in"]
    made += [f"    let is = sym c.field_number.ensures ∙ c.in-{case.number}.is in"]
    return [*made, *more, f"    {term}"]


def answers_of_groups(world, one):
    """Of each group that its function took the field, and none before it did."""
    goals, file = home_of(world, one, f"{one.enum}OneOf", "take")
    made = [f"use {TERMS}.{{here, not_here}}", f"use {goals} as goal"]
    last = len(one.groups()) - 1
    for at in range(last + 1):
        name = "returns" if at == last else f"returns-then-has_{at + 1}"
        term = f"c.take_{at + 1}.ensures"
        if at < last:
            term = f"here _ (rw number at c.has_{at + 1}.ensures) c.if-has_{at + 1}.true {term}"
        for before in reversed(range(at)):
            behind = term if term.startswith("c.") else f"({term})"
            term = f"not_here _ (rw number at c.has_{before + 1}.ensures) c.if-has_{before + 1}.false {behind}"
        made += ["", f"pub {name} : goal.{name}", f"{name} c =", "    let number = c.field_number-number.ensures in", f"    {term}"]
    return file, "\n".join(made) + "\n"


def answers_of_take(world, message):
    """The file of the answers of `take` of a message in blocks: of each block that it took the field, and that none before it did."""
    found = blocks(message)
    if not found:
        return None
    names = [it for it in (world.module, snake(message.rust)) if it]
    made = ["use Rattle.std.proofs.Common.{refl}", f"use {TERMS}.{{here, not_here}}"]
    made.append(f"use {'.'.join(['Rattle', world.crate, 'proofs', *names])}.{message.rust}MessageFields.take.Goals as goal")
    for at in range(len(found) + 1):
        is_last = at == len(found)
        name = f"returns-else-{place('has', at)}" if is_last else f"returns-then-{place('has', at + 1)}"
        took = f"c.{'keep' if message.is_keeping else 'pass'}.ensures" if is_last else took_by(message, found, at)
        for before in reversed(range(at)):
            took = f"not_here _ (rw number at {asked(before)}) c.if-{place('has', before + 1)}.false (refl, {took})"
        made += ["", f"pub {name} : goal.{name}", f"{name} c =", "    let number = c.field_number-number.ensures in", f"    {took}"]
    return f"{'/'.join(['../proofs', *names])}/{message.rust}MessageFields/take/Answers.antt", "\n".join(made) + "\n"


def place(word, count):
    """A word, with which of its places it is, but for the first."""
    return word if count == 1 else f"{word}-{count}"


def asked(at):
    """What is known of the answer whether a block has the number."""
    return f"c.has{'-else-' * (at > 0)}{place('has', at) if at else ''}.ensures"


def took_by(message, found, at):
    """That a block took the field, and those behind it stay."""
    left = len(found) - at - 1
    stays = "refl" if message.is_keeping and not found[at].keeps else "tt"
    call = "take" if at == 0 else f"take-then-{place('has', at + 1)}"
    behind = "(refl, " * left + stays + ")" * left
    return f"here _ (rw number at {asked(at)}) c.if-{place('has', at + 1)}.true (c.{call}.ensures, {behind})"
