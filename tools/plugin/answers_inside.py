"""The answers of messages that hold themselves: of `visit`, that what comes next waits, and of `take`, which member took a field."""
import members_inside
from names import TERMS, ordered, snake
from oneof import OneOf


def head(world, message, call):
    """The folder of a call's answers, beside `src`, and the line that names its goals."""
    names = [it for it in (world.module, snake(message.rust)) if it]
    module = ".".join(["Rattle", world.crate, "proofs", *names, f"{message.rust}RecursiveFields", call, "Goals"])
    return "/".join(["../proofs", *names, f"{message.rust}RecursiveFields", call, "Answers.antt"]), f"use {module} as goal"


def numbered(word, count):
    """The name that the checker gives the so-manieth of some calls."""
    return word if count == 1 else f"{word}-{count}"


def steps(message):
    """Of each member the word of its call in `visit`, and which of these calls it is."""
    counts, made = {}, []
    for k in message.members:
        word = "visit_one_of" if isinstance(k, OneOf) else f"visit_{k.itself}" if k.itself else "visit_with_unknowns" if k.keeps else "visit"
        counts[word] = counts.get(word, 0) + 1
        made.append((word, counts[word]))
    return made


def holds(message, member):
    """Whether there are messages in a member."""
    found = message.world.found
    return bool(member.itself) or any(it in found and hasattr(found[it].it, "field") for it in member.inside)


def visit(world, message):
    """The answers of `visit`: of each member with messages in it that these wait, and that all of them were seen."""
    file, goals = head(world, message, "visit")
    made, waits = ["use Rattle.std.proofs.Common.{sym}", goals], "all"
    seen = "z h"
    for member, (word, count) in zip(message.members, steps(message)):
        if holds(message, member):
            name = f"{numbered(f'{word}-requires', count)}{'' if isinstance(member, OneOf) else '-clause-comes'}"
            made += ["", f"pub {name} : goal.{name}", f"{name} g c =", "    let all = rw (sym c.self.view_is) at c.requires.waits in"]
            made.append(f"    g.V.RecursiveVisitor.begins _ _ _ {waits}")
        waits = f"(c.{numbered(word, count)}.ensures.waits _ {waits})"
        seen = f"c.{numbered(word, count)}.ensures.seen {'_ (' * (seen != 'z h')}{seen}{')' * (seen != 'z h')}"
    if message.is_keeping:
        seen = f"c.visit_unknown_fields.ensures.seen _ ({seen})"
    name = "returns-clause-seen"
    return file, made + ["", f"pub {name} : goal.{name}", f"{name} g c = rw (sym c.self.view_is) (λ z h. {seen})"]


def arms(message):
    """Of each arm of `take` its number, the place of its member, and the step of its call."""
    seen, made = set(), []
    for at, k in enumerate(message.members):
        word = f"take_{k.itself}" if k.itself else "take_one_of" if isinstance(k, OneOf) else "merge_with_unknowns" if k.keeps else "merge"
        for number in numbers(k):
            made.append((number, at, f"{word}-in-{number}" if word in seen else word))
            seen.add(word)
    return made


def numbers(member):
    """The numbers of a member: those of its cases, where it is a oneof."""
    return [it.number for it in getattr(member, "cases", [member])]


def is_mine(one):
    """That a number is one of a oneof's cases."""
    made = "false"
    for number in reversed(numbers(one)):
        made = f"n == {number} || ({made})" if made != "false" else f"n == {number} || false"
    return made


def behind(message, at):
    """That what stands behind a member stays; of one that puts aside what it doesn't understand, all but what is kept."""
    left = len(message.members) - at - 1
    last = "refl" if message.is_keeping and not message.members[at].keeps else "tt"
    return "(refl, " * left + last + ")" * left


def took_by(member, step):
    """What the contract of the call says that took a field: one clause, or the four of `Member::merge`."""
    if member.itself or isinstance(member, OneOf) or member.keeps:
        return f"c.{step}.ensures"
    return f"({', '.join(f'c.{step}.ensures.{clause}' for clause in ('taken', 'memory', 'wrong_type', 'refused'))})"


def term(message, number, at, step):
    """That the member at this place took the field of a number."""
    took = f"({took_by(message.members[at], step)}, {behind(message, at)})"
    made = f"rw mine {took}" if isinstance(message.members[at], OneOf) else f"chosen _ n {number} is {took}"
    for before in reversed(message.members[:at]):
        if isinstance(before, OneOf):
            made = f"rw past-{before.number} (refl, {made})"
        else:
            made = f"not_chosen _ n {before.number} (λ e. let no = sym is ∙ e in cc) (refl, {made})"
    return made


def unfolded(member):
    """The words that the answers of a member look into."""
    if member.itself or isinstance(member, OneOf):
        return []
    return ["TookWithUnknowns"] if member.keeps else ["AsksAsSaid", "RefusesAsSaid", "TakesAsSaid", "TellsWrongType"]


def take(world, message):
    """The answers of `take`: of each number, that it is none of a member before, and that the members behind stay."""
    file, goals = head(world, message, "take")
    if len(message.members) > members_inside.MOST_PASSED:
        return file, members_inside.take(world, message, goals, arms(message), took_by)
    terms = [term(message, *it) for it in arms(message)]
    words = {"◌∙◌", "refl", "sym"} | ({"◌≡◌", "◌==◌", "◌||◌", "false", "true"} if message.oneofs else set())
    facts = {it for it in ("chosen", "not_chosen") if any(f"{it} _" in made.replace("not_chosen" * (it == "chosen"), "") for made in terms)}
    looked = {word for k in message.members for word in unfolded(k)}
    made = [f"use Rattle.std.proofs.Common.{{{', '.join(ordered(words))}}}"]
    made += [f"use {TERMS}.{{{', '.join(ordered(facts | looked))}}}", goals]
    for (number, at, _), proof in zip(arms(message), terms):
        name, member = f"returns-in-{number}-clause-taken", message.members[at]
        made += ["", f"pub {name} : goal.{name}"] + [f"unfolding {' '.join(unfolded(member))}"] * bool(unfolded(member))
        made += [f"{name} g c =", "    let n = c.args.tag.number in", f"    let is = sym c.field_number.ensures ∙ c.in-{number}.is in"]
        made += [f"    let past-{k.number} : ({is_mine(k)}) ≡ false = rw is refl in" for k in message.members[:at] if isinstance(k, OneOf)]
        made += [f"    let mine : ({is_mine(member)}) ≡ true = rw is refl in"] * isinstance(member, OneOf)
        made.append(f"    rw (sym c.self.view_is) ({proof})")
    return file, made


def answers_inside(world, message):
    """The files of the answers, each by its name beside `src`."""
    return [(file, "\n".join(made) + "\n") for file, made in (visit(world, message), take(world, message))]
