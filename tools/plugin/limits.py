"""What is written though the checker may not prove it: the messages that pass a limit that was measured, and the parameter that helps."""

from depths import MOST_IN_CASES

# Of a message that holds itself `take` was proved with as many members. Of more it wasn't tried.
MOST_INSIDE_ITSELF = 18


def passed(message, messages):
    """The limits that a message passes: of each what it is, and what to do."""
    many, own = len(message.members), [k for k in message.members if k.itself]
    if own and many > MOST_INSIDE_ITSELF:
        why = f"it holds itself and has {many} members: one of {MOST_INSIDE_ITSELF} was proved, and none of more was tried"
        yield why, f"hold its own messages as encodings, by {parameters('encoded', own)}, or leave members out by leave=NAME"
    for one in message.oneofs:
        held = [(k, messages[it]) for k in one.cases for it in k.inside if it in messages]
        size = sum(it.size for _, it in held)
        if size > MOST_IN_CASES:
            largest = [max(held, key=lambda it: it[1].size)[0]]
            why = f"the messages in its oneof {one.it.name} have {size} members together: the checker took {MOST_IN_CASES}, and not 96"
            yield why, f"hold the largest as encodings, as by {parameters('encoded', largest)}, or leave members out by leave=NAME"


def parameters(key, members):
    """The parameters that name some members."""
    return "--buffa_opt=" + ",".join(f"{key}={k.field.full}" for k in members)


def remarks(message, messages):
    """What the comment of a message says of the limits that it passes."""
    return [line for why, _ in passed(message, messages) for line in ("", f"A check may not prove it: {why}.")]


def tell(world, messages):
    """Says of each message that is written which limits it passes."""
    for message in (it for it in messages.values() if not world.is_mapped(it.name.full)):
        for why, way in passed(message, messages):
            world.tell(f"{message.name.at()}: a check may not prove it: {why}: {way}")
