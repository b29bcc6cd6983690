"""What is derived of a message's struct, and of the enum of a oneof."""


def find_compared(messages):
    """Says of each message whether `==` and `clone` are derived of it: not where it holds itself, or a message in it, at any depth, does."""
    without, before = {full for full, m in messages.items() if m.holds_itself}, None
    while without != before:
        before = set(without)
        without |= {full for full, m in messages.items() if any(before & set(k.inside) for k in m.members)}
    for full, message in messages.items():
        message.is_compared = full not in without
        for one in message.oneofs:
            one.is_compared = not without & set(one.inside)


def derives(it):
    """The line of what is derived."""
    made = ["Debug", "Drop"]
    if it.is_compared:
        made = ["Clone"] * bool(it.world.clone) + made + ["PartialEq", "Eq"] * bool(it.world.equal)
    return f"#[derive({', '.join(made)})]"


def says_what_is_missing(message):
    """What a message's comment says of what was asked for and isn't derived of it."""
    asked = ["`==`"] * bool(message.world.equal) + ["`clone`"] * bool(message.world.clone)
    if message.is_compared or not asked:
        return []
    missing = f"neither {' nor '.join(asked)}" if len(asked) > 1 else f"no {asked[0]}"
    return ["", f"It has {missing}, since it holds itself, or a message in it does."]
