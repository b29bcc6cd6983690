"""How deep what a message means is, and which messages have a meaning with a name of its own, so that it doesn't get too deep; and how deep
its struct is."""

# The checker takes types that are some 60 deep, and a message that holds another one only where this has some 30 messages in it,
# each counted wherever it stands. A meaning that is deeper than this, or has more messages in it, gets a name.
DEEPEST = 40
MOST_MESSAGES = 24
# The messages of a oneof had as many members together, with those of the messages in them, where the checker covered `visit` of the message.
# Of 96 it didn't, since that is generic over types that are too large. Of more, the largest get a name, until so many are left.
MOST_IN_CASES = 76
LEFT_IN_CASES = 40

# The checker takes structs, enums and references one in the other so deep. What is in a Box, a Vec or a map is behind a pointer, and
# doesn't count. What isn't named is a number, or a closed enum, which is 1 deep.
DEEPEST_STRUCT = 64
STRUCTS = {"BTreeMap": 5, "Box": 3, "Bytes": 3, "DoubleBits": 1, "EnumValue": 2, "FloatBits": 1, "Map": 5, "String": 4, "Vec": 3}
# The fields that are kept are so deep.
KEPT = 4


def own_depth(means):
    """How deep a type is, but for the messages in it."""
    depth = most = 0
    for char in means:
        depth += (char in "<[(") - (char in ">])")
        most = max(most, depth)
    return most


def depth(message, depths):
    """How deep the pairs of what the members mean are, with those of messages inside that have no name of their own."""
    from blocks import pieces

    inside = [k.own_depth + max([depths.get(it, 0) for it in k.inside], default=0) for k in pieces(message)]
    return max((at + 1 + it for at, it in enumerate(inside)), default=0) + message.is_keeping


def struct_depth(rust, inner):
    """How deep a type is, where the message in it, if one is, is so deep."""
    if rust.startswith("Option<Box<"):
        return STRUCTS["Box"] + 1
    if rust.startswith("Option<"):
        return 1 + struct_depth(rust[7:-1], inner)
    return STRUCTS.get(rust.split("<")[0], inner)


def member_depth(member, depths):
    """How deep a member's type is: its cases stand in an enum in an Option."""
    if hasattr(member, "cases"):
        return 2 + max(struct_depth(k.value, in_field(k, depths)) for k in member.cases)
    return struct_depth(member.rust, in_field(member, depths))


def in_field(member, depths):
    """How deep the message, or the closed enum, of a field is."""
    return max([depths.get(it, 1) for it in member.inside], default=0)


def see_structs(world, messages):
    """Refuses messages whose structs are too deep, from the innermost outwards, each as if those in it had been mended."""
    depths = {}

    def see(message):
        if message.name.full in depths:
            return
        depths[message.name.full] = 1
        for inner in [messages[it] for k in message.members for it in k.inside if it in messages]:
            see(inner)
        found = {k: member_depth(k, depths) for k in message.members}
        deep = 1 + max([*found.values(), (KEPT + bool(message.rest)) * message.is_keeping])
        if deep <= DEEPEST_STRUCT:
            depths[message.name.full] = deep
            return
        most = max(found, key=found.get)
        fields = getattr(most, "cases", [most])
        field = max(fields, key=lambda k: in_field(k, depths))
        depths[message.name.full] = 1 + KEPT
        world.tries(message.see_depth, deep, field)

    for message in messages.values():
        see(message)


def name_meanings(messages):
    """Gives those a meaning with a name that are too deep, from the innermost outwards. A message that holds itself means itself. Counts of
    each message the members, with those of the messages in it, but for what has a name."""
    depths, counts = {}, {}

    def see(message):
        full = message.name.full
        if full in depths:
            return
        depths[full], counts[full], message.size = 0, 1, 1
        inside = [messages[it] for k in message.members for it in k.inside if it in messages]
        for inner in inside:
            see(inner)
        for one in message.oneofs:
            see_cases([messages[it] for k in one.cases for it in k.inside if it in messages])
        count = 1 + sum(counts[it.name.full] for it in inside)
        deep = depth(message, depths)
        message.is_opaque = not message.holds_itself and (deep > DEEPEST or count > MOST_MESSAGES)
        depths[full], counts[full], message.size = deep, count, len(message.fields) + sum(it.size for it in inside)
        if message.holds_itself or message.is_opaque:
            depths[full] = counts[full] = message.size = 1

    def see_cases(cases):
        """Gives a name to the largest messages of a oneof that have too many members together. Those of another module keep theirs."""
        is_large = sum(it.size for it in cases) > MOST_IN_CASES
        for message in sorted(cases, key=lambda it: -it.size):
            if is_large and sum(it.size for it in cases) > LEFT_IN_CASES and not message.world.is_mapped(message.name.full):
                message.is_opaque = not message.holds_itself
                depths[message.name.full] = counts[message.name.full] = message.size = 1

    for message in messages.values():
        see(message)
