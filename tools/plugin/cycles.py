"""Messages that hold themselves, or one another: what is held as encodings, and what can't be."""
from google.protobuf.descriptor_pb2 import FieldDescriptorProto as Field

from files import Name
from world import MESSAGES


class Edge:
    """A field by which a message holds another."""

    def __init__(self, world, message, at):
        self.it = message.it.field[at]
        self.field = Name(message.file, message.path + (2, at), f"{message.full}.{self.it.name}", self.it)
        entry = world.entries.get(self.it.type_name)
        value = entry.field[1] if entry else self.it
        self.is_case = self.it.HasField("oneof_index") and not self.it.proto3_optional
        self.is_map = bool(entry)
        is_told = self.field.full in world.left | world.fields["encoded"]
        self.to = None if is_told or value.type not in MESSAGES else world.target(self.it)
        self.is_group = not entry and (self.it.type == Field.TYPE_GROUP or self.field.full in world.fields["delimited"])


def hold_as_encodings(world):
    """Finds the fields that messages can't have as messages, since they would hold themselves: these are held as encodings, and told.

    A message may hold itself in lists, in maps and in single messages; in a oneof it is held as encodings. Of messages that hold one
    another, the field that comes last on the way around is, and one in no oneof before one that is in one.
    """
    messages = [it for it in world.order if not hasattr(it.it, "value")]
    edges = {it.full: [Edge(world, it, at) for at in range(len(it.it.field))] for it in messages}
    for full, out in edges.items():
        own = [e for e in out if e.to == full]
        edges[full] = [e for e in out if e.to and e.to != full]
        encode(world, [e for e in own if e.is_case and not e.is_group])
    done, found = set(), None

    def walk(full, way):
        """Goes on from a message, to which these fields led, each with the message that has it."""
        above = [it for it, _ in way] + [full]
        for edge in (it for it in edges[full] if it.field.full not in world.encoded):
            if edge.to not in above:
                if edge.to not in done:
                    walk(edge.to, way + [(full, edge)])
                continue
            around = [it for _, it in way[above.index(edge.to) :]] + [edge]
            if any(it.field.full in world.encoded for it in around):
                continue
            can_be = [it for it in around if not it.is_group]
            alone = [it for it in can_be if not it.is_case]
            encode(world, (alone or can_be)[-1:], above[above.index(edge.to) :])
        done.add(full)

    # A way around may lead through a message that was left already when another one was cut: so until nothing more is found.
    while found != len(world.encoded):
        found = len(world.encoded)
        done.clear()
        for message in messages:
            if message.full not in done:
                walk(message.full, [])


def encode(world, edges, around=()):
    """Holds what is behind these fields as encodings. The messages around hold one another."""
    for edge in edges:
        world.encoded.add(edge.field.full)
        if not world.is_mapped(edge.to):
            held = "a Vec<u8>, its encoding," if edge.is_case else f"a {'map' if edge.is_map else 'list'} of encodings, each a Vec<u8>,"
            others = " and ".join(it for it in around if it != edge.to)
            through = f" through {others}" if others else " in a oneof" if edge.is_case else ""
            world.tell(f"{edge.field.at()}: it is {held} which merge_from_slice reads, since {edge.to} would hold itself{through} otherwise")


def see_no_cycle(world, messages):
    """Refuses what is left of messages that hold themselves: groups, which have no encodings of their own."""
    done = set()

    def walk(full, above):
        if full in above:
            path = " in ".join(reversed(above[above.index(full) :] + [full]))
            why = f"it holds itself ({path}) in a group, which isn't written"
            messages[full].name.refuse(why, "leave=NAME leaves out the field NAME")
        for member in messages[full].members:
            for inner in member.inside:
                if inner in messages and inner not in done:
                    walk(inner, above + [full])
        done.add(full)

    for full in messages:
        if full not in done:
            world.tries(walk, full, [])
            done.add(full)
