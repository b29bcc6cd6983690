"""A oneof: the member of the message that has it, and the file of its enum, laid out as rt fmt has it."""
import math

from depths import own_depth
from derived import derives
from names import EITHER, TAKEN, TERMS, variant

# As many cases of one oneof are written.
MOST_CASES = 40
# As many cases stand one after the other. Of more, some stand together: each is found in few steps, and such a group has a function of its
# own that takes its fields.
MOST_APART = 12
LEAST_TOGETHER = 8


class OneOf:
    """How a oneof stands in its message: as one member, which is an enum of its cases in an Option."""

    is_required = is_list = is_encoded = is_bytes = keeps = has_getter = False
    itself = None

    def __init__(self, world, field, name, cases, others):
        self.world, self.field, self.it, self.name = world, field, field.it, name
        self.cases = sorted(cases, key=lambda k: k.number)
        self.number = self.cases[0].number
        # Cases that another field's number is before, and that are written before it, since the first is.
        self.parted = [k for k in self.cases if any(self.number < it.number < k.number for it in others)]
        self.enum, self.told, self.imports = world.types[field.full], set(), [field.full]
        self.in_contract, self.needs = name, {"OneOf", "visit_one_of"}
        self.inside = [it for k in self.cases for it in k.inside]
        self.rust, self.means, self.blank = f"Option<{self.enum}>", f"Option<<{self.enum} as OneOf>::Meaning>", "None"
        # The cases are one in the other.
        self.own_depth = max(self.steps(at) + 2 + own_depth(k.said) for at, k in enumerate(self.cases))
        self.variants = {}
        for case in self.cases:
            self.name_variant(case)

    def name_variant(self, case):
        """Gives a case its name."""
        rust = variant(case.name.rstrip("_"), self.enum)
        other = self.variants.setdefault(rust, case)
        if other is not case:
            case.field.refuse(f"the name of its case is that of {other.field.full}, too")
        case.variant = rust
        # The type of a message may have the name, too, and so may what contracts import.
        is_taken = rust in set(self.world.types.values()) | TAKEN | {"This", "Other"}
        case.in_elim = rust + "Case" if is_taken else rust

    def cost_of(self, messages):
        """The bytes of the largest case, with those that say which it is, and whether one is."""
        return 16 + max(k.cost_alone or messages[k.inside[-1]].cost(messages) for k in self.cases)

    def groups(self):
        """The cases, in groups of those that stand together: as many in each as there are groups, or some."""
        if len(self.cases) <= MOST_APART:
            return [self.cases]
        size = max(LEAST_TOGETHER, math.isqrt(len(self.cases) - 1) + 1)
        return [self.cases[at : at + size] for at in range(0, len(self.cases), size)]

    def steps(self, at):
        """In how many steps a case is found."""
        return len(self.way(at)) - 1

    def way(self, at):
        """How a case is found: the first of two is `This`, and the second `Other`; the groups first, and then the cases of its group."""
        size = len(self.groups()[0])
        group, within = divmod(at, size)
        return ["Other"] * group + ["This"] * (group < len(self.groups()) - 1) + ["Other"] * within + ["This"]

    def declared(self):
        return [f"oneof {self.it.name} {{"] + [f"    {k.declared()}" for k in self.cases] + ["}"]


def nested(items, node):
    """The items one in the other, by what makes one of an item and those behind it."""
    return items[0] if len(items) == 1 else node(items[0], nested(items[1:], node))


def uses_of_enum(one):
    """The names that the file of an enum imports, by their words."""
    needs = set().union(*(k.needs for k in one.cases))
    needs |= {"Case", "case_reads_back", "DecodeContext", "DecodeError", "Global", "OneOf", "Or", "Set", "Tag", "Visitor"}
    return needs | ({"Blank"} if any(" as Blank>" in k.said for k in one.cases) else set())


def head(one, crate, module):
    """What contracts cite."""
    variants = [k.variant if k.in_elim == k.variant else f"{k.variant} as {k.in_elim}" for k in one.cases]
    path = ".".join(["Rattle", crate, "specs.declared", *module, one.enum, "TheVariants"])
    in_groups = len(one.groups()) > 1
    words = sorted(["case", "enum_of", "no_case", *["budget_left", "other_of", "some_cases", "this_of"] * in_groups])
    made = [f"ghost use {TERMS}.{{{', '.join(words)}}};", f"ghost use {EITHER}.{{Other, This}};"]
    if in_groups:
        more = ["std.specs.Prelude.{◌≡◌, ◌==◌, ◌||◌, false}", "std.specs.Option.{option_map}"]
        made = [f"ghost use Rattle.{it};" for it in more] + made
    return made + [f"ghost use {path}.{{{', '.join(sorted(variants))}}};", ""]


def enum(one, docs):
    """The enum, with what the .proto says of it and of its cases."""
    made = docs(one.field.said + [""] * bool(one.field.said) + one.declared())
    made += [derives(one), f"pub enum {one.enum} {{"]
    for case in one.cases:
        made += docs(case.field.said, "    ") + [f"    {case.variant}({case.value}),"]
    return made + ["}", ""]


def meaning(one):
    """What the cases mean, one in the other."""
    groups = []
    for cases in one.groups():
        group = "()"
        for case in reversed(cases):
            group = (case.said, group)
        groups.append(group)
    return folded("    type Meaning = ", nested(groups, lambda a, b: (a, b)), ";")


def spelled(tree):
    """The type of a tree of cases, on one line."""
    return tree if isinstance(tree, str) else f"Or<{spelled(tree[0])}, {spelled(tree[1])}>"


def folded(head, tree, end):
    """The same over several lines: what is left of the cases stands on one line as soon as it fits."""
    line = f"{head}{spelled(tree)}{end}"
    if len(line) <= 100 or isinstance(tree, str):
        return [line]
    indent = " " * (len(head) - len(head.lstrip()))
    return [f"{head}Or<", *folded(f"{indent}    ", tree[0], ","), *folded(f"{indent}    ", tree[1], ","), f"{indent}>{end}"]


def cases(one):
    """The cases in contracts: each under its number, and which of them a value is."""
    groups = [[*(f"case {k.number} ⟦<{k.member_type} as Case>⟧.words (" for k in cases), f"no_case{')' * len(cases)}"] for cases in one.groups()]
    made = nested(groups, lambda a, b: [f"some_cases ({a[0]}", *a[1:-1], f"{a[-1]}) (", *b[:-1], f"{b[-1]})"])
    made = [f"    ghost cases = {{ enum_of ({made[0]}"] + [f"        {it}" for it in made[1:]]
    made[-1] += ") (λ m. elim m ["
    for at, case in enumerate(one.cases):
        steps = one.way(at)
        made.append(f"          | {case.in_elim} x ↦ {''.join(f'{it} (' for it in steps[:-1])}{steps[-1]} x{')' * (len(steps) - 1)}")
    return made + ["        ]) };", ""]


def visit(one):
    made = ["    fn visit<V: Visitor>(&self, visitor: &mut V) {", "        match self {"]
    for case in one.cases:
        head = f"            {one.enum}::{case.variant}(it) =>"
        call = f"visitor.visit::<Set<{case.member_type}>>({case.number}, it)"
        if len(head) + len(call) + 2 <= 100:
            made.append(f"{head} {call},")
        else:
            made += [f"{head} {{", f"                {call}", "            }"]
    return made + ["        }", "    }", ""]


def merge_value(one, case):
    """The arm by which a message is merged into its own case, where that stands."""
    head = f"                Some({one.enum}::{case.variant}(it)) => "
    call = f"{case.member_type.replace('<', '::<', 1)}::merge_value(it, alloc, tag, buf, ctx)"
    if len(head) + len(call) < 100:
        return [f"{head}{call},"]
    return [f"{head}{{", f"                    {call}", "                }"]


def read_value(one, case, head, indent):
    """The arm by which what is read takes the place of what stands; a refused field leaves that."""
    call = f"{case.member_type.replace('<', '::<', 1)}::read_value(alloc, tag, buf, ctx)?;"
    made = [f"{indent}{head} => {{", f"{indent}    let it = {call}"]
    if len(made[-1]) > 100:
        made[-1:] = [f"{indent}    let it =", f"{indent}        {call}"]
    return made + [f"{indent}    drop(slot.replace({one.enum}::{case.variant}(it)));", f"{indent}    Ok(())", f"{indent}}}"]


def head_of_take(one, name):
    """The head of a function that takes a field, but for its contract."""
    made = [f"    fn {name}("]
    made += [f"        {it}," for it in (f"slot: &mut Option<{one.enum}>", "alloc: Global", "tag: Tag", "buf: &mut &[u8]", "ctx: DecodeContext<'_>")]
    return [*made, "    ) -> Result<(), DecodeError>"]


def arms(one, cases):
    """The arms of some cases: a message is merged into its own case, where that stands."""
    made = ["        match tag.field_number() {"]
    for case in cases:
        if case.is_message:
            made += [f"            {case.number} => match slot {{"] + merge_value(one, case)
            made += read_value(one, case, "_", "                ") + ["            },"]
        else:
            made += read_value(one, case, str(case.number), "            ")
    return made + ["            _ => Ok(()),", "        }", "    }"]


def take(one):
    """The function that takes a field. Of many cases it hands the field on to the function of the group that has its number, or the last."""
    head = head_of_take(one, "take")
    head[-1] += " {"
    if len(one.groups()) == 1:
        return head + arms(one, one.cases)
    made, indent = [*head, "        let number = tag.field_number();"], "        "
    for at in range(1, len(one.groups())):
        made += [f"{indent}if {one.enum}::has_{at}(number) {{", f"{indent}    return {one.enum}::take_{at}(slot, alloc, tag, buf, ctx);", f"{indent}}}"]
    return made + [f"{indent}{one.enum}::take_{len(one.groups())}(slot, alloc, tag, buf, ctx)", "    }"]


def test_of(cases):
    """That a number is that of one of some cases, in contracts, over several lines."""
    lines = ["            ≡ ("]
    for at, case in enumerate(cases):
        if len(lines[-1]) > 100:
            lines.append("            ")
        lines[-1] += f"{'(' * (at > 0)}number == {case.number} || "
    lines[-1] += f"false{')' * len(cases)} }}"
    return [it.rstrip() for it in lines]


def has(cases, at):
    """The function that says whether a group has a case of a number."""
    made = [f"    // Whether one of the cases {cases[0].number} to {cases[-1].number} has the number.", f"    fn has_{at}(number: u32) -> bool"]
    made += ["        ensures { result", *test_of(cases), "    {"]
    line = " || ".join(f"number == {k.number}" for k in cases)
    if len(line) > 92:
        return made + [f"        number == {cases[0].number}"] + [f"            || number == {k.number}" for k in cases[1:]] + ["    }"]
    return made + [f"        {line}", "    }"]


def group_of(one, at):
    """How the cases of a group are found in an enum, in contracts."""
    steps = ["this_of"] * (at < len(one.groups()) - 1) + ["other_of"] * at
    return f"(λ o. {''.join(f'{it} (' for it in steps)}option_map ⟦<{one.enum} as OneOf>⟧.cases.view o{')' * len(steps)})"


def takes_of_groups(one):
    """The functions that take the fields of each group of cases, and say whether it has a number."""
    if len(one.groups()) == 1:
        return []
    made = ["", f"impl {one.enum} {{"]
    for at, cases in enumerate(one.groups()):
        made += [""] * (at > 0) + ([*has(cases, at + 1), ""] if at < len(one.groups()) - 1 else [])
        made += [f"    // Takes a field of the cases {cases[0].number} to {cases[-1].number}."] + head_of_take(one, f"take_{at + 1}")
        words = [f"case {k.number} ⟦<{k.member_type} as Case>⟧.words (" for k in cases] + [f"no_case{')' * len(cases)}).cases.Took {group_of(one, at)}"]
        made += [f"        ensures {{ ({words[0]}"] + [f"            {it}" for it in words[1:]]
        made += ["            ctx.entry.depth slot.old tag.number tag.wire_type buf.old.now ctx.entry.budget.now result slot.new"]
        made += ["            (budget_left ctx.exit) buf.new.now }", "    {"] + arms(one, cases)
    return made + ["}"]


def reads_back(one):
    return ["", "    fn reads_back() {"] + [f"        case_reads_back::<{k.member_type}>();" for k in one.cases] + ["    }"]
