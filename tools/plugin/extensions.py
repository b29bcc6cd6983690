"""Declared extensions: a function for each, which gives its `Extension`, and one that reads it where it has a declared default."""
from google.protobuf.descriptor_pb2 import FieldDescriptorProto as Field

import getters
from files import clean
from names import ESCAPED, KEYWORDS, MODULE, MODULES, TAKEN, member, snake
from proto import SCALARS, Declaration
from text import LITERAL_WIDTH, called, docs, prelude_line, uses
from world import MESSAGES

WIDTH = 100
# The file that has the functions, and what it is called where a type's file has the name.
FILE, OTHER_FILE = "extensions", "declared_extensions"
# Words of the clauses, which no function of the file can be called, and words of a function that reads an extension.
WORDS = set("IfOk IsDefaulted IsOk ReadsNumber codes negsuc option_map pos string_bytes".split())
READING = set("alloc message value".split())
TEXTS = {Field.TYPE_STRING: "StringCodec", Field.TYPE_BYTES: "BytesCodec"}
# The codecs of types, beside those of scalars, and what the functions call.
CODECS = {codec for codec, *_ in SCALARS.values()} - {"Str", "BytesVec"}
CODECS |= set(TEXTS.values()) | {"EnumCodec", "GroupCodec", "MessageCodec", "PackedRepeated", "Repeated"}
MODULE_OF = {
    **MODULE,
    **{it: "buffa_ext::codecs" for it in CODECS},
    **{it: "buffa_ext" for it in ("Extension", "ExtensionCodec", "ExtensionSet")},
    "AllocError": "std::alloc",
}


def local(name):
    """What the file calls a type of the .proto's: another name where it imports that of something else."""
    return f"{name}Type" if name in MODULE_OF else name


class Extension(Declaration):
    """A declared extension: the name of its function, its codec, and the type of its values; or why it isn't written."""

    def __init__(self, world, field):
        self.world, self.field, self.it, self.number = world, field, field.it, field.it.number
        self.is_case, self.needs, self.imports = False, set(), set()
        self.extendee = self.it.extendee.lstrip(".")
        if self.extendee not in world.found:
            field.refuse(f"it extends {clean(self.extendee)}, which no file has")
        self.target = self.it.type_name.lstrip(".")
        if self.target not in world.found and (self.it.type_name or self.it.type in (*MESSAGES, Field.TYPE_ENUM)):
            field.refuse(f"its type is {clean(self.target)}, which no file has")
        self.why = f"its type {self.target} is left out" if self.it.type_name and self.target not in world.types else ""
        if not self.why:
            self.codec = self.codec_of_all()
            self.see_default()

    def see_default(self):
        """Refuses a declared default that no function can say."""
        self.has_default = self.it.HasField("default_value")
        if self.has_default and (self.it.label == Field.LABEL_REPEATED or not self.is_default(self.it.default_value)):
            self.field.refuse(f"its default is none of its type ({clean(self.it.default_value)})")

    def codec_of_all(self):
        """The codec of the values together: of a list that of its elements, in records of their own or in one."""
        codec = self.codec_of_one()
        if self.it.label == Field.LABEL_REPEATED:
            can_be = self.it.type not in (*TEXTS, *MESSAGES)
            packed = self.it.options.packed if self.it.options.HasField("packed") else not self.field.file.is_closed
            name = "PackedRepeated" if can_be and packed else "Repeated"
            self.needs.add(name)
            return f"{name}<{codec}>"
        return codec

    def codec_of_one(self):
        """The codec of one value; the type of it, as a member that may be absent has it, is noted beside."""
        kind = self.it.type
        self.is_bytes = kind == Field.TYPE_STRING and bool(self.world.strings) and self.field.file.is_closed
        if kind in (*MESSAGES, Field.TYPE_ENUM):
            name = local(self.world.types[self.target])
            self.imports.add(self.target)
            self.rust = f"Option<EnumValue<{name}>>" if kind == Field.TYPE_ENUM else f"Option<{name}>"
            codec = {Field.TYPE_ENUM: "EnumCodec", Field.TYPE_GROUP: "GroupCodec"}.get(kind, "MessageCodec")
            self.needs.add(codec)
            return f"{codec}<{name}>"
        kind = Field.TYPE_BYTES if self.is_bytes else kind
        self.rust = f"Option<{SCALARS[kind][1]}>"
        codec = TEXTS.get(kind) or SCALARS[kind][0]
        self.needs.add(codec)
        return codec

    @property
    def value(self):
        """The Rust type of one value."""
        return self.rust[len("Option<") : -1]


def name_all(world, listed):
    """Gives each function its name, and sees that no two have one, nor names that differ in capitals alone."""
    taken = {}
    for it in listed:
        world.tries(name_one, world, it, taken)


def name_one(world, it, taken):
    names, at = [it.it.name], it.field.outer
    while at:
        names, at = [snake(at.it.name).strip("_")] + names, at.outer
    told = world.renamed.get(it.field.full)
    name = told or legal(it, "_".join(names))
    if told and legal(it, told) != told:
        it.field.refuse(f"no function can be called {told}", "write another name behind its rename=")
    other = taken.get(name.lower())
    if other and not told and other.field.file.it.package != it.field.file.it.package:
        name = legal(it, f"{it.field.file.it.package.replace('.', '_')}_{name}")
        world.tell(f"{it.field.at()}: its function is called {name}, since {other.field.full} has the shorter name")
    it.name = name
    for one in [name] + [f"{name}_or_default"] * it.has_default:
        other = taken.setdefault(one.lower(), it)
        if other is not it:
            way = f"give it another by --buffa_opt=rename={it.field.full}:NAME"
            it.field.refuse(f"the name of its function is that of {other.field.full}, too", way)


def legal(it, name):
    """The name of a function: that of a member, with `_` behind it where it is a word of the file, or of a type, too."""
    name = member(name)
    words = KEYWORDS | ESCAPED | MODULES | WORDS | TAKEN | set(MODULE_OF) | set(it.world.types.values())
    return name + "_" if name in words | (READING if it.has_default else set()) else name


def found(world):
    """The extensions that the files of the run declare."""
    made = [world.tries(Extension, world, it) for file in world.asked for it in file.extensions if not world.is_left(it)]
    made = [it for it in made if it]
    name_all(world, [it for it in made if not it.why])
    return made


def file_of(texts):
    """The name of the file: one that none of these has."""
    name = FILE
    while name in texts:
        name = OTHER_FILE if name == FILE else f"{name}_"
    return name


def write(world, listed, enums):
    """The file of the functions, and what is told of those that aren't written."""
    written = [it for it in listed if not it.why]
    protos = ", ".join(dict.fromkeys(it.field.file.shown for it in listed))
    made = [f"//! Extensions, made of {protos} by protoc-gen-buffa.", ""]
    made += head(world, written, enums) if written else []
    parts = [part for it in written for part in [function(it)] + [reader(it, enums)] * it.has_default]
    made += [line for part in parts for line in [*part, ""]]
    for it in (it for it in listed if it.why):
        made += [f"// {it.field.full} isn't written: {it.why}.", ""]
        world.tell(f"{it.field.at()}: it declares an extension, and isn't written: {it.why}")
    return "\n".join(made[:-1]) + "\n"


def head(world, written, enums):
    """What the file cites and imports."""
    read = [it for it in written if it.has_default]
    words = {"codes", "◌≡◌"}.union(*[{"IfOk", "Some"} | default(it, enums).words for it in read])
    words |= {"IsOk"} if any(is_number(it) for it in read) else set()
    names = {"Extension"}.union(*[it.needs for it in written], *[default(it, enums).needs for it in read])
    names |= {"AllocError", "ExtensionCodec", "ExtensionSet", "Global"} if read else set()
    made = [prelude_line(words).strip()]
    made += ["ghost use Rattle.buffa_ext.specs.Defaults.{IsDefaulted, ReadsNumber};"] * bool(read)
    return made + [""] + uses(world, names, set().union(*[it.imports for it in written]), MODULE_OF, local) + [""]


def said(it):
    """What the .proto has of an extension."""
    where = f" in the message {it.field.outer.full}" if it.field.outer else ""
    made = list(it.field.said) + [""] * bool(it.field.said)
    made += [f"extend {it.extendee} {{ {it.declared()} }}{where}"]
    made += ["", f"It is given without its default, which [`{it.name}_or_default`] has."] * it.has_default
    return made + ["", "It is an Item of a MessageSet, and its number a type id."] * is_item(it)


def is_item(it):
    """Whether an extension is of a MessageSet."""
    return it.world.found[it.extendee].it.options.message_set_wire_format


def function(it):
    """The function that gives the extension."""
    line = f"pub fn {it.name}() -> Extension<{it.codec}>"
    long = [f"pub fn {it.name}() -> Extension<", f"    {it.codec},", ">"]
    made = docs(said(it)) + ([line] if len(line) <= WIDTH else long)
    made += [f"    ensures number {{ result.number ≡ {it.number} }}"]
    made += [f'    ensures extendee {{ result.extendee.now ≡ codes "{it.extendee}" }}', "{"]
    return made + called("    ", f"Extension::<{it.codec}>::new", [str(it.number), f'"{it.extendee}"'], "") + ["}"]


def is_number(it):
    """Whether neither reading a value nor making its default takes memory."""
    return it.it.type not in TEXTS


class Default:
    """A declared default: the expression that makes it, how contracts see a value, what they call the default, and words and names in that."""

    def __init__(self, made, see, means, words, needs):
        self.made, self.see, self.means, self.words, self.needs = made, see, means, words, needs


def default(it, enums):
    """The declared default of an extension."""
    if it.it.type in TEXTS:
        codes, is_text = getters.codes_of(it), getters.is_text(it)
        means, words = getters.in_contract(codes)
        made = called("", "String::from_str" if is_text else "Vec::from_slice", ["alloc", getters.literal(codes, is_text)], "")
        see = "string_bytes" if is_text else "(λ it. it.items)"
        return Default(made, see, means, words | ({"string_bytes"} if is_text else set()) | {"option_map"}, {"String"} if is_text else set())
    if it.it.type in getters.REALS:
        bits = f"bits: {getters.bits(it)}"
        made = [f"Ok({it.value} {{ {bits} }})"] if len(bits) <= LITERAL_WIDTH else [f"Ok({it.value} {{", f"    {bits},", "})"]
        return Default(made, "(λ it. it.bits)", str(getters.bits(it)), {"option_map"}, {it.value})
    if it.it.type == Field.TYPE_ENUM:
        name, number = local(it.world.types[it.target]), getters.number_of(it, enums)
        made = [f"Ok(EnumValue::Known({name}::{getters.variant(it, enums)}))"]
        words = {"option_map", "true", number.split()[0]}
        return Default(made, f"⟦<EnumValue<{name}> as Blank>⟧.meaning", f"(true, {number})", words, {"Blank", "EnumValue"})
    value, means, words = getters.scalar(it)
    return Default([f"Ok({value})"], "", means, words, set())


def reader(it, enums):
    """The function that reads the extension, and where nothing is there gives the declared default."""
    own, codec = default(it, enums), f"⟦<{it.codec} as ExtensionCodec>⟧"
    seen = f"option_map {own.see} o" if own.see else "o"
    made = docs([f"What the message has for `{it.name}`, or where it has none the declared default: {it.default()}.", "A record that can't be read counts as none."])
    made += docs(["", "# Errors", "Where memory runs out."]) if not is_number(it) else []
    made += signature(it) + [f'    requires {{ M.fqn ≡ codes "{it.extendee}" }}']
    made += [f"    ensures value {{ IfOk result (λ v. IsDefaulted (ReadsNumber {codec}.reads"]
    made += [f"        {codec}.answer {it.number} (M.fields_of message.now))", f"        (λ o. {seen} ≡ Some {own.means}) ⊥ v) }}"]
    made += ["    ensures always { IsOk result }"] * is_number(it)
    made += ["{", *called("    ", "match message.extension", ["alloc", f"&{it.name}()"], "? {"), "        Some(value) => Ok(value),"]
    first, *rest = own.made
    made += [f"        None => {first}"] + [f"        {each}" for each in rest]
    return made[:-1] + [f"{made[-1]},", "    }", "}"]


def signature(it):
    """The head of the function that reads the extension."""
    head, returns = f"pub fn {it.name}_or_default", f" -> Result<{it.value}, AllocError>"
    if len(head) + len("<M: ExtensionSet>(") > WIDTH:
        return [f"{head}<", "    M: ExtensionSet,", f">(alloc: Global, message: &M){returns}"]
    return called("", f"{head}<M: ExtensionSet>", ["alloc: Global", "message: &M"], returns)
