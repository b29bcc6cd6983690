"""The names of files, types and members that the plugin gives, and the modules that the names of the form stand in."""
import re

# Words that can't name a member, of Rust and of contracts; and those that contracts write between « and ».
KEYWORDS = set(
    "as async await become box break const continue crate do dyn else enum extern false final fn for gen ghost if impl in let "
    "loop macro match mod move mut override priv pub ref return requires ensures self static struct super trait true try type "
    "typeof unsafe unsized use virtual where while yield deriving abstract Self".split()
)
ESCAPED = set(
    "data record module package open unfoldable abbrev axiom unfold unfolding ruleset mutual infix infixl infixr elim coe fcoe "
    "tcoe hcom com Type".split()
)
# Words that can't name an enum's value, beside an upper-case letter: of Rust, of contracts, and those that its file imports.
VALUES = set("None Some Self Type".split())
# Modules that a crate reads as its own libraries, or that contracts have.
MODULES = set("std core buffa buffa_ext buffa_fields buffa_recursive bytes anyhow hex indexmap thiserror lib prim".split())
CODECS = set(
    "Bool BytesBuf BytesVec ClosedEnum Double Fixed32 Fixed64 Float Int32 Int64 Map OpenEnum Sfixed32 Sfixed64 Sint32 Sint64 Str Uint32 Uint64".split()
)

# What a member is called that has a name without letters and digits.
UNNAMED = "unnamed"
# As many letters the name of a file has, but for its ending: a file system takes 255, and folders of answers have longer names.
LONGEST_FILE = 200

# The module of each name.
MODULE = {
    **{it: "buffa_fields::map_codec" for it in CODECS},
    **{it: "buffa_fields" for it in ["And"] + [f"And{n}" for n in range(3, 17)]},
    **{it: "buffa_fields" for it in "Blank Case DecodeContext DecodeError DoubleBits EnumValue Enumeration FloatBits MessageImpl".split()},
    **{it: "buffa_fields" for it in "GroupField KeepsUnknowns Unknowns FieldByField FieldsMeaning MapField MessageMapField Member MemberBlock MessageField MessageFields OneOf".split()},
    **{it: "buffa_fields" for it in "ExplicitField Or OrderedMapField OrderedMessageMapField PackedField ImplicitField RepeatedField RepeatedGroupField".split()},
    **{it: "buffa_fields" for it in "RepeatedMessageField Required Set Tag UnknownFields Visitor case_reads_back unknown visit_one_of".split()},
    **{it: "buffa_recursive" for it in "ByKey Keyed RecursiveType RecursiveFields RecursiveFieldByField RecursiveMeaning InnerMerger RecursiveVisitor".split()},
    **{it: "buffa_recursive" for it in "take_list take_map take_one take_one_of".split()},
    **{it: "buffa_recursive" for it in "RequiredCases RequiredMeaning RequiredMember SelfAsked SelfAsker SelfRequired".split()},
    **{it: "buffa_recursive" for it in "list_initialized map_initialized one_initialized tree_initialized".split()},
    "ExtensionSet": "buffa_ext",
    "NamedMessage": "buffa_types",
    "Bytes": "bytes",
    "Global": "std::alloc",
    "BTreeMap": "std::collections",
    "Model": "std::marker",
    "String": "std::string",
}
# The words of contracts are imported from here: those of all messages, and those of messages that hold themselves.
TERMS = "Rattle.buffa_fields.specs.Terms"
TERMS_INSIDE = "Rattle.buffa_recursive.specs.Terms"
# Which of two the case of a oneof is. A crate hands no variants of its own types on, so they are imported from where they stand.
EITHER = "Rattle.buffa_fields.specs.declared.meaning.Or.TheVariants"
# Names that a type of one's own can't have beside those.
TAKEN = set(MODULE) | set("Option Result Vec Some None Ok Err Box Self TheLinks I V".split())


def snake(name):
    """The name of a file: `ErrorInfo` is in error_info, `In` in in_."""
    name = re.sub(r"([A-Z]+)([A-Z][a-z])", r"\1_\2", name)
    name = re.sub(r"([a-z0-9])([A-Z])", r"\1_\2", name).lower()
    return name + "_" if name in KEYWORDS | ESCAPED | MODULES else name


def camel(name):
    """The name of a type or of a value: `OPEN_AIR` is OpenAir."""
    parts = [it for it in name.split("_") if it]
    return "".join(it[0].upper() + (it[1:].lower() if it.isupper() else it[1:]) for it in parts)


def is_free_type(name, ending):
    """The name of a type, with this ending where the form or the language has the name, or it isn't one of a type."""
    if not name[:1].isalpha():
        return ending + name
    return name + ending if name in TAKEN else name


def variant(name, type_name):
    """The name of an enum's value, with `Value` where the language has it, or where it isn't one."""
    name = camel(name)
    if name in VALUES or name == type_name:
        return name + "Value"
    return name if name[:1].isalpha() else "Value" + name


def is_variant(name, type_name):
    """Whether a value of the enum can have this name."""
    return name.isalnum() and name[0].isupper() and name not in VALUES and name != type_name


def member(name):
    """The name of a member: with `_` behind it where it is a word of the language, or that of the fields that are kept."""
    if not name.strip("_"):
        return UNNAMED
    return name + "_" if name in KEYWORDS | {"unknown_fields"} else name


def place(name):
    """Where rt fmt puts a name among others: by its letters, and by what its digits mean."""
    return [int(part) if part.isdigit() else part for part in re.split(r"([0-9]+)", name)]


def ordered(names):
    """As rt fmt sorts them."""
    return sorted(names, key=place)


def path(by, *names):
    """The names on a way, of those that are there: no module stands above what lies beside the crate's root."""
    return by.join(it for it in names if it)
