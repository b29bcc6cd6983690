"""A safe crate over a library, for Rust."""
from header import ANSWERS

HEAD = """//! Messages of {files}, checked by a library that is proved; made by c_library.
//!
//! `cargo build` links the library of the folder above, which `make` there builds.

/// Why bytes were refused: a number of the library's, such as [`INVALID_UTF8`].
#[derive(Clone, Copy, Debug, PartialEq, Eq)]
pub struct Refused(pub u32);

impl std::fmt::Display for Refused {{
    fn fmt(&self, f: &mut std::fmt::Formatter<'_>) -> std::fmt::Result {{
        f.write_str(NAMES.get(self.0 as usize).copied().unwrap_or("?"))
    }}
}}

impl std::error::Error for Refused {{}}

/// What is allowed bytes that are read.
#[derive(Clone, Copy, Debug)]
pub struct Limits {{
    /// The most bytes.
    pub longest: usize,
    /// How many groups and messages may nest.
    pub depth: u32,
    /// The most fields that aren't declared, nested ones too.
    pub unknown: usize,
    /// The most units of memory: what map entries, and messages in lists, cost.
    pub units: usize,
}}

impl Default for Limits {{
    fn default() -> Limits {{
        Limits {{ longest: (1 << 31) - 1, depth: 100, unknown: 1_000_000, units: 1 << 28 }}
    }}
}}

fn answered(answer: u32) -> Result<(), Refused> {{
    if answer == 0 {{ Ok(()) }} else {{ Err(Refused(answer)) }}
}}
"""

COPIED = """
fn copied(room: usize, call: impl FnOnce(&mut [u8], &mut usize) -> u32) -> Result<Vec<u8>, Refused> {
    let (mut out, mut written) = (vec![0; room], 0);
    answered(call(&mut out, &mut written))?;
    out.truncate(written);
    Ok(out)
}

fn text(bytes: Vec<u8>) -> Result<String, Refused> {
    String::from_utf8(bytes).map_err(|_| Refused(INVALID_UTF8))
}
"""

PLACES = """
/// A field on the way to the place at which bytes are refused.
#[derive(Clone, Copy, Debug, PartialEq, Eq)]
pub struct Step {
    /// Its number.
    pub number: u32,
    /// How many fields of this number are in front of it, where it is an element of a list or an entry of a map.
    pub index: Option<usize>,
    /// Its name in the `.proto`, where the message declares it.
    pub name: Option<&'static str>,
}

/// Where bytes are refused: `transfer.day at byte 12: UNEXPECTED_EOF`.
#[derive(Clone, Debug, PartialEq, Eq)]
pub struct Place {
    /// The fields to the first refused record, from the outside in.
    pub path: Vec<Step>,
    /// Where the record begins.
    pub offset: usize,
    /// Why it is refused.
    pub fault: Refused,
}

impl std::fmt::Display for Step {
    fn fmt(&self, f: &mut std::fmt::Formatter<'_>) -> std::fmt::Result {
        match self.name {
            Some(name) => f.write_str(name)?,
            None => write!(f, "{}", self.number)?,
        }
        self.index.map_or(Ok(()), |index| write!(f, "[{index}]"))
    }
}

impl std::fmt::Display for Place {
    fn fmt(&self, f: &mut std::fmt::Formatter<'_>) -> std::fmt::Result {
        for (at, step) in self.path.iter().enumerate() {
            write!(f, "{}{step}", if at == 0 { "" } else { "." })?;
        }
        write!(f, "{}at byte {}: {}", if self.path.is_empty() { "" } else { " " }, self.offset, self.fault)
    }
}

#[repr(C)]
#[derive(Clone, Copy, Default)]
struct PathStep {
    number: u32,
    listed: u32,
    index: usize,
}

fn placed(message: usize, call: impl Fn(&mut [PathStep], &mut usize, &mut usize) -> u32) -> Result<Option<Place>, Refused> {
    let (mut path, mut steps, mut offset) = (vec![PathStep::default(); 16], 0, 0);
    let mut answer = call(&mut path, &mut steps, &mut offset);
    if steps > path.len() {
        path.resize(steps, PathStep::default());
        answer = call(&mut path, &mut steps, &mut offset);
    }
    path.truncate(steps);
    match answer {
        0 => Ok(None),
        OUT_OF_MEMORY | TOO_LONG => Err(Refused(answer)),
        _ => Ok(Some(Place { path: named(message, &path), offset, fault: Refused(answer) })),
    }
}

fn named(message: usize, path: &[PathStep]) -> Vec<Step> {
    let mut inside = Some(message);
    path.iter()
        .map(|step| {
            let field = inside.and_then(|at| FIELDS[at].iter().find(|it| it.0 == step.number));
            inside = field.and_then(|it| it.2);
            Step { number: step.number, index: (step.listed != 0).then_some(step.index), name: field.map(|it| it.1) }
        })
        .collect()
}
"""

CARGO = """[package]
name = "{crate}"
version = "0.1.0"
edition = "2021"
links = "{crate}"
build = "build.rs"

[workspace]
"""

BUILD = """fn main() {{
    println!("cargo:rustc-link-search=native={{}}/../out", env!("CARGO_MANIFEST_DIR"));
    println!("cargo:rustc-link-lib=static={crate}");
    println!("cargo:rerun-if-changed=../out/lib{crate}.a");
}}
"""


def declared(gate, numbers):
    """The exports as the crate declares them."""
    bytes_in, out = "bytes: *const u8, bytes_len: usize", "out: *mut u8, out_len: usize, written: *mut usize"
    made = [f"{gate.prefix}_check({bytes_in})", f"{gate.prefix}_check_within({bytes_in}, longest: usize, depth: u32, unknown: usize, units: usize)"]
    path = "longest: usize, depth: u32, unknown: usize, units: usize, path: *mut PathStep, path_len: usize, steps: *mut usize, offset: *mut usize"
    made += [f"{gate.prefix}_place({bytes_in}, {path})"] * gate.is_located
    made += [f"{gate.prefix}_canonical({bytes_in}, {out})", f"{gate.prefix}_room({bytes_in}, room: *mut usize)", f"{gate.prefix}_is_canonical({bytes_in})"]
    made += [f"{gate.prefix}_canonical_declared({bytes_in}, {out})"] * gate.is_discarding
    for told in gate.told:
        there = ", there: *mut bool" * told.is_optional
        made += [f"{gate.prefix}_{told.name}({bytes_in}{there}, {out if told.is_text else f'value: *mut {told.number}'})"]
    return [f"        fn {it} -> u32;" for it in made]


def told_as(told):
    """The type of a member that is told, and what makes it of what the library told."""
    if told.is_text:
        return ("String", "super::text({})?") if told.is_utf8 else ("Vec<u8>", "{}")
    return (told.real, f"{told.real}::from_bits({{}})") if told.real else (told.number, "{}")


def tell(gate, told):
    """The function of a member."""
    kind, make = told_as(told)
    answer = f"Option<{kind}>" if told.is_optional else kind
    there, passed = ("let mut there = false;", "&mut there, ") if told.is_optional else ("", "")
    made = [f"    /// The member `{told.name}` of what the bytes mean{', if it is there' if told.is_optional else ''}."]
    made += [f"    pub fn {told.name_in_rust}(bytes: &[u8]) -> Result<{answer}, Refused> {{"] + [f"        {there}"] * told.is_optional
    if told.is_text:
        call = f"{gate.prefix}_{told.name}(bytes.as_ptr(), bytes.len(), {passed}out.as_mut_ptr(), out.len(), written)"
        made += ["        let value = super::copied(bytes.len(), |out, written| unsafe {", f"            {call}", "        })?;"]
    else:
        zero = "false" if told.number == "bool" else "0"
        made += [f"        let mut value = {zero};"]
        made += [f"        super::answered(unsafe {{ {gate.prefix}_{told.name}(bytes.as_ptr(), bytes.len(), {passed}&mut value) }})?;"]
    value = make.format("value")
    if told.is_optional:
        return made + [f"        Ok(if there {{ Some({value}) }} else {{ None }})", "    }", ""]
    return made + [f"        {value[:-1] if value.endswith('?') else f'Ok({value})'}", "    }", ""]


def encoding(call, name, said):
    """The function that answers an encoding: in as many bytes as came in, and where they are too few, in as many as are wanted."""
    made = [f"    /// {said}", f"    pub fn {name}(bytes: &[u8]) -> Result<Vec<u8>, Refused> {{", "        let into = |room| super::copied(room, |out, written| unsafe {"]
    made += [f"            {call}(bytes.as_ptr(), bytes.len(), out.as_mut_ptr(), out.len(), written)", "        });"]
    return made + ["        match into(bytes.len()) {", "            Err(Refused(NO_ROOM)) => into(room(bytes)?),", "            made => made,", "        }", "    }", ""]


def place(gate, at):
    """The function that tells where bytes are refused."""
    call = f"{gate.prefix}_place(bytes.as_ptr(), bytes.len(), longest, depth, unknown, units, path.as_mut_ptr(), path.len(), steps, offset)"
    made = ["    /// Where the bytes are refused, or none where they are accepted."]
    made += ["    pub fn place(bytes: &[u8], limits: Limits) -> Result<Option<Place>, Refused> {", "        let Limits { longest, depth, unknown, units } = limits;"]
    return made + [f"        super::placed({at}, |path, steps, offset| unsafe {{", f"            {call}", "        })", "    }", ""]


def fields(library):
    """The names of fields, by the numbers of messages and of fields."""
    made = ["", "// Of each message its fields: their numbers, their names, and which of these messages is in them.", "const FIELDS: &[&[(u32, &str, Option<usize>)]] = &["]
    for message in library.fields:
        made += [f"    &[{', '.join(f'({number}, {chr(34)}{name}{chr(34)}, {some(inside)})' for number, name, inside in message)}],"]
    return made + ["];"]


def some(inside):
    return "None" if inside is None else f"Some({inside})"


def module(gate, numbers, at):
    name, args = gate.prefix, "bytes.as_ptr(), bytes.len()"
    made = ["", f"/// `{gate.full}`.", f"pub mod {gate.snake} {{", f"    use super::{{{'Limits, NO_ROOM, PathStep, Place, Refused' if gate.is_located else 'Limits, NO_ROOM, Refused'}}};", "", '    extern "C" {', *declared(gate, numbers), "    }", ""]
    made += ["    /// Whether the bytes are accepted, under the usual limits.", "    pub fn check(bytes: &[u8]) -> Result<(), Refused> {"]
    made += [f"        super::answered(unsafe {{ {name}_check({args}) }})", "    }", ""]
    made += ["    /// The same under limits of yours.", "    pub fn check_within(bytes: &[u8], limits: Limits) -> Result<(), Refused> {"]
    made += ["        let Limits { longest, depth, unknown, units } = limits;"]
    made += [f"        super::answered(unsafe {{ {name}_check_within({args}, longest, depth, unknown, units) }})", "    }", ""]
    made += place(gate, at) if gate.is_located else []
    made += ["    /// Whether the bytes are the encoding of what they mean.", "    pub fn is_canonical(bytes: &[u8]) -> Result<(), Refused> {"]
    made += [f"        super::answered(unsafe {{ {name}_is_canonical({args}) }})", "    }", ""]
    made += ["    /// How many bytes `canonical` answers.", "    pub fn room(bytes: &[u8]) -> Result<usize, Refused> {", "        let mut room = 0;"]
    made += [f"        super::answered(unsafe {{ {name}_room({args}, &mut room) }})?;", "        Ok(room)", "    }", ""]
    made += encoding(f"{name}_canonical", "canonical", "The encoding of what the bytes mean.")
    if gate.is_discarding:
        said = "The encoding of what is left without the fields that aren't declared, in the messages inside, too."
        made += encoding(f"{name}_canonical_declared", "canonical_declared", said)
    for told in gate.told:
        made += tell(gate, told)
    return made[:-1] + ["}"]


def text(library, numbers):
    made = [HEAD.format(files=", ".join(library.files)).rstrip("\n")] + [COPIED.rstrip("\n")] + [PLACES.rstrip("\n")] * library.is_located + [""]
    made += [f"const NAMES: [&str; {len(ANSWERS) + 1}] = [", '    "ACCEPTED",', *[f'    "{name}",' for name, _ in ANSWERS], "];", ""]
    for at, (name, said) in enumerate(ANSWERS, 1):
        made += [f"/// {said[0].upper()}{said[1:]}.", f"pub const {name}: u32 = {at};"]
    made += fields(library) if library.is_located else []
    for at, gate in enumerate(library.gates):
        made += module(gate, numbers, at)
    lines = "\n".join(made)
    if not any(told.is_utf8 for gate in library.gates for told in gate.told):
        at = lines.index("\nfn text(")
        lines = lines[:at] + lines[lines.index("\n}\n", at) + 3 :]
    return lines + "\n"


def files(library, numbers):
    return {
        "rust/Cargo.toml": CARGO.format(crate=library.crate),
        "rust/build.rs": BUILD.format(crate=library.crate),
        "rust/src/lib.rs": text(library, numbers),
    }
