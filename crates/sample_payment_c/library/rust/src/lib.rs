//! Messages of payment.proto, checked by a library that is proved; made by c_library.
//!
//! `cargo build` links the library of the folder above, which `make` there builds.

/// Why bytes were refused: a number of the library's, such as [`INVALID_UTF8`].
#[derive(Clone, Copy, Debug, PartialEq, Eq)]
pub struct Refused(pub u32);

impl std::fmt::Display for Refused {
    fn fmt(&self, f: &mut std::fmt::Formatter<'_>) -> std::fmt::Result {
        f.write_str(NAMES.get(self.0 as usize).copied().unwrap_or("?"))
    }
}

impl std::error::Error for Refused {}

/// What is allowed bytes that are read.
#[derive(Clone, Copy, Debug)]
pub struct Limits {
    /// The most bytes.
    pub longest: usize,
    /// How many groups and messages may nest.
    pub depth: u32,
    /// The most fields that aren't declared, nested ones too.
    pub unknown: usize,
    /// The most units of memory: what map entries, and messages in lists, cost.
    pub units: usize,
}

impl Default for Limits {
    fn default() -> Limits {
        Limits { longest: (1 << 31) - 1, depth: 100, unknown: 1_000_000, units: 1 << 28 }
    }
}

fn answered(answer: u32) -> Result<(), Refused> {
    if answer == 0 { Ok(()) } else { Err(Refused(answer)) }
}

fn copied(room: usize, call: impl FnOnce(&mut [u8], &mut usize) -> u32) -> Result<Vec<u8>, Refused> {
    let (mut out, mut written) = (vec![0; room], 0);
    answered(call(&mut out, &mut written))?;
    out.truncate(written);
    Ok(out)
}

fn text(bytes: Vec<u8>) -> Result<String, Refused> {
    String::from_utf8(bytes).map_err(|_| Refused(INVALID_UTF8))
}

/// A field on the way to the place at which bytes are refused.
#[derive(Clone, Copy, Debug, PartialEq, Eq)]
pub struct Step {
    /// Its number.
    pub number: u32,
    /// How many fields of this number are in front of it, where it is an element of a list or an entry of a map.
    pub index: Option<usize>,
    /// Its name in the `.proto`, where the message declares it.
    pub name: Option<&'static str>,
}

/// Where bytes are refused: `transfer.day at byte 12: UNEXPECTED_EOF`.
#[derive(Clone, Debug, PartialEq, Eq)]
pub struct Place {
    /// The fields to the first refused record, from the outside in.
    pub path: Vec<Step>,
    /// Where the record begins.
    pub offset: usize,
    /// Why it is refused.
    pub fault: Refused,
}

impl std::fmt::Display for Step {
    fn fmt(&self, f: &mut std::fmt::Formatter<'_>) -> std::fmt::Result {
        match self.name {
            Some(name) => f.write_str(name)?,
            None => write!(f, "{}", self.number)?,
        }
        self.index.map_or(Ok(()), |index| write!(f, "[{index}]"))
    }
}

impl std::fmt::Display for Place {
    fn fmt(&self, f: &mut std::fmt::Formatter<'_>) -> std::fmt::Result {
        for (at, step) in self.path.iter().enumerate() {
            write!(f, "{}{step}", if at == 0 { "" } else { "." })?;
        }
        write!(f, "{}at byte {}: {}", if self.path.is_empty() { "" } else { " " }, self.offset, self.fault)
    }
}

#[repr(C)]
#[derive(Clone, Copy, Default)]
struct PathStep {
    number: u32,
    listed: u32,
    index: usize,
}

fn placed(message: usize, call: impl Fn(&mut [PathStep], &mut usize, &mut usize) -> u32) -> Result<Option<Place>, Refused> {
    let (mut path, mut steps, mut offset) = (vec![PathStep::default(); 16], 0, 0);
    let mut answer = call(&mut path, &mut steps, &mut offset);
    if steps > path.len() {
        path.resize(steps, PathStep::default());
        answer = call(&mut path, &mut steps, &mut offset);
    }
    path.truncate(steps);
    match answer {
        0 => Ok(None),
        OUT_OF_MEMORY | TOO_LONG => Err(Refused(answer)),
        _ => Ok(Some(Place { path: named(message, &path), offset, fault: Refused(answer) })),
    }
}

fn named(message: usize, path: &[PathStep]) -> Vec<Step> {
    let mut inside = Some(message);
    path.iter()
        .map(|step| {
            let field = inside.and_then(|at| FIELDS[at].iter().find(|it| it.0 == step.number));
            inside = field.and_then(|it| it.2);
            Step { number: step.number, index: (step.listed != 0).then_some(step.index), name: field.map(|it| it.1) }
        })
        .collect()
}

const NAMES: [&str; 20] = [
    "ACCEPTED",
    "UNEXPECTED_EOF",
    "VARINT_TOO_LONG",
    "INVALID_FIELD_NUMBER",
    "INVALID_WIRE_TYPE",
    "WIRE_TYPE_MISMATCH",
    "INVALID_UTF8",
    "MESSAGE_TOO_LARGE",
    "RECURSION_LIMIT_EXCEEDED",
    "UNKNOWN_FIELD_LIMIT_EXCEEDED",
    "ELEMENT_MEMORY_LIMIT_EXCEEDED",
    "INVALID_END_GROUP",
    "INVALID_MESSAGE_SET",
    "UNEXPECTED_FIELD",
    "OUT_OF_MEMORY",
    "TOO_LONG",
    "NOT_CANONICAL",
    "MISSING_REQUIRED",
    "NO_ROOM",
    "TOO_LARGE",
];

/// The bytes end before what was begun does, or a length passes what remains.
pub const UNEXPECTED_EOF: u32 = 1;
/// A varint of more than 64 bits.
pub const VARINT_TOO_LONG: u32 = 2;
/// A field of number 0, or of more than 536,870,911.
pub const INVALID_FIELD_NUMBER: u32 = 3;
/// A tag of wire type 6 or 7.
pub const INVALID_WIRE_TYPE: u32 = 4;
/// A known field has another wire type than its own.
pub const WIRE_TYPE_MISMATCH: u32 = 5;
/// A text that is not UTF-8.
pub const INVALID_UTF8: u32 = 6;
/// A length that no address can name.
pub const MESSAGE_TOO_LARGE: u32 = 7;
/// Groups or messages nest deeper than allowed.
pub const RECURSION_LIMIT_EXCEEDED: u32 = 8;
/// More fields that aren't declared than allowed.
pub const UNKNOWN_FIELD_LIMIT_EXCEEDED: u32 = 9;
/// Map entries and messages in lists cost more than allowed.
pub const ELEMENT_MEMORY_LIMIT_EXCEEDED: u32 = 10;
/// The end of a group that is not open.
pub const INVALID_END_GROUP: u32 = 11;
/// A MessageSet Item without a type id, or with one out of range.
pub const INVALID_MESSAGE_SET: u32 = 12;
/// A field of another number than the one that is read.
pub const UNEXPECTED_FIELD: u32 = 13;
/// A growth was refused; it says nothing of the bytes.
pub const OUT_OF_MEMORY: u32 = 14;
/// More bytes than allowed.
pub const TOO_LONG: u32 = 15;
/// The bytes are read, and aren't the encoding of what they mean.
pub const NOT_CANONICAL: u32 = 16;
/// The bytes are read, and a required member isn't there.
pub const MISSING_REQUIRED: u32 = 17;
/// Out is too small; nothing was written.
pub const NO_ROOM: u32 = 18;
/// The encoding would have 2^31 bytes or more.
pub const TOO_LARGE: u32 = 19;

// Of each message its fields: their numbers, their names, and which of these messages is in them.
const FIELDS: &[&[(u32, &str, Option<usize>)]] = &[
    &[(1, "amount", None), (2, "card", None), (3, "cash", None), (4, "transfer", Some(1)), (5, "note", None)],
    &[(1, "to", None), (2, "day", None)],
];

/// `buffa.sample.Payment`.
pub mod payment {
    use super::{Limits, NO_ROOM, PathStep, Place, Refused};

    extern "C" {
        fn payment_check(bytes: *const u8, bytes_len: usize) -> u32;
        fn payment_check_within(bytes: *const u8, bytes_len: usize, longest: usize, depth: u32, unknown: usize, units: usize) -> u32;
        fn payment_place(bytes: *const u8, bytes_len: usize, longest: usize, depth: u32, unknown: usize, units: usize, path: *mut PathStep, path_len: usize, steps: *mut usize, offset: *mut usize) -> u32;
        fn payment_canonical(bytes: *const u8, bytes_len: usize, out: *mut u8, out_len: usize, written: *mut usize) -> u32;
        fn payment_room(bytes: *const u8, bytes_len: usize, room: *mut usize) -> u32;
        fn payment_is_canonical(bytes: *const u8, bytes_len: usize) -> u32;
        fn payment_canonical_declared(bytes: *const u8, bytes_len: usize, out: *mut u8, out_len: usize, written: *mut usize) -> u32;
        fn payment_amount(bytes: *const u8, bytes_len: usize, value: *mut i32) -> u32;
        fn payment_note(bytes: *const u8, bytes_len: usize, out: *mut u8, out_len: usize, written: *mut usize) -> u32;
    }

    /// Whether the bytes are accepted, under the usual limits.
    pub fn check(bytes: &[u8]) -> Result<(), Refused> {
        super::answered(unsafe { payment_check(bytes.as_ptr(), bytes.len()) })
    }

    /// The same under limits of yours.
    pub fn check_within(bytes: &[u8], limits: Limits) -> Result<(), Refused> {
        let Limits { longest, depth, unknown, units } = limits;
        super::answered(unsafe { payment_check_within(bytes.as_ptr(), bytes.len(), longest, depth, unknown, units) })
    }

    /// Where the bytes are refused, or none where they are accepted.
    pub fn place(bytes: &[u8], limits: Limits) -> Result<Option<Place>, Refused> {
        let Limits { longest, depth, unknown, units } = limits;
        super::placed(0, |path, steps, offset| unsafe {
            payment_place(bytes.as_ptr(), bytes.len(), longest, depth, unknown, units, path.as_mut_ptr(), path.len(), steps, offset)
        })
    }

    /// Whether the bytes are the encoding of what they mean.
    pub fn is_canonical(bytes: &[u8]) -> Result<(), Refused> {
        super::answered(unsafe { payment_is_canonical(bytes.as_ptr(), bytes.len()) })
    }

    /// How many bytes `canonical` answers.
    pub fn room(bytes: &[u8]) -> Result<usize, Refused> {
        let mut room = 0;
        super::answered(unsafe { payment_room(bytes.as_ptr(), bytes.len(), &mut room) })?;
        Ok(room)
    }

    /// The encoding of what the bytes mean.
    pub fn canonical(bytes: &[u8]) -> Result<Vec<u8>, Refused> {
        let into = |room| super::copied(room, |out, written| unsafe {
            payment_canonical(bytes.as_ptr(), bytes.len(), out.as_mut_ptr(), out.len(), written)
        });
        match into(bytes.len()) {
            Err(Refused(NO_ROOM)) => into(room(bytes)?),
            made => made,
        }
    }

    /// The encoding of what is left without the fields that aren't declared, in the messages inside, too.
    pub fn canonical_declared(bytes: &[u8]) -> Result<Vec<u8>, Refused> {
        let into = |room| super::copied(room, |out, written| unsafe {
            payment_canonical_declared(bytes.as_ptr(), bytes.len(), out.as_mut_ptr(), out.len(), written)
        });
        match into(bytes.len()) {
            Err(Refused(NO_ROOM)) => into(room(bytes)?),
            made => made,
        }
    }

    /// The member `amount` of what the bytes mean.
    pub fn amount(bytes: &[u8]) -> Result<i32, Refused> {
        let mut value = 0;
        super::answered(unsafe { payment_amount(bytes.as_ptr(), bytes.len(), &mut value) })?;
        Ok(value)
    }

    /// The member `note` of what the bytes mean.
    pub fn note(bytes: &[u8]) -> Result<String, Refused> {
        let value = super::copied(bytes.len(), |out, written| unsafe {
            payment_note(bytes.as_ptr(), bytes.len(), out.as_mut_ptr(), out.len(), written)
        })?;
        super::text(value)
    }
}

/// `buffa.sample.Transfer`.
pub mod transfer {
    use super::{Limits, NO_ROOM, PathStep, Place, Refused};

    extern "C" {
        fn transfer_check(bytes: *const u8, bytes_len: usize) -> u32;
        fn transfer_check_within(bytes: *const u8, bytes_len: usize, longest: usize, depth: u32, unknown: usize, units: usize) -> u32;
        fn transfer_place(bytes: *const u8, bytes_len: usize, longest: usize, depth: u32, unknown: usize, units: usize, path: *mut PathStep, path_len: usize, steps: *mut usize, offset: *mut usize) -> u32;
        fn transfer_canonical(bytes: *const u8, bytes_len: usize, out: *mut u8, out_len: usize, written: *mut usize) -> u32;
        fn transfer_room(bytes: *const u8, bytes_len: usize, room: *mut usize) -> u32;
        fn transfer_is_canonical(bytes: *const u8, bytes_len: usize) -> u32;
        fn transfer_canonical_declared(bytes: *const u8, bytes_len: usize, out: *mut u8, out_len: usize, written: *mut usize) -> u32;
        fn transfer_to(bytes: *const u8, bytes_len: usize, out: *mut u8, out_len: usize, written: *mut usize) -> u32;
        fn transfer_day(bytes: *const u8, bytes_len: usize, value: *mut i32) -> u32;
    }

    /// Whether the bytes are accepted, under the usual limits.
    pub fn check(bytes: &[u8]) -> Result<(), Refused> {
        super::answered(unsafe { transfer_check(bytes.as_ptr(), bytes.len()) })
    }

    /// The same under limits of yours.
    pub fn check_within(bytes: &[u8], limits: Limits) -> Result<(), Refused> {
        let Limits { longest, depth, unknown, units } = limits;
        super::answered(unsafe { transfer_check_within(bytes.as_ptr(), bytes.len(), longest, depth, unknown, units) })
    }

    /// Where the bytes are refused, or none where they are accepted.
    pub fn place(bytes: &[u8], limits: Limits) -> Result<Option<Place>, Refused> {
        let Limits { longest, depth, unknown, units } = limits;
        super::placed(1, |path, steps, offset| unsafe {
            transfer_place(bytes.as_ptr(), bytes.len(), longest, depth, unknown, units, path.as_mut_ptr(), path.len(), steps, offset)
        })
    }

    /// Whether the bytes are the encoding of what they mean.
    pub fn is_canonical(bytes: &[u8]) -> Result<(), Refused> {
        super::answered(unsafe { transfer_is_canonical(bytes.as_ptr(), bytes.len()) })
    }

    /// How many bytes `canonical` answers.
    pub fn room(bytes: &[u8]) -> Result<usize, Refused> {
        let mut room = 0;
        super::answered(unsafe { transfer_room(bytes.as_ptr(), bytes.len(), &mut room) })?;
        Ok(room)
    }

    /// The encoding of what the bytes mean.
    pub fn canonical(bytes: &[u8]) -> Result<Vec<u8>, Refused> {
        let into = |room| super::copied(room, |out, written| unsafe {
            transfer_canonical(bytes.as_ptr(), bytes.len(), out.as_mut_ptr(), out.len(), written)
        });
        match into(bytes.len()) {
            Err(Refused(NO_ROOM)) => into(room(bytes)?),
            made => made,
        }
    }

    /// The encoding of what is left without the fields that aren't declared, in the messages inside, too.
    pub fn canonical_declared(bytes: &[u8]) -> Result<Vec<u8>, Refused> {
        let into = |room| super::copied(room, |out, written| unsafe {
            transfer_canonical_declared(bytes.as_ptr(), bytes.len(), out.as_mut_ptr(), out.len(), written)
        });
        match into(bytes.len()) {
            Err(Refused(NO_ROOM)) => into(room(bytes)?),
            made => made,
        }
    }

    /// The member `to` of what the bytes mean.
    pub fn to(bytes: &[u8]) -> Result<String, Refused> {
        let value = super::copied(bytes.len(), |out, written| unsafe {
            transfer_to(bytes.as_ptr(), bytes.len(), out.as_mut_ptr(), out.len(), written)
        })?;
        super::text(value)
    }

    /// The member `day` of what the bytes mean.
    pub fn day(bytes: &[u8]) -> Result<i32, Refused> {
        let mut value = 0;
        super::answered(unsafe { transfer_day(bytes.as_ptr(), bytes.len(), &mut value) })?;
        Ok(value)
    }
}
