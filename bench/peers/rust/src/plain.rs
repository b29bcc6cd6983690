//! A map field by hand: what a Rust programmer would write for one field, with no checks beyond those it needs.
use crate::Msg;
use indexmap::IndexMap;
use std::collections::{BTreeMap, HashMap};
use std::hash::{BuildHasher, BuildHasherDefault, Hash, Hasher};

/// A hash about as cheap as the one of our maps, in place of SipHash.
#[derive(Default, Clone)]
pub struct Fold(u64);

pub type Folded = BuildHasherDefault<Fold>;

fn fold(a: u64, b: u64) -> u64 {
    let product = u128::from(a) * u128::from(b);
    product as u64 ^ (product >> 64) as u64
}

impl Hasher for Fold {
    fn write(&mut self, bytes: &[u8]) {
        for part in bytes.chunks(8) {
            let mut word = [0; 8];
            word[..part.len()].copy_from_slice(part);
            self.0 = fold(self.0 ^ u64::from_le_bytes(word), 0x9E37_79B9_7F4A_7C15);
        }
    }

    fn write_u8(&mut self, byte: u8) {
        self.0 = fold(self.0 ^ u64::from(byte), 0x9E37_79B9_7F4A_7C15)
    }

    fn write_i32(&mut self, number: i32) {
        self.0 = fold(self.0 ^ number as u64, 0x9E37_79B9_7F4A_7C15)
    }

    fn finish(&self) -> u64 {
        self.0
    }
}

pub trait Store<K, V>: Default {
    fn put(&mut self, key: K, value: V);
    fn each(&self, take: impl FnMut(&K, &V));
}

impl<K: Ord, V> Store<K, V> for BTreeMap<K, V> {
    fn put(&mut self, key: K, value: V) {
        self.insert(key, value);
    }

    fn each(&self, mut take: impl FnMut(&K, &V)) {
        self.iter().for_each(|(key, value)| take(key, value))
    }
}

impl<K: Hash + Eq, V, S: BuildHasher + Default> Store<K, V> for HashMap<K, V, S> {
    fn put(&mut self, key: K, value: V) {
        self.insert(key, value);
    }

    fn each(&self, mut take: impl FnMut(&K, &V)) {
        self.iter().for_each(|(key, value)| take(key, value))
    }
}

impl<K: Hash + Eq, V, S: BuildHasher + Default> Store<K, V> for IndexMap<K, V, S> {
    fn put(&mut self, key: K, value: V) {
        self.insert(key, value);
    }

    fn each(&self, mut take: impl FnMut(&K, &V)) {
        self.iter().for_each(|(key, value)| take(key, value))
    }
}

fn varint(buf: &mut &[u8]) -> Option<u64> {
    let mut value = 0;
    for place in 0..10 {
        let (&byte, rest) = buf.split_first()?;
        *buf = rest;
        if place == 9 && byte > 1 {
            return None;
        }
        value |= u64::from(byte & 127) << (7 * place);
        if byte < 128 {
            return Some(value);
        }
    }
    None
}

fn delimited<'a>(buf: &mut &'a [u8]) -> Option<&'a [u8]> {
    let len = varint(buf)?;
    if len > buf.len() as u64 {
        return None;
    }
    let (front, rest) = buf.split_at(len as usize);
    *buf = rest;
    Some(front)
}

fn put_varint(mut value: u64, out: &mut Vec<u8>) {
    while value > 127 {
        out.push(value as u8 | 128);
        value >>= 7;
    }
    out.push(value as u8);
}

fn varint_len(value: u64) -> usize {
    ((64 - (value | 1).leading_zeros() as usize) * 9 + 64) / 64
}

pub trait Codec: Default {
    const WIRE: u64;
    fn read(&mut self, buf: &mut &[u8]) -> Option<()>;
    fn size(&self) -> usize;
    fn write(&self, out: &mut Vec<u8>);
}

impl Codec for i32 {
    const WIRE: u64 = 0;

    fn read(&mut self, buf: &mut &[u8]) -> Option<()> {
        *self = varint(buf)? as i32;
        Some(())
    }

    fn size(&self) -> usize {
        varint_len(*self as i64 as u64)
    }

    fn write(&self, out: &mut Vec<u8>) {
        put_varint(*self as i64 as u64, out)
    }
}

impl Codec for String {
    const WIRE: u64 = 2;

    fn read(&mut self, buf: &mut &[u8]) -> Option<()> {
        *self = std::str::from_utf8(delimited(buf)?).ok()?.to_owned();
        Some(())
    }

    fn size(&self) -> usize {
        varint_len(self.len() as u64) + self.len()
    }

    fn write(&self, out: &mut Vec<u8>) {
        put_varint(self.len() as u64, out);
        out.extend_from_slice(self.as_bytes())
    }
}

fn message_len(message: &Msg) -> usize {
    if message.v == 0 {
        0
    } else {
        1 + message.v.size()
    }
}

impl Codec for Msg {
    const WIRE: u64 = 2;

    fn read(&mut self, buf: &mut &[u8]) -> Option<()> {
        let mut body = delimited(buf)?;
        while !body.is_empty() {
            if varint(&mut body)? != 8 {
                return None;
            }
            self.v.read(&mut body)?;
        }
        Some(())
    }

    fn size(&self) -> usize {
        let len = message_len(self);
        varint_len(len as u64) + len
    }

    fn write(&self, out: &mut Vec<u8>) {
        put_varint(message_len(self) as u64, out);
        if self.v != 0 {
            out.push(8);
            self.v.write(out)
        }
    }
}

pub fn parse<K: Codec, V: Codec, S: Store<K, V>>(mut buf: &[u8]) -> Option<S> {
    let mut map = S::default();
    while !buf.is_empty() {
        if varint(&mut buf)? != 10 {
            return None;
        }
        let mut entry = delimited(&mut buf)?;
        let (mut key, mut value) = (K::default(), V::default());
        while !entry.is_empty() {
            let tag = varint(&mut entry)?;
            if tag == 8 + K::WIRE {
                key.read(&mut entry)?
            } else if tag == 16 + V::WIRE {
                value.read(&mut entry)?
            } else {
                return None;
            }
        }
        map.put(key, value);
    }
    Some(map)
}

pub fn size<K: Codec, V: Codec, S: Store<K, V>>(map: &S) -> usize {
    let mut total = 0;
    map.each(|key, value| {
        let entry = 2 + key.size() + value.size();
        total += 1 + varint_len(entry as u64) + entry;
    });
    total
}

pub fn write<K: Codec, V: Codec, S: Store<K, V>>(map: &S, out: &mut Vec<u8>) {
    map.each(|key, value| {
        out.push(10);
        put_varint((2 + key.size() + value.size()) as u64, out);
        out.push((8 + K::WIRE) as u8);
        key.write(out);
        out.push((16 + V::WIRE) as u8);
        value.write(out);
    });
}
