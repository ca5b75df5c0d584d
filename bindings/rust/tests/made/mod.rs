//! Files for tests, made field by field, arrays to hold against what is read, and what tests ask of
//! refusals.
#![allow(dead_code)]

use strutpebble::ByteOrder::{self, Big, BigMagic, Little};
use strutpebble::{Array, Place, Refusal, Type, Value};

/// Every version and byte order that there is.
pub const DIALECTS: [(u32, ByteOrder); 7] =
    [(1, Little), (2, Little), (3, Little), (3, Big), (1, BigMagic), (2, BigMagic), (3, BigMagic)];

/// The number of a reader's refusal, and its byte of the prefix.
pub fn number_and_byte(refusal: Refusal) -> (u64, u64) {
    match refusal.place() {
        Place::Prefix(byte) => (refusal.number(), byte),
        other => panic!("a reader's refusal at {other}"),
    }
}

/// Each kind whose data takes bytes, by its number, with the numbers and the bytes of a block.
#[rustfmt::skip]
pub const BLOCKS: [(u64, u64, u64); 32] = [
    (0, 1, 4), (1, 1, 2), (2, 32, 18), (3, 32, 20),
    (6, 32, 22), (7, 32, 24), (8, 32, 34), (9, 32, 36),
    (10, 256, 84), (11, 256, 110), (12, 256, 144), (13, 256, 176), (14, 256, 210), (15, 256, 292),
    (16, 256, 66), (17, 256, 74), (18, 256, 98), (19, 256, 50),
    (20, 32, 18), (21, 256, 110), (22, 256, 82), (23, 256, 136),
    (24, 1, 1), (25, 1, 2), (26, 1, 4), (27, 1, 8), (28, 1, 8), (29, 256, 56), (30, 1, 2),
    (34, 256, 54), (35, 256, 66), (39, 32, 17),
];

/// The kinds whose data takes none. They are read and never written.
pub const NO_BYTES: [u64; 6] = [31, 32, 33, 36, 37, 38];

#[derive(Clone)]
pub struct Made {
    pub bytes: Vec<u8>,
    version: u32,
    order: ByteOrder,
}

/// The magic, the version and the two counts.
pub fn made(version: u32, order: ByteOrder, tensors: u64, entries: u64) -> Made {
    let magic = if order == BigMagic { b"FUGG" } else { b"GGUF" };
    let mut made = Made { bytes: magic.to_vec(), version, order };
    made.number(4, version.into());
    made.size(tensors);
    made.size(entries);
    made
}

impl Made {
    /// A number of so many bytes.
    pub fn number(&mut self, width: usize, value: u64) -> &mut Made {
        match self.order {
            Little => self.bytes.extend(&value.to_le_bytes()[..width]),
            Big | BigMagic => self.bytes.extend(&value.to_be_bytes()[8 - width..]),
        }
        self
    }

    /// A size: 4 bytes in version 1, else 8.
    pub fn size(&mut self, n: u64) -> &mut Made {
        self.number(if self.version == 1 { 4 } else { 8 }, n)
    }

    pub fn text(&mut self, text: impl AsRef<[u8]>) -> &mut Made {
        self.size(text.as_ref().len() as u64);
        self.bytes.extend(text.as_ref());
        self
    }

    /// A key and a value's type; the value follows.
    pub fn key(&mut self, key: &str, value_type: u64) -> &mut Made {
        self.text(key).number(4, value_type)
    }

    /// A key and an array's types and count; the items follow.
    pub fn array(&mut self, key: &str, item_type: u64, count: u64) -> &mut Made {
        self.key(key, 9).inner(item_type, count)
    }

    /// The item type and the count of an array inside another; the items follow.
    pub fn inner(&mut self, item_type: u64, count: u64) -> &mut Made {
        self.number(4, item_type).size(count)
    }

    pub fn tensor(&mut self, name: &str, lengths: &[u64], kind: u64, offset: u64) -> &mut Made {
        self.text(name).number(4, lengths.len() as u64);
        for length in lengths {
            self.number(8, *length);
        }
        self.number(4, kind).number(8, offset)
    }
}

/// An array of these values, which are never freed.
pub fn list(item_type: Type, items: Vec<Value<'static>>) -> Value<'static> {
    Value::Array(Array::new(item_type, items.leak()))
}

pub fn lists(items: Vec<Value<'static>>) -> Value<'static> {
    list(Type::Array, items)
}

pub fn bytes(items: &[u8]) -> Value<'static> {
    list(Type::U8, items.iter().map(|item| Value::U8(*item)).collect())
}

pub fn strings(items: &[&'static str]) -> Value<'static> {
    list(Type::String, items.iter().map(|item| Value::String(item.as_bytes())).collect())
}

/// A value in words, as Rust writes it, with all items of arrays.
pub fn shown(value: Value) -> String {
    match value {
        Value::Array(array) => {
            let items: Vec<_> = array.iter_all().map(shown).collect();
            format!("[{}]", items.join(", "))
        }
        Value::String(text) => format!("{:?}", String::from_utf8_lossy(text)),
        Value::Bool(yes) => yes.to_string(),
        Value::F32(_) | Value::F64(_) => format!("{:?}", value.as_f64().unwrap()),
        integer => match integer.as_u64() {
            Some(number) => number.to_string(),
            None => integer.as_i64().unwrap().to_string(),
        },
    }
}

/// The tensors a (kind 0, length 5) and b (kind 1, length 3).
pub fn a_and_b(version: u32, order: ByteOrder) -> Vec<u8> {
    a_and_b_at(version, order, 0, 32)
}

/// The same two at other offsets.
pub fn a_and_b_at(version: u32, order: ByteOrder, a: u64, b: u64) -> Vec<u8> {
    made(version, order, 2, 0).tensor("a", &[5], 0, a).tensor("b", &[3], 1, b).bytes.clone()
}

/// A header of so many of the shortest records: keys and names of no bytes, values of one byte, and
/// tensors of no dimension.
pub fn shortest(version: u32, order: ByteOrder, tensors: u64, entries: u64) -> Vec<u8> {
    let mut file = made(version, order, tensors, entries);
    for _ in 0..entries {
        file.key("", 0).number(1, 5);
    }
    for _ in 0..tensors {
        file.tensor("", &[], 0, 0);
    }
    file.bytes
}
