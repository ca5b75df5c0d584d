//! Values of entries, and items of arrays: parts of the prefix, or values that are lent.

use crate::front::Dialect;
use core::fmt;
use core::iter::FusedIterator;

/// The type of a value or of an array's items. `as u8` gives the file's number for it.
#[derive(Clone, Copy, Debug, PartialEq, Eq, Hash)]
#[repr(u8)]
pub enum Type {
    /// An unsigned integer of 8 bits.
    U8 = 0,
    /// A signed integer of 8 bits.
    I8 = 1,
    /// An unsigned integer of 16 bits.
    U16 = 2,
    /// A signed integer of 16 bits.
    I16 = 3,
    /// An unsigned integer of 32 bits.
    U32 = 4,
    /// A signed integer of 32 bits.
    I32 = 5,
    /// A float of 32 bits.
    F32 = 6,
    /// True or false.
    Bool = 7,
    /// A string of bytes.
    String = 8,
    /// An array.
    Array = 9,
    /// An unsigned integer of 64 bits.
    U64 = 10,
    /// A signed integer of 64 bits.
    I64 = 11,
    /// A float of 64 bits.
    F64 = 12,
}

impl Type {
    /// The type of a number in a row. Above 12 there is none, and the reader accepts none.
    pub(crate) fn of(number: u64) -> Type {
        match number {
            0 => Type::U8,
            1 => Type::I8,
            2 => Type::U16,
            3 => Type::I16,
            4 => Type::U32,
            5 => Type::I32,
            6 => Type::F32,
            7 => Type::Bool,
            8 => Type::String,
            9 => Type::Array,
            10 => Type::U64,
            11 => Type::I64,
            12 => Type::F64,
            _ => unreachable!("a type above 12 is refused"),
        }
    }

    /// The type's name, as Rust writes it.
    pub fn name(self) -> &'static str {
        match self {
            Type::U8 => "u8",
            Type::I8 => "i8",
            Type::U16 => "u16",
            Type::I16 => "i16",
            Type::U32 => "u32",
            Type::I32 => "i32",
            Type::F32 => "f32",
            Type::Bool => "bool",
            Type::String => "string",
            Type::Array => "array",
            Type::U64 => "u64",
            Type::I64 => "i64",
            Type::F64 => "f64",
        }
    }

    /// The bytes of a scalar of this type in a file; `None` for strings and arrays.
    fn width(self) -> Option<usize> {
        match self {
            Type::U8 | Type::I8 | Type::Bool => Some(1),
            Type::U16 | Type::I16 => Some(2),
            Type::U32 | Type::I32 | Type::F32 => Some(4),
            Type::U64 | Type::I64 | Type::F64 => Some(8),
            Type::String | Type::Array => None,
        }
    }
}

impl fmt::Display for Type {
    fn fmt(&self, f: &mut fmt::Formatter<'_>) -> fmt::Result {
        f.write_str(self.name())
    }
}

/// A value. Strings are parts of the prefix, as the file has them; they need not be UTF-8.
#[derive(Clone, Copy, Debug, PartialEq)]
pub enum Value<'a> {
    /// An unsigned integer of 8 bits.
    U8(u8),
    /// A signed integer of 8 bits.
    I8(i8),
    /// An unsigned integer of 16 bits.
    U16(u16),
    /// A signed integer of 16 bits.
    I16(i16),
    /// An unsigned integer of 32 bits.
    U32(u32),
    /// A signed integer of 32 bits.
    I32(i32),
    /// A float of 32 bits.
    F32(f32),
    /// True or false.
    Bool(bool),
    /// A string of bytes.
    String(&'a [u8]),
    /// An array.
    Array(Array<'a>),
    /// An unsigned integer of 64 bits.
    U64(u64),
    /// A signed integer of 64 bits.
    I64(i64),
    /// A float of 64 bits.
    F64(f64),
}

impl<'a> Value<'a> {
    /// The value of an entry's row: the words from its type on.
    pub(crate) fn of_words(prefix: &'a [u8], dialect: Dialect, words: &[u64]) -> Value<'a> {
        match Type::of(words[0]) {
            Type::String => Value::String(&prefix[words[1] as usize..][..words[2] as usize]),
            Type::Array => Value::Array(Array {
                item_type: Type::of(words[1]),
                len: words[2],
                kept: words[3],
                items: Source::Read(Part { bytes: &prefix[words[4] as usize..], dialect }),
            }),
            scalar => Value::scalar(scalar, words[1]),
        }
    }

    /// A scalar by its bits. Those above its width don't count, because a row has a signed scalar
    /// in 64 bits.
    fn scalar(scalar: Type, bits: u64) -> Value<'a> {
        match scalar {
            Type::U8 => Value::U8(bits as u8),
            Type::I8 => Value::I8(bits as i8),
            Type::U16 => Value::U16(bits as u16),
            Type::I16 => Value::I16(bits as i16),
            Type::U32 => Value::U32(bits as u32),
            Type::I32 => Value::I32(bits as i32),
            Type::F32 => Value::F32(f32::from_bits(bits as u32)),
            Type::Bool => Value::Bool(bits != 0),
            Type::U64 => Value::U64(bits),
            Type::I64 => Value::I64(bits as i64),
            Type::F64 => Value::F64(f64::from_bits(bits)),
            Type::String | Type::Array => unreachable!("not a scalar"),
        }
    }

    /// The value's type.
    pub fn value_type(&self) -> Type {
        match self {
            Value::U8(_) => Type::U8,
            Value::I8(_) => Type::I8,
            Value::U16(_) => Type::U16,
            Value::I16(_) => Type::I16,
            Value::U32(_) => Type::U32,
            Value::I32(_) => Type::I32,
            Value::F32(_) => Type::F32,
            Value::Bool(_) => Type::Bool,
            Value::String(_) => Type::String,
            Value::Array(_) => Type::Array,
            Value::U64(_) => Type::U64,
            Value::I64(_) => Type::I64,
            Value::F64(_) => Type::F64,
        }
    }

    /// An integer of any of the eight integer types, where it is not below 0.
    pub fn as_u64(&self) -> Option<u64> {
        match *self {
            Value::U8(n) => Some(n.into()),
            Value::U16(n) => Some(n.into()),
            Value::U32(n) => Some(n.into()),
            Value::U64(n) => Some(n),
            _ => self.as_i64().and_then(|n| n.try_into().ok()),
        }
    }

    /// An integer of any of the eight integer types, where it is not above 2^63 - 1.
    pub fn as_i64(&self) -> Option<i64> {
        match *self {
            Value::U8(n) => Some(n.into()),
            Value::I8(n) => Some(n.into()),
            Value::U16(n) => Some(n.into()),
            Value::I16(n) => Some(n.into()),
            Value::U32(n) => Some(n.into()),
            Value::I32(n) => Some(n.into()),
            Value::U64(n) => n.try_into().ok(),
            Value::I64(n) => Some(n),
            _ => None,
        }
    }

    /// A float of either type.
    pub fn as_f64(&self) -> Option<f64> {
        match *self {
            Value::F32(x) => Some(x.into()),
            Value::F64(x) => Some(x),
            _ => None,
        }
    }

    /// A bool.
    pub fn as_bool(&self) -> Option<bool> {
        match *self {
            Value::Bool(b) => Some(b),
            _ => None,
        }
    }

    /// A string's bytes.
    pub fn as_bytes(&self) -> Option<&'a [u8]> {
        match *self {
            Value::String(bytes) => Some(bytes),
            _ => None,
        }
    }

    /// A string, where it is UTF-8.
    pub fn as_str(&self) -> Option<&'a str> {
        self.as_bytes().and_then(|bytes| core::str::from_utf8(bytes).ok())
    }

    /// An array.
    pub fn as_array(&self) -> Option<Array<'a>> {
        match *self {
            Value::Array(array) => Some(array),
            _ => None,
        }
    }
}

/// An array. The items of one that was read are taken from the prefix as they are asked for. All of
/// them were checked, also those that are not kept and those of arrays inside it.
#[derive(Clone, Copy)]
pub struct Array<'a> {
    item_type: Type,
    len: u64,
    kept: u64,
    items: Source<'a>,
}

/// Where the items of an array are, from the first or the next one on.
#[derive(Clone, Copy)]
enum Source<'a> {
    /// In the prefix.
    Read(Part<'a>),
    /// In the caller's slice.
    Lent(&'a [Value<'a>]),
}

impl<'a> Array<'a> {
    /// An array of values that are lent, to put into a [`Sheet`](crate::Sheet) or to compare with
    /// what was read.
    ///
    /// Whether each item is of the item type is not checked here; a sheet checks it. In a file,
    /// arrays stand in one another four deep at most, the outermost counted. A deeper one can be
    /// made here, and the writer refuses it (31).
    ///
    /// ```
    /// use strutpebble::{Array, Sheet, Type, Value};
    ///
    /// let (first, second) = ([Value::U8(1), Value::U8(2)], [Value::U8(3)]);
    /// let lists = [Array::new(Type::U8, &first), Array::new(Type::U8, &second)];
    /// let lists = lists.map(Value::Array);
    /// let list = Value::Array(Array::new(Type::Array, &lists));
    /// let file = Sheet::new().entry("list of lists", list).to_vec()?;
    ///
    /// let header = strutpebble::read(&file)?;
    /// assert_eq!(header.get("list of lists"), Some(list));
    /// # Ok::<(), Box<dyn std::error::Error>>(())
    /// ```
    pub const fn new(item_type: Type, items: &'a [Value<'a>]) -> Array<'a> {
        let len = items.len() as u64;
        Array { item_type, len, kept: len, items: Source::Lent(items) }
    }

    /// The type of every item. Where it is [`Type::Array`], each item has an item type of its own.
    pub fn item_type(&self) -> Type {
        self.item_type
    }

    /// How many items there are, in the file or lent.
    pub fn len(&self) -> u64 {
        self.len
    }

    /// Whether there is no item.
    pub fn is_empty(&self) -> bool {
        self.len == 0
    }

    /// How many items are kept: all, except in a tokenizer's arrays, of which the reader keeps as
    /// many as [`Options::cap`](crate::Options::cap) says. An array inside another keeps all of
    /// its own.
    pub fn kept(&self) -> u64 {
        self.kept
    }

    /// The items that are kept.
    pub fn iter(&self) -> Items<'a> {
        self.first(self.kept)
    }

    /// All items, whatever the cap.
    pub fn iter_all(&self) -> Items<'a> {
        self.first(self.len)
    }

    fn first(&self, left: u64) -> Items<'a> {
        Items { item_type: self.item_type, left, rest: self.items }
    }
}

/// Arrays are equal where their items' types, their items and their kept counts are. Comparing goes
/// as deep as both of them do.
impl PartialEq for Array<'_> {
    fn eq(&self, other: &Array<'_>) -> bool {
        self.item_type == other.item_type
            && self.kept == other.kept
            && self.iter_all().eq(other.iter_all())
    }
}

impl fmt::Debug for Array<'_> {
    fn fmt(&self, f: &mut fmt::Formatter<'_>) -> fmt::Result {
        write!(f, "[{}; {} kept of {}]", self.item_type, self.kept, self.len)
    }
}

impl<'a> IntoIterator for Array<'a> {
    type Item = Value<'a>;
    type IntoIter = Items<'a>;

    fn into_iter(self) -> Items<'a> {
        self.iter()
    }
}

/// An iterator over the items of an array.
#[derive(Clone)]
pub struct Items<'a> {
    item_type: Type,
    left: u64,
    rest: Source<'a>,
}

impl<'a> Iterator for Items<'a> {
    type Item = Value<'a>;

    fn next(&mut self) -> Option<Value<'a>> {
        self.left = self.left.checked_sub(1)?;
        match &mut self.rest {
            Source::Read(part) => Some(part.item(self.item_type)),
            Source::Lent(values) => {
                let (first, others) = values.split_first()?;
                *values = others;
                Some(*first)
            }
        }
    }

    fn size_hint(&self) -> (usize, Option<usize>) {
        // Every item has a byte or more in the prefix, or is a value in memory, so their number
        // fits a usize.
        (self.left as usize, Some(self.left as usize))
    }
}

impl ExactSizeIterator for Items<'_> {}
impl FusedIterator for Items<'_> {}

/// A part of the prefix, from what is to be taken next on.
///
/// Only items of accepted arrays are taken. The reader saw all of them inside the prefix, and those
/// of the arrays inside them.
#[derive(Clone, Copy)]
struct Part<'a> {
    bytes: &'a [u8],
    dialect: Dialect,
}

impl<'a> Part<'a> {
    fn take(&mut self, n: usize) -> &'a [u8] {
        let (taken, rest) = self.bytes.split_at(n);
        self.bytes = rest;
        taken
    }

    fn number(&mut self, width: usize) -> u64 {
        let bytes = self.take(width);
        self.dialect.byte_order.number(bytes)
    }

    fn size(&mut self) -> u64 {
        self.number(self.dialect.size_width)
    }

    fn item(&mut self, item_type: Type) -> Value<'a> {
        match item_type.width() {
            Some(width) => Value::scalar(item_type, self.number(width)),
            None if item_type == Type::Array => Value::Array(self.array()),
            None => {
                let length = self.size();
                Value::String(self.take(length as usize))
            }
        }
    }

    /// An array inside another: its item type, its count and its items, which are passed here.
    fn array(&mut self) -> Array<'a> {
        let item_type = Type::of(self.number(4));
        let len = self.size();
        let array = Array { item_type, len, kept: len, items: Source::Read(*self) };
        self.pass(item_type, len);
        array
    }

    /// Passes so many items: scalars all at once, because they have one width, and strings and
    /// arrays one by one. For an array inside this one it is called again, which goes no deeper
    /// than the four arrays in one another that the reader accepts.
    fn pass(&mut self, item_type: Type, count: u64) {
        match item_type.width() {
            Some(width) => {
                self.take(width * count as usize);
            }
            None => {
                for _ in 0..count {
                    self.item(item_type);
                }
            }
        }
    }
}
