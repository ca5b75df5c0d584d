//! Values as trees, so that what the bytes of a header say, what the crate read there and what a
//! sheet says can be held against each other.

use crate::inputs::{number, WIDTHS};
use strutpebble::Value;

/// How many arrays may stand in one another, the outermost counted.
pub const DEEPEST: u32 = 4;

/// A value.
#[derive(Clone, Debug, PartialEq, Eq)]
pub enum Tree {
    /// A scalar: its type and its bits. A bool has 0 or 1.
    Scalar(u64, u64),
    /// A string.
    Text(Vec<u8>),
    /// An array: the type of its items, and these.
    Array(u64, Vec<Tree>),
}

impl Tree {
    /// A value of the crate, with all items of its arrays.
    pub fn of(value: Value<'_>) -> Tree {
        let bits = match value {
            Value::U8(n) => n.into(),
            Value::I8(n) => (n as u8).into(),
            Value::U16(n) => n.into(),
            Value::I16(n) => (n as u16).into(),
            Value::U32(n) => n.into(),
            Value::I32(n) => (n as u32).into(),
            Value::F32(x) => x.to_bits().into(),
            Value::Bool(yes) => yes.into(),
            Value::String(text) => return Tree::Text(text.to_vec()),
            Value::Array(array) => {
                let items = array.iter_all().map(Tree::of).collect();
                return Tree::Array(array.item_type() as u64, items);
            }
            Value::U64(n) => n,
            Value::I64(n) => n as u64,
            Value::F64(x) => x.to_bits(),
        };
        Tree::Scalar(value.value_type() as u64, bits)
    }

    /// The number of its type.
    pub fn kind(&self) -> u64 {
        match self {
            Tree::Scalar(kind, _) => *kind,
            Tree::Text(_) => 8,
            Tree::Array(..) => 9,
        }
    }

    /// How many arrays stand in one another.
    pub fn depth(&self) -> u32 {
        match self {
            Tree::Array(_, items) => 1 + items.iter().map(Tree::depth).max().unwrap_or(0),
            _ => 0,
        }
    }

    /// Whether it is an array that has arrays as items.
    pub fn is_nested(&self) -> bool {
        self.depth() > 1
    }

    /// Whether a sheet can't say it, where so many arrays may stand in one another: an array that
    /// is the last of them has item type 9, whatever its count.
    pub fn is_too_deep(&self, deepest: u32) -> bool {
        match self {
            Tree::Array(9, items) => {
                deepest == 1 || items.iter().any(|item| item.is_too_deep(deepest - 1))
            }
            _ => false,
        }
    }

    /// The same, but where it has arrays as items: then their bytes in a file are its items.
    pub fn flat(&self, size: usize) -> Tree {
        match self {
            Tree::Array(_, items) if self.is_nested() => {
                let bytes = items.iter().flat_map(|item| item.in_file(size));
                Tree::Array(0, bytes.map(|byte| Tree::Scalar(0, byte.into())).collect())
            }
            other => other.clone(),
        }
    }

    /// Its bytes behind its type in a little-endian file whose sizes have this width.
    fn in_file(&self, size: usize) -> Vec<u8> {
        let count = |count: usize| number(false, size, count as u64);
        match self {
            Tree::Scalar(kind, bits) => number(false, WIDTHS[*kind as usize], *bits),
            Tree::Text(text) => [count(text.len()), text.clone()].concat(),
            Tree::Array(item, items) => {
                let bytes = items.iter().flat_map(|item| item.in_file(size)).collect();
                [number(false, 4, *item), count(items.len()), bytes].concat()
            }
        }
    }
}
