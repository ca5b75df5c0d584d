//! The records of a header: its metadata entries and its tensors.

use crate::archive::{EntryRow, TensorRow};
use crate::front::Dialect;
use crate::kind::Kind;
use crate::value::Value;
use core::iter::FusedIterator;
use core::ops::Range;
use core::slice;

/// A metadata entry.
#[derive(Clone, Copy, Debug, PartialEq)]
pub struct Entry<'a> {
    key: &'a [u8],
    value: Value<'a>,
}

impl<'a> Entry<'a> {
    pub(crate) fn of_row(prefix: &'a [u8], dialect: Dialect, row: &[u64]) -> Entry<'a> {
        Entry {
            key: &prefix[row[0] as usize..][..row[1] as usize],
            value: Value::of_words(prefix, dialect, &row[2..]),
        }
    }

    /// The key, as the file has it.
    pub fn key(&self) -> &'a [u8] {
        self.key
    }

    /// The value.
    pub fn value(&self) -> Value<'a> {
        self.value
    }
}

/// A tensor.
#[derive(Clone, Copy, Debug, PartialEq, Eq)]
pub struct Tensor<'a> {
    name: &'a [u8],
    kind: Kind,
    dimensions: usize,
    shape: [u64; 4],
    offset: u64,
    size: u64,
    data_start: u64,
}

impl<'a> Tensor<'a> {
    fn of_row(prefix: &'a [u8], data_start: u64, row: &TensorRow) -> Tensor<'a> {
        Tensor {
            name: &prefix[row[0] as usize..][..row[1] as usize],
            kind: Kind::from(row[2] as u32),
            dimensions: row[3] as usize,
            shape: [row[4], row[5], row[6], row[7]],
            offset: row[8],
            size: row[9],
            data_start,
        }
    }

    /// The name, as the file has it.
    pub fn name(&self) -> &'a [u8] {
        self.name
    }

    /// The kind of its data.
    pub fn kind(&self) -> Kind {
        self.kind
    }

    /// Its lengths, as many as it has dimensions.
    pub fn lengths(&self) -> &[u64] {
        &self.shape[..self.dimensions]
    }

    /// Its four lengths, of which those beyond its dimensions are 1.
    pub fn shape(&self) -> [u64; 4] {
        self.shape
    }

    /// Where its data starts, counted from the start of the data: a multiple of the header's
    /// alignment.
    pub fn offset(&self) -> u64 {
        self.offset
    }

    /// How many bytes its data has.
    pub fn size(&self) -> u64 {
        self.size
    }

    /// The bytes of the file that hold its data; `None` where they would end above 2^64 - 1. The
    /// first of them is at a multiple of the header's alignment.
    pub fn range(&self) -> Option<Range<u64>> {
        let start = self.data_start.checked_add(self.offset)?;
        Some(start..start.checked_add(self.size)?)
    }
}

/// An iterator over the entries of a header.
#[derive(Clone, Debug)]
pub struct Entries<'a, 'h> {
    pub(crate) prefix: &'a [u8],
    pub(crate) dialect: Dialect,
    pub(crate) rows: slice::Iter<'h, EntryRow>,
}

/// An iterator over the tensors of a header.
#[derive(Clone, Debug)]
pub struct Tensors<'a, 'h> {
    pub(crate) prefix: &'a [u8],
    pub(crate) data_start: u64,
    pub(crate) rows: slice::Iter<'h, TensorRow>,
}

impl<'a> Iterator for Entries<'a, '_> {
    type Item = Entry<'a>;

    fn next(&mut self) -> Option<Entry<'a>> {
        self.rows.next().map(|row| Entry::of_row(self.prefix, self.dialect, row))
    }

    fn size_hint(&self) -> (usize, Option<usize>) {
        self.rows.size_hint()
    }

    fn nth(&mut self, n: usize) -> Option<Entry<'a>> {
        self.rows.nth(n).map(|row| Entry::of_row(self.prefix, self.dialect, row))
    }
}

impl DoubleEndedIterator for Entries<'_, '_> {
    fn next_back(&mut self) -> Option<Self::Item> {
        self.rows.next_back().map(|row| Entry::of_row(self.prefix, self.dialect, row))
    }
}

impl ExactSizeIterator for Entries<'_, '_> {}
impl FusedIterator for Entries<'_, '_> {}

impl<'a> Iterator for Tensors<'a, '_> {
    type Item = Tensor<'a>;

    fn next(&mut self) -> Option<Tensor<'a>> {
        self.rows.next().map(|row| Tensor::of_row(self.prefix, self.data_start, row))
    }

    fn size_hint(&self) -> (usize, Option<usize>) {
        self.rows.size_hint()
    }

    fn nth(&mut self, n: usize) -> Option<Tensor<'a>> {
        self.rows.nth(n).map(|row| Tensor::of_row(self.prefix, self.data_start, row))
    }
}

impl DoubleEndedIterator for Tensors<'_, '_> {
    fn next_back(&mut self) -> Option<Self::Item> {
        self.rows.next_back().map(|row| Tensor::of_row(self.prefix, self.data_start, row))
    }
}

impl ExactSizeIterator for Tensors<'_, '_> {}
impl FusedIterator for Tensors<'_, '_> {}
