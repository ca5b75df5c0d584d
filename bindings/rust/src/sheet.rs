//! Sheets: what a header to write is to hold.

use crate::error::{SheetError, WriteError};
use crate::kind::Kind;
use crate::value::{Type, Value};
use crate::writer::{WriteOptions, Written};
use alloc::collections::BTreeMap;
use alloc::vec;
use alloc::vec::Vec;

/// How many arrays may stand in one another, the outermost counted.
const DEEPEST: usize = 4;

/// What a header is to hold, entry by entry and tensor by tensor.
///
/// Entries are sorted by their keys, and tensors stay in the order in which they are added. A sheet
/// remembers the first entry or tensor that it can't hold, and gives that [`SheetError`] where its
/// bytes are asked for: at [`bytes`](Sheet::bytes), [`write`](Sheet::write) and
/// [`to_vec`](Sheet::to_vec). Whether the header can be written, the writer says.
///
/// ```
/// use strutpebble::{Kind, Sheet, Value};
///
/// let sheet = Sheet::new()
///     .entry("general.architecture", Value::String(b"llama"))
///     .tensor("a", Kind::F32, &[5])
///     .tensor("b", Kind::F16, &[3]);
/// let mut file = [0; 256];
/// let written = sheet.write(&mut file)?;
///
/// let header = strutpebble::read(&file[..written.header_end as usize])?;
/// assert_eq!(header.model_family(), Some(&b"llama"[..]));
/// assert_eq!(header.data_start(), written.data_start);
/// assert_eq!(header.tensors().map(|tensor| tensor.offset()).collect::<Vec<_>>(), [0, 32]);
/// # Ok::<(), Box<dyn std::error::Error>>(())
/// ```
#[derive(Clone, Debug, Default, PartialEq, Eq, Hash)]
pub struct Sheet {
    /// The records of the entries, by their keys.
    entries: BTreeMap<Vec<u8>, Vec<u8>>,
    /// The records of the tensors.
    tensors: Vec<Vec<u8>>,
    error: Option<SheetError>,
}

impl Sheet {
    /// A sheet of no entries and no tensors.
    pub fn new() -> Sheet {
        Sheet::default()
    }

    /// Adds a metadata entry, in place of one of the same key. An array that was read from a header
    /// is added with all its items, whatever the reader's cap was; one of other values is made by
    /// [`Array::new`](crate::Array::new), and [`array`](Sheet::array) says what arrays may hold.
    pub fn entry(self, key: impl AsRef<[u8]>, value: Value<'_>) -> Sheet {
        let key = key.as_ref();
        self.with_entry(key, value_record(key, value))
    }

    /// Adds an entry whose value is an array, in place of one of the same key. Every item must be
    /// of the item type, and so in each array inside it.
    ///
    /// Arrays may stand in one another four deep, this one counted. The writer refuses (31) a
    /// fourth whose item type is [`Type::Array`], even where it has no items, which the reader
    /// accepts.
    pub fn array<'v>(
        self,
        key: impl AsRef<[u8]>,
        item_type: Type,
        items: impl IntoIterator<Item = Value<'v>>,
    ) -> Sheet {
        let key = key.as_ref();
        self.with_entry(key, array_record(key, item_type, items))
    }

    /// Adds a tensor after the others.
    pub fn tensor(
        mut self,
        name: impl AsRef<[u8]>,
        kind: impl Into<Kind>,
        lengths: &[u64],
    ) -> Sheet {
        match tensor_record(name.as_ref(), kind.into(), lengths) {
            Ok(record) => self.tensors.push(record),
            Err(error) => self.remember(error),
        }
        self
    }

    fn with_entry(mut self, key: &[u8], record: Result<Vec<u8>, SheetError>) -> Sheet {
        match record {
            Ok(record) => drop(self.entries.insert(key.to_vec(), record)),
            Err(error) => self.remember(error),
        }
        self
    }

    /// Keeps an error, unless there was one before.
    fn remember(&mut self, error: SheetError) {
        self.error.get_or_insert(error);
    }

    /// The sheet's bytes, as [`write_header`](crate::write_header) takes them.
    pub fn bytes(&self) -> Result<Vec<u8>, SheetError> {
        if let Some(error) = &self.error {
            return Err(error.clone());
        }
        let mut bytes = vec![1];
        for record in self.entries.values().chain(&self.tensors) {
            // No record is longer than 2^32 - 1 bytes (`Record::push`).
            bytes.extend((record.len() as u32).to_be_bytes());
            bytes.extend(record);
        }
        Ok(bytes)
    }

    /// Writes the header at the front of `out` with the default [`WriteOptions`]: version 3,
    /// little-endian, alignment 32.
    pub fn write(&self, out: &mut [u8]) -> Result<Written, WriteError> {
        WriteOptions::new().write(self, out)
    }

    /// The header, and zeros up to the start of its data, with the default [`WriteOptions`].
    pub fn to_vec(&self) -> Result<Vec<u8>, WriteError> {
        WriteOptions::new().to_vec(self)
    }
}

/// The record of an entry.
fn value_record(key: &[u8], value: Value<'_>) -> Result<Vec<u8>, SheetError> {
    let mut record = Record::new(1, key)?;
    record.push(&[value.value_type() as u8])?;
    record.value(value, 0)?;
    Ok(record.bytes)
}

/// The record of an entry whose value is an array of these items.
fn array_record<'v>(
    key: &[u8],
    item_type: Type,
    items: impl IntoIterator<Item = Value<'v>>,
) -> Result<Vec<u8>, SheetError> {
    let mut record = Record::new(1, key)?;
    record.push(&[Type::Array as u8])?;
    record.array(item_type, items, 0)?;
    Ok(record.bytes)
}

/// The record of a tensor.
fn tensor_record(name: &[u8], kind: Kind, lengths: &[u64]) -> Result<Vec<u8>, SheetError> {
    let mut record = Record::new(2, name)?;
    record.push(&kind.number().to_be_bytes())?;
    // More than 4 are refused by the writer, so a count above 255 need not be right.
    record.push(&[lengths.len().min(255) as u8])?;
    for length in lengths {
        record.push(&length.to_be_bytes())?;
    }
    Ok(record.bytes)
}

/// A record of a sheet while it is laid out. Its length is one that four bytes can say.
struct Record<'n> {
    name: &'n [u8],
    bytes: Vec<u8>,
}

impl<'n> Record<'n> {
    /// A record that starts with a byte for what it describes, and a name behind its length.
    fn new(described: u8, name: &'n [u8]) -> Result<Record<'n>, SheetError> {
        let mut record = Record { name, bytes: vec![described] };
        record.text(name)?;
        Ok(record)
    }

    fn push(&mut self, bytes: &[u8]) -> Result<(), SheetError> {
        total_length(self.bytes.len(), bytes.len())?;
        self.bytes.extend_from_slice(bytes);
        Ok(())
    }

    /// Bytes behind their length.
    fn text(&mut self, text: &[u8]) -> Result<(), SheetError> {
        let length = total_length(0, text.len())?;
        self.push(&length.to_be_bytes())?;
        self.push(text)
    }

    /// A scalar in its own width, a string with nothing in front of it, or an array inside so many
    /// others.
    fn value(&mut self, value: Value<'_>, around: usize) -> Result<(), SheetError> {
        match value {
            Value::U8(n) => self.push(&[n]),
            Value::I8(n) => self.push(&n.to_be_bytes()),
            Value::U16(n) => self.push(&n.to_be_bytes()),
            Value::I16(n) => self.push(&n.to_be_bytes()),
            Value::U32(n) => self.push(&n.to_be_bytes()),
            Value::I32(n) => self.push(&n.to_be_bytes()),
            Value::F32(x) => self.push(&x.to_bits().to_be_bytes()),
            Value::Bool(yes) => self.push(&[yes.into()]),
            Value::String(bytes) => self.push(bytes),
            Value::U64(n) => self.push(&n.to_be_bytes()),
            Value::I64(n) => self.push(&n.to_be_bytes()),
            Value::F64(x) => self.push(&x.to_bits().to_be_bytes()),
            Value::Array(array) => self.array(array.item_type(), array.iter_all(), around),
        }
    }

    /// An array inside so many others: its item type, its count and its items.
    fn array<'v>(
        &mut self,
        item_type: Type,
        items: impl IntoIterator<Item = Value<'v>>,
        around: usize,
    ) -> Result<(), SheetError> {
        self.push(&[item_type as u8])?;
        let count_at = self.bytes.len();
        self.push(&[0; 4])?;
        // The writer refuses this item type here, whatever the count. So the items are not looked
        // at, and calls go no deeper than this, however deep an array is that is lent.
        if item_type == Type::Array && around + 1 == DEEPEST {
            return Ok(());
        }
        let mut count: u32 = 0;
        for item in items {
            self.item(item_type, item, around + 1)?;
            // Every item takes a byte of the record or more, so their count fits as its length
            // does.
            count += 1;
        }
        self.bytes[count_at..][..4].copy_from_slice(&count.to_be_bytes());
        Ok(())
    }

    /// An item of an array, inside so many arrays.
    fn item(&mut self, expected: Type, item: Value<'_>, around: usize) -> Result<(), SheetError> {
        let found = item.value_type();
        if found != expected {
            return Err(SheetError::ItemType { key: self.name.to_vec(), expected, found });
        }
        match item {
            Value::String(bytes) => self.text(bytes),
            other => self.value(other, around),
        }
    }
}

/// The sum of two lengths, where four bytes can say it.
fn total_length(held: usize, more: usize) -> Result<u32, SheetError> {
    let total = held.checked_add(more).ok_or(SheetError::TooLong)?;
    total.try_into().map_err(|_| SheetError::TooLong)
}

#[cfg(test)]
mod tests {
    use super::*;

    #[test]
    fn lengths_that_four_bytes_can_say() {
        let most = u32::MAX as usize;
        assert_eq!(total_length(0, most), Ok(u32::MAX));
        assert_eq!(total_length(most - 7, 7), Ok(u32::MAX));
        for (held, more) in [(0, most + 1), (most, 1), (1, most), (1, usize::MAX), (usize::MAX, 1)]
        {
            assert_eq!(total_length(held, more), Err(SheetError::TooLong), "{held} + {more}");
        }
    }
}
