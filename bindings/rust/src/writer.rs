//! Writing a header.

use crate::archive;
use crate::error::WriteError;
use crate::front::ByteOrder;
use crate::refusal::{Reason, Refusal};
use crate::sheet::Sheet;
use alloc::vec::Vec;

/// Where a header that was written ends.
#[derive(Clone, Copy, Debug, PartialEq, Eq, Hash)]
pub struct Written {
    /// The place after the last byte of the header.
    pub header_end: u64,
    /// Where the data starts. The bytes from the header's end up to here are zeros; those after
    /// are as they were.
    pub data_start: u64,
}

/// How to write: the version, the byte order and the alignment. By default version 3,
/// little-endian, and 32.
///
/// ```
/// use strutpebble::{ByteOrder, Kind, Sheet, WriteOptions};
///
/// let sheet = Sheet::new().tensor("a", Kind::F32, &[5]);
/// let options = WriteOptions::new().version(3).byte_order(ByteOrder::Big).alignment(64);
/// let file = options.to_vec(&sheet)?;
/// assert!(file.starts_with(b"GGUF\0\0\0\x03"));
///
/// let header = strutpebble::read(&file)?;
/// assert_eq!((header.version(), header.byte_order()), (3, ByteOrder::Big));
/// assert_eq!((header.alignment(), header.data_start()), (64, file.len() as u64));
///
/// // `Big` is there in version 3 only. `BigMagic`, the magic 46 55 47 47, goes with 1 and 2 too.
/// assert!(options.version(2).to_vec(&sheet).is_err());
/// let file = options.version(2).byte_order(ByteOrder::BigMagic).to_vec(&sheet)?;
/// assert!(file.starts_with(b"FUGG\0\0\0\x02"));
/// # Ok::<(), Box<dyn std::error::Error>>(())
/// ```
#[derive(Clone, Copy, Debug, PartialEq, Eq, Hash)]
pub struct WriteOptions {
    version: u32,
    byte_order: ByteOrder,
    alignment: u64,
}

impl WriteOptions {
    /// Version 3, little-endian, alignment 32.
    pub const fn new() -> WriteOptions {
        WriteOptions { version: 3, byte_order: ByteOrder::Little, alignment: 32 }
    }

    /// Writes this version: 1, 2 or 3, and 3 alone with [`ByteOrder::Big`]. Any other is refused
    /// (30).
    pub const fn version(mut self, version: u32) -> WriteOptions {
        self.version = version;
        self
    }

    /// Writes numbers in this byte order, and the magic that goes with it. [`ByteOrder::Big`] goes
    /// with version 3 alone, and is refused (30) with any other; [`ByteOrder::BigMagic`], with the
    /// magic `46 55 47 47`, goes with versions 1, 2 and 3.
    pub const fn byte_order(mut self, byte_order: ByteOrder) -> WriteOptions {
        self.byte_order = byte_order;
        self
    }

    /// Starts the data, and the data of each tensor in it, at a multiple of this alignment, which
    /// is a multiple of 8. Where it is not 32 and the sheet has no `general.alignment`, that entry
    /// is added.
    pub const fn alignment(mut self, alignment: u64) -> WriteOptions {
        self.alignment = alignment;
        self
    }

    /// Writes the header that a sheet describes at the front of `out`, and zeros up to the start of
    /// its data. An error leaves `out` as it was.
    ///
    /// Tensors get their offsets in order, each the least multiple of the alignment that is not
    /// below the end of the tensor before.
    pub fn write(&self, sheet: &Sheet, out: &mut [u8]) -> Result<Written, WriteError> {
        Ok(self.write_bytes(&sheet.bytes()?, out)?)
    }

    /// The header that a sheet describes, and zeros up to the start of its data.
    ///
    /// Allocates, beside the sheet's bytes, at most 2.4 times as many, 64 more, and one alignment
    /// more.
    /// Where there is no memory for it, the writer's refusal of a short output (38) is given.
    pub fn to_vec(&self, sheet: &Sheet) -> Result<Vec<u8>, WriteError> {
        let sheet = sheet.bytes()?;
        let mut out = Vec::new();
        // Whatever else is to be refused is refused before memory is asked for.
        let mut answer = self.write_bytes(&sheet, &mut out);
        if answer.is_err_and(|refusal| refusal.reason() == Reason::OutputTooShort) {
            out = self.room(sheet.len());
            answer = self.write_bytes(&sheet, &mut out);
        }
        out.truncate(answer?.data_start as usize);
        Ok(out)
    }

    /// Zeros, enough for the header of a sheet of so many bytes and its padding; none where there
    /// is no memory for so many.
    ///
    /// What grows most from a sheet to a header is an array of no items in another: its item type
    /// from 1 byte to 4, and its count from 4 to 8, so from 5 bytes to 12. Magic, version, counts
    /// and an alignment that is added take 57 bytes.
    fn room(&self, sheet_len: usize) -> Vec<u8> {
        let mut out = Vec::new();
        // The sheet's first byte, which no record has, makes up for what the division drops.
        let most = sheet_len.checked_mul(12).and_then(|parts| (parts / 5).checked_add(57));
        let padded = most.and_then(|most| most.checked_next_multiple_of(self.alignment as usize));
        if let Some(length) = padded.filter(|length| out.try_reserve_exact(*length).is_ok()) {
            out.resize(length, 0);
        }
        out
    }

    fn write_bytes(&self, sheet: &[u8], out: &mut [u8]) -> Result<Written, Refusal> {
        write_header(sheet, self.version, self.byte_order, self.alignment, out)
    }
}

impl Default for WriteOptions {
    fn default() -> WriteOptions {
        WriteOptions::new()
    }
}

/// Writes the header that the bytes of a sheet describe, as [`WriteOptions::write`] does. The C
/// header says what these bytes are, and [`Sheet`] lays them out.
pub fn write_header(
    sheet: &[u8],
    version: u32,
    byte_order: ByteOrder,
    alignment: u64,
    out: &mut [u8],
) -> Result<Written, Refusal> {
    match archive::write(sheet, version, byte_order.to_number(), alignment, out) {
        (0, words) => Ok(Written { header_end: words[0], data_start: words[1] }),
        (number, words) => Err(Refusal::of_writer(number, words[0])),
    }
}
