//! Reading a header, and the header that was read.

use crate::archive::{self, Answer, EntryRow, TensorRow, Words, NEVER};
use crate::error::RangeError;
use crate::front::{ByteOrder, Claim, Dialect};
use crate::records::{Entries, Entry, Tensor, Tensors};
use crate::refusal::Refusal;
use crate::value::Value;
use alloc::vec;
use alloc::vec::Vec;
use core::ops::Range;

/// What a header says of itself.
#[derive(Clone, Copy, Debug, PartialEq, Eq, Hash)]
pub struct Summary {
    /// 1, 2 or 3.
    pub version: u32,
    /// The order of the bytes of all its numbers, and whether the magic is turned round too.
    pub byte_order: ByteOrder,
    /// How many metadata entries there are.
    pub entries: usize,
    /// How many tensors there are.
    pub tensors: usize,
    /// The data starts at a multiple of it, and so does the data of each tensor.
    pub alignment: u64,
    /// The place after the last byte of the header.
    pub header_end: u64,
    /// Where the data starts in the file. Offsets of tensors count from here.
    pub data_start: u64,
}

impl Summary {
    fn of(answer: Answer) -> Result<Summary, Refusal> {
        let words = accepted(answer)?;
        Ok(Summary {
            version: words[0] as u32,
            byte_order: ByteOrder::from_word(words[1]),
            entries: words[2] as usize,
            tensors: words[3] as usize,
            alignment: words[4],
            header_end: words[5],
            data_start: words[6],
        })
    }

    fn dialect(&self) -> Dialect {
        Dialect::new(self.byte_order, self.version.into())
    }
}

/// The words of the reader's answer, or its refusal.
pub(crate) fn accepted((number, words): Answer) -> Result<Words, Refusal> {
    match number {
        0 => Ok(words),
        _ => Err(Refusal::of_reader(number, words[0])),
    }
}

/// How to read: the highest version and kind that are accepted, and how many items of a tokenizer's
/// arrays are kept. By default every version and kind that there is, and 3 items.
///
/// ```
/// use strutpebble::{Options, Reason};
///
/// let empty = b"GGUF\x03\0\0\0\0\0\0\0\0\0\0\0\0\0\0\0\0\0\0\0";
/// assert!(Options::new().read(empty).is_ok());
/// let refusal = Options::new().highest_version(2).read(empty).unwrap_err();
/// assert_eq!(refusal.reason(), Reason::VersionAboveCeiling);
/// ```
#[derive(Clone, Copy, Debug, PartialEq, Eq, Hash)]
pub struct Options {
    versions: u32,
    kinds: u32,
    cap: u64,
}

impl Options {
    /// Versions up to 3, kinds up to 39, a cap of 3.
    pub const fn new() -> Options {
        Options { versions: 3, kinds: 39, cap: 3 }
    }

    /// Refuses (5) a version above this one.
    pub const fn highest_version(mut self, version: u32) -> Options {
        self.versions = version;
        self
    }

    /// Refuses (12) a kind whose number is above this one.
    pub const fn highest_kind(mut self, kind: u32) -> Options {
        self.kinds = kind;
        self
    }

    /// Keeps at most so many items of an array under a key that starts with `tokenizer.`. Every
    /// item is checked all the same. An item that is an array is kept with all its own items.
    pub const fn cap(mut self, items: u64) -> Options {
        self.cap = items;
        self
    }

    /// Checks a whole header, and gives what it says of itself. Nothing is allocated.
    pub fn measure(&self, prefix: &[u8]) -> Result<Summary, Refusal> {
        Summary::of(archive::measure(prefix, self.versions, self.kinds))
    }

    /// Reads a header into the caller's rows, which stay as they are where it is refused. Nothing
    /// is allocated. The columns are those of the constants `SP_ENTRY_*` and `SP_TENSOR_*` in the C
    /// header; too few rows are refused (6).
    pub fn read_rows(
        &self,
        prefix: &[u8],
        entries: &mut [EntryRow],
        tensors: &mut [TensorRow],
    ) -> Result<Summary, Refusal> {
        Summary::of(archive::read(prefix, self.versions, self.kinds, self.cap, entries, tensors))
    }

    /// Reads a header. Refusal 6 is never given.
    ///
    /// The archive's reader is called once, with as many rows as the counts at the front of the
    /// file claim; it passes the entries once where there are at most 64 of them, and else twice,
    /// and the tensors twice. Where the prefix could not hold so many records, no rows are
    /// allocated, and the archive's measuring pass finds the refusal.
    ///
    /// So a header that merely claims many records costs nothing, and rows take less than 4.4 bytes
    /// for each byte of the prefix (less than 6.3 in version 1, whose records can be shorter): 56
    /// bytes for each entry and 80 for each tensor. Nothing else is allocated.
    pub fn read<'a>(&self, prefix: &'a [u8]) -> Result<Header<'a>, Refusal> {
        let claim = match Claim::of_front(prefix) {
            Some(claim) => claim,
            // An accepted header has its front and all its records in the prefix, none of them
            // shorter than the shortest: then there is a claim. So this is a refusal. If it were
            // not, the counts that were measured would be the right ones.
            None => {
                let measured = self.measure(prefix)?;
                Claim { entries: measured.entries, tensors: measured.tensors }
            }
        };
        let rows = (claim.entries, claim.tensors);
        let (answer, entries, tensors) =
            archive::read_new(prefix, self.versions, self.kinds, self.cap, rows);
        Ok(Header { prefix, summary: Summary::of(answer)?, entries, tensors })
    }
}

impl Default for Options {
    fn default() -> Options {
        Options::new()
    }
}

/// A header that was read. Its names and strings are parts of the prefix.
#[derive(Clone, Debug)]
pub struct Header<'a> {
    prefix: &'a [u8],
    summary: Summary,
    entries: Vec<EntryRow>,
    tensors: Vec<TensorRow>,
}

impl<'a> Header<'a> {
    /// What the header says of itself.
    pub fn summary(&self) -> Summary {
        self.summary
    }

    /// The version: 1, 2 or 3.
    pub fn version(&self) -> u32 {
        self.summary.version
    }

    /// The order of the bytes of the file's numbers, and whether the magic is turned round too.
    pub fn byte_order(&self) -> ByteOrder {
        self.summary.byte_order
    }

    /// The alignment of the data.
    pub fn alignment(&self) -> u64 {
        self.summary.alignment
    }

    /// The place after the last byte of the header.
    pub fn header_end(&self) -> u64 {
        self.summary.header_end
    }

    /// Where the data starts in the file.
    pub fn data_start(&self) -> u64 {
        self.summary.data_start
    }

    /// The entries, in the order of the file.
    pub fn entries(&self) -> Entries<'a, '_> {
        let dialect = self.summary.dialect();
        Entries { prefix: self.prefix, dialect, rows: self.entries.iter() }
    }

    /// The tensors, in the order of the file.
    pub fn tensors(&self) -> Tensors<'a, '_> {
        let data_start = self.summary.data_start;
        Tensors { prefix: self.prefix, data_start, rows: self.tensors.iter() }
    }

    /// The value of a key. Of equal keys the last decides.
    pub fn get(&self, key: impl AsRef<[u8]>) -> Option<Value<'a>> {
        let key = key.as_ref();
        self.entries().rfind(|entry| entry.key() == key).map(|entry: Entry| entry.value())
    }

    /// The model's family, the string of `general.architecture`.
    pub fn model_family(&self) -> Option<&'a [u8]> {
        self.get("general.architecture")?.as_bytes()
    }

    /// The file's type: an integer from 0 to 24 under `general.file_type`; `None` where there is no
    /// such integer.
    pub fn file_type(&self) -> Option<u64> {
        self.get("general.file_type")?.as_u64().filter(|number| *number <= 24)
    }

    /// The tensor of a number, counted from 0.
    pub fn tensor(&self, index: usize) -> Option<Tensor<'a>> {
        self.tensors().nth(index)
    }

    /// The first tensor of a name, with its number.
    pub fn find_tensor(&self, name: impl AsRef<[u8]>) -> Option<(usize, Tensor<'a>)> {
        let name = name.as_ref();
        self.tensors().enumerate().find(|(_, tensor)| tensor.name() == name)
    }

    /// The bytes of the file that hold the tensor of a number.
    pub fn range_of(&self, index: usize) -> Result<Range<u64>, RangeError> {
        let tensor = self.tensor(index).ok_or(RangeError::NoSuchTensor)?;
        tensor.range().ok_or(RangeError::Overflow)
    }

    /// The bytes of the file that hold the first tensor of a name.
    pub fn range_of_name(&self, name: impl AsRef<[u8]>) -> Result<Range<u64>, RangeError> {
        let (_, tensor) = self.find_tensor(name).ok_or(RangeError::NoSuchTensor)?;
        tensor.range().ok_or(RangeError::Overflow)
    }

    /// Whether the data of every tensor ends inside a file of so many bytes; else the refusal, 20,
    /// with the first tensor whose data does not.
    pub fn check_ranges(&self, file_length: u64) -> Result<(), Refusal> {
        let start = self.summary.data_start;
        match archive::check_ranges(&self.tensors, start, file_length) {
            (0, _) => Ok(()),
            (number, words) => Err(Refusal::of_range_check(number, words[0])),
        }
    }

    /// Replays a trace of fetches of a file of so many bytes: for each tensor, in the order of the
    /// file, the first record after which all its bytes were delivered, counted from 1; `Some(0)`
    /// for a tensor of size 0; `None` where some byte never was.
    ///
    /// A trace is the byte 1 and then records, each of 20 bytes: the number 16 (4 bytes), a place
    /// in the file (8 bytes) and how many bytes were fetched from there on (8 bytes), all
    /// big-endian. What a record fetches past the end of the file delivers nothing, so a tensor
    /// with bytes after that end is never complete. A byte that is delivered twice counts once.
    ///
    /// A trace that is not well formed is refused (43), and so is one with a fetch that ends above
    /// 2^64 - 1 (44): at the start of the first such record, or at 0 for the version. Refusal 45 is
    /// never given.
    ///
    /// ```
    /// use strutpebble::{Kind, Place, Sheet};
    ///
    /// // 20 bytes from 96 on, and 6 bytes from 128 on.
    /// let file = Sheet::new().tensor("a", Kind::F32, &[5]).tensor("b", Kind::F16, &[3]).to_vec()?;
    /// let header = strutpebble::read(&file)?;
    ///
    /// let mut trace = vec![1];
    /// trace.extend(16u32.to_be_bytes());
    /// trace.extend(96u64.to_be_bytes());
    /// trace.extend(38u64.to_be_bytes());
    /// assert_eq!(header.replay_fetches(134, &trace)?, [Some(1), Some(1)]);
    /// // A file that ends one byte sooner lacks a byte of b.
    /// assert_eq!(header.replay_fetches(133, &trace)?, [Some(1), None]);
    ///
    /// // A part of a second record.
    /// trace.push(0);
    /// assert_eq!(header.replay_fetches(134, &trace).unwrap_err().place(), Place::Trace(21));
    /// # Ok::<(), Box<dyn std::error::Error>>(())
    /// ```
    pub fn replay_fetches(
        &self,
        file_length: u64,
        trace: &[u8],
    ) -> Result<Vec<Option<u64>>, Refusal> {
        let start = self.summary.data_start;
        let mut answers = vec![NEVER; self.tensors.len()];
        match archive::replay_fetches(&self.tensors, start, file_length, trace, &mut answers) {
            (0, _) => {
                let completed = |record| (record != NEVER).then_some(record);
                Ok(answers.into_iter().map(completed).collect())
            }
            (number, words) => Err(Refusal::of_replay(number, words[0])),
        }
    }
}
