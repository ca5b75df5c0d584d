//! GGUF model-file headers, read from the bytes at hand, and written, by proved code.
//!
//! Give [`read`] the front of a file, often its first 64 KiB, and it answers with the [`Header`]:
//! its metadata entries, its tensors, and which bytes of the file hold each tensor; or with a
//! [`Refusal`], a reason and a place. [`Reason::CutOff`] means that the header does not end inside
//! these bytes: fetch more. Any other answer stays, whatever bytes follow, and may be kept. Names and
//! strings are parts of the bytes that were given.
//!
//! From a trace of which bytes of the file were fetched, [`Header::replay_fetches`] answers after
//! which fetch each tensor was there whole.
//!
//! A [`Sheet`] describes a header to write, and [`Sheet::write`] writes it.
//!
//! The items of an array may be arrays, which stand in one another four deep at most, the outermost
//! counted: [`Array::iter`] gives those that are read, and [`Array::new`] makes those to write.
//!
//! The reading and writing is done by the functions of `libstrutpebble.a`, each of which is proved
//! to answer as the format's definition says, on every input. This crate turns their numbers into
//! Rust's own types. It needs `alloc`, and no `std`.
//!
//! ```
//! // Two tensors: "a", five f32, and "b", three f16.
//! let mut file = b"GGUF\x03\0\0\0".to_vec();
//! file.extend(2u64.to_le_bytes()); // tensors
//! file.extend(0u64.to_le_bytes()); // entries
//! for (name, kind, length, offset) in [(b'a', 0u32, 5u64, 0u64), (b'b', 1, 3, 32)] {
//!     file.extend(1u64.to_le_bytes());
//!     file.push(name);
//!     file.extend(1u32.to_le_bytes());
//!     file.extend(length.to_le_bytes());
//!     file.extend(kind.to_le_bytes());
//!     file.extend(offset.to_le_bytes());
//! }
//!
//! let header = strutpebble::read(&file)?;
//! assert_eq!(header.data_start(), 96);
//! for tensor in header.tensors() {
//!     println!("{}: {:?}", String::from_utf8_lossy(tensor.name()), tensor.range());
//! }
//! assert_eq!(header.range_of(0)?, 96..116);
//! assert_eq!(header.range_of_name("b")?, 128..134);
//! assert!(header.check_ranges(134).is_ok());
//! assert_eq!(
//!     header.check_ranges(133).unwrap_err().to_string(),
//!     "refused 20 at tensor 1: the tensor's data ends after the end of the file"
//! );
//!
//! // Half a header is no header.
//! assert!(strutpebble::read(&file[..50]).unwrap_err().wants_more());
//! # Ok::<(), Box<dyn std::error::Error>>(())
//! ```

#![no_std]

extern crate alloc;

mod archive;
mod error;
mod front;
mod header;
mod kind;
mod records;
mod refusal;
mod sheet;
mod value;
mod writer;

pub use archive::{EntryRow, TensorRow};
pub use error::{RangeError, SheetError, StringError, WriteError};
pub use front::ByteOrder;
pub use header::{Header, Options, Summary};
pub use kind::Kind;
pub use records::{Entries, Entry, Tensor, Tensors};
pub use refusal::{Place, Reason, Refusal};
pub use sheet::Sheet;
pub use value::{Array, Items, Type, Value};
pub use writer::{write_header, WriteOptions, Written};

use archive::Answer;
use front::Dialect;
use header::accepted;

/// Reads a header with the default [`Options`].
pub fn read(prefix: &[u8]) -> Result<Header<'_>, Refusal> {
    Options::new().read(prefix)
}

/// Checks a whole header with the default [`Options`], and gives what it says of itself. Nothing is
/// allocated.
pub fn measure(prefix: &[u8]) -> Result<Summary, Refusal> {
    Options::new().measure(prefix)
}

/// What the archive answers beside 0 and refusals.
const ABSENT: u64 = 100;
const OTHER_TYPE: u64 = 101;
const UNKNOWN_FILE_TYPE: u64 = 102;

/// The last entry of a key. The whole header is checked with the default [`Options`], in one pass,
/// and nothing is allocated.
pub fn find(prefix: &[u8], key: impl AsRef<[u8]>) -> Result<Option<Entry<'_>>, Refusal> {
    let answer = archive::find(prefix, key.as_ref());
    if answer.0 == ABSENT {
        return Ok(None);
    }
    let words = accepted(answer)?;
    let dialect = Dialect::of_front(prefix).expect("an accepted header has a magic and a version");
    Ok(Some(Entry::of_row(prefix, dialect, &words[..7])))
}

/// The string of a key. The whole header is checked with the default [`Options`], in one pass, and
/// nothing is allocated.
pub fn find_string(prefix: &[u8], key: impl AsRef<[u8]>) -> Result<&[u8], StringError> {
    string_of(prefix, archive::find_string(prefix, key.as_ref()))
}

/// The model's family, the string of `general.architecture`, as [`find_string`] gives it.
pub fn model_family(prefix: &[u8]) -> Result<&[u8], StringError> {
    string_of(prefix, archive::model_family(prefix))
}

fn string_of(prefix: &[u8], answer: Answer) -> Result<&[u8], StringError> {
    match answer.0 {
        ABSENT => Err(StringError::Absent),
        OTHER_TYPE => Err(StringError::OtherType),
        _ => {
            let words = accepted(answer)?;
            Ok(&prefix[words[0] as usize..][..words[1] as usize])
        }
    }
}

/// The file's type, an integer from 0 to 24 under `general.file_type`; `None` where there is no
/// such integer. The whole header is checked with the default [`Options`], in one pass, and nothing
/// is allocated.
pub fn file_type(prefix: &[u8]) -> Result<Option<u64>, Refusal> {
    let answer = archive::file_type(prefix);
    if answer.0 == UNKNOWN_FILE_TYPE {
        return Ok(None);
    }
    Ok(Some(accepted(answer)?[0]))
}
