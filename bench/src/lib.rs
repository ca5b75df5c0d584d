//! The two readers that are compared, each called as it is in use, on bytes in memory. This
//! project's reader is called through its Rust crate.

pub mod inputs;
#[allow(dead_code, unused)]
#[path = "../original/src/lib.rs"]
mod original;

pub use original::GGUFModel;
use original::{ByteOrder, GGUFContainer, FILE_MAGIC_GGUF_BE, FILE_MAGIC_GGUF_LE};
use std::io::Cursor;
use strutpebble::{EntryRow, Options, Refusal, Summary, TensorRow};

/// How many rows the tables have: enough for every input.
pub const ROWS: usize = 1024;

/// The tables that are lent to this project's reader.
pub struct Tables {
    pub entries: Vec<EntryRow>,
    pub tensors: Vec<TensorRow>,
}

impl Tables {
    pub fn new() -> Tables {
        Tables { entries: vec![[0; 7]; ROWS], tensors: vec![[0; 10]; ROWS] }
    }

    /// This project's reader, which fills the lent tables.
    pub fn read(&mut self, bytes: &[u8]) -> Result<Summary, Refusal> {
        Options::new().read_rows(bytes, &mut self.entries, &mut self.tensors)
    }
}

impl Default for Tables {
    fn default() -> Tables {
        Tables::new()
    }
}

/// The original. Its own opening of a file looks at the magic in the same way, and keeps three
/// items of a long array too.
pub fn original(bytes: &'static [u8]) -> anyhow::Result<GGUFModel> {
    let (magic, rest) = bytes.split_at(4);
    let order = match i32::from_le_bytes(magic.try_into()?) {
        FILE_MAGIC_GGUF_LE => ByteOrder::LE,
        FILE_MAGIC_GGUF_BE => ByteOrder::BE,
        _ => anyhow::bail!("invalid file magic"),
    };
    GGUFContainer::new(order, Box::new(Cursor::new(rest)), 3).decode()
}
