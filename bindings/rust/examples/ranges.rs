//! Which bytes hold tensor 7?
//!
//!     cargo run --example ranges -- FILE TENSOR [BYTES]
//!
//! TENSOR is a tensor's number, counted from 0, or its name; a name that is all digits can be
//! written as `=NAME`. Only the first BYTES bytes of the file are read (65536 where BYTES is left
//! out).
//!
//! Prints the first byte and the byte after the last, counted from the file's start, and leaves
//! with 0. Leaves with 1 where the file gives no such range, and says why; where more bytes are
//! wanted, it says so. Leaves with 2 where it was called wrongly or the file can't be read.

use std::error::Error;
use std::fs::File;
use std::io::{self, Read};
use std::ops::Range;
use std::process::ExitCode;
use strutpebble::RangeError;

const USAGE: &str = "usage: ranges FILE TENSOR [BYTES]";
const FRONT: u64 = 65536;

fn main() -> ExitCode {
    let words: Vec<String> = std::env::args().skip(1).collect();
    let (path, tensor, bytes) = match words.as_slice() {
        [path, tensor] => (path, tensor, Ok(FRONT)),
        [path, tensor, bytes] => (path, tensor, bytes.parse()),
        _ => return fails(2, USAGE),
    };
    let Ok(bytes) = bytes else {
        return fails(2, "ranges: BYTES is a number");
    };
    let prefix = match front(path, bytes) {
        Ok(prefix) => prefix,
        Err(error) => return fails(2, &format!("ranges: {path}: {error}")),
    };
    match range(&prefix, bytes, tensor) {
        Ok(range) => {
            println!("{} {}", range.start, range.end);
            ExitCode::SUCCESS
        }
        Err(error) => fails(1, &format!("ranges: {path}: {error}")),
    }
}

fn fails(status: u8, message: &str) -> ExitCode {
    eprintln!("{message}");
    ExitCode::from(status)
}

/// The first bytes of a file.
fn front(path: &str, bytes: u64) -> io::Result<Vec<u8>> {
    let mut prefix = Vec::new();
    File::open(path)?.take(bytes).read_to_end(&mut prefix)?;
    Ok(prefix)
}

/// The bytes of the file that hold a tensor, from the file's front alone, which is `bytes` long if
/// the file is.
fn range(prefix: &[u8], bytes: u64, tensor: &str) -> Result<Range<u64>, Box<dyn Error>> {
    let header = strutpebble::read(prefix).map_err(|refusal| {
        if !refusal.wants_more() {
            refusal.to_string()
        } else if (prefix.len() as u64) < bytes {
            format!("{refusal} (the file has no more)")
        } else {
            format!("{refusal} (give a number of bytes above {bytes})")
        }
    })?;
    let range = match (tensor.strip_prefix('='), tensor.parse()) {
        (Some(name), _) => header.range_of_name(name),
        (None, Ok(index)) => header.range_of(index),
        (None, Err(_)) => header.range_of_name(tensor),
    };
    range.map_err(|error: RangeError| error.into())
}
