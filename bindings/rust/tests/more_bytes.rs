//! What more bytes of the same file may change: only that its header is cut off. Any other answer
//! over a part of a file is that of the whole, on headers with data after them and on damaged
//! copies.

mod made;

use std::fmt::Debug;

use made::{a_and_b, a_and_b_at, made, DIALECTS};
use strutpebble::ByteOrder::{self, Big, Little};
use strutpebble::{file_type, find, find_string, measure, model_family};
use strutpebble::{EntryRow, Options, Refusal, Summary, TensorRow};

type Read = (Result<Summary, Refusal>, Vec<EntryRow>, Vec<TensorRow>);

/// The answer, and all rows of both tables after the call.
fn rows(prefix: &[u8]) -> Read {
    let (mut entries, mut tensors) = (vec![[9; 7]; 6], vec![[9; 10]; 5]);
    let answer = Options::new().read_rows(prefix, &mut entries, &mut tensors);
    (answer, entries, tensors)
}

/// What is asked over a prefix without rows.
fn asked(prefix: &[u8]) -> impl PartialEq + Debug + '_ {
    let strings = ["text", "tokens", "none"].map(|key| find_string(prefix, key));
    let entries = ["text", "none"].map(|key| find(prefix, key));
    (measure(prefix), entries, strings, model_family(prefix), file_type(prefix))
}

fn cut_off<T>(answer: &Result<T, Refusal>) -> bool {
    answer.as_ref().is_err_and(Refusal::wants_more)
}

/// Holds each part of a file, from so many bytes on, against the whole.
fn compare(file: &[u8], at: usize) {
    let whole = (rows(file), asked(file));
    for end in at..file.len() {
        let part = &file[..end];
        let read = rows(part);
        if cut_off(&read.0) {
            assert_eq!((read.1, read.2), (vec![[9; 7]; 6], vec![[9; 10]; 5]));
        } else {
            assert_eq!(read, whole.0, "{file:?}, of which {end} bytes");
        }
        if !cut_off(&measure(part)) {
            assert_eq!(asked(part), whole.1, "{file:?}, of which {end} bytes");
        }
    }
}

/// A header with a family, a type, a string, arrays and two tensors, and 70 bytes after it.
fn rich(version: u32, order: ByteOrder) -> Vec<u8> {
    let mut file = made(version, order, 2, 6);
    file.key("general.architecture", 8).text("strut");
    file.key("general.file_type", 4).number(4, 7);
    file.key("text", 8).text("old").key("text", 8).text("new");
    file.array("tokens", 8, 2).text("a").text("bc");
    file.array("lists", 9, 2).inner(9, 1).inner(0, 1).number(1, 5).inner(8, 1).text("d");
    file.tensor("a", &[5], 0, 0).tensor("b", &[3, 2], 1, 32);
    [&file.bytes[..], &[0xff; 70]].concat()
}

#[test]
fn a_header_and_data_after_it() {
    for (version, order) in DIALECTS {
        compare(&rich(version, order), 0);
        compare(&[&a_and_b(version, order)[..], &[0xff; 70]].concat(), 0);
        // Refused, and only once the whole header is there.
        compare(&[&a_and_b_at(version, order, 33, 32)[..], &[0xff; 70]].concat(), 0);
    }
    let file = rich(3, Little);
    assert_eq!(model_family(&file).unwrap(), b"strut");
    assert_eq!(find_string(&file, "text").unwrap(), b"new");
    assert_eq!(file_type(&file), Ok(Some(7)));
}

#[test]
fn each_byte_changed() {
    for order in [Little, Big] {
        let file = rich(3, order);
        for place in 0..file.len() - 70 {
            for byte in [0, 13, 0xff] {
                let mut damaged = file.clone();
                damaged[place] = byte;
                compare(&damaged, place);
            }
        }
    }
}
