//! Holds the reader and the writer against the original's: both are given the same, and every
//! result is compared.

#[allow(dead_code, unused)]
#[path = "../original/src/lib.rs"]
mod original;

#[allow(dead_code)]
#[path = "../original/src/writer.rs"]
mod writer;

mod compare;
mod domain;
mod inputs;
mod questions;
mod sample;
mod tree;
mod writers;

// The original's writer names these by its own crate.
use original::{FILE_MAGIC_GGUF_LE, GGUF_VERSION_V1, GGUF_VERSION_V2, GGUF_VERSION_V3};

use compare::Agreed;
use inputs::{
    asked_header, damaged, every_answer, every_kind, every_length, every_nesting, every_offset,
    header, kept_fronts, long_header, many_tensors, nested_answers, smallest_nestings, Made,
    Random,
};
use questions::Asked;

fn main() {
    let arguments: Vec<String> = std::env::args().skip(1).collect();
    // The original panics at kind 40, and at a file type that is no number; each is looked at where
    // it is caught, and not worth a message.
    std::panic::set_hook(Box::new(|info| {
        if !info.location().is_some_and(|place| place.file().ends_with("original/src/lib.rs")) {
            eprintln!("{info}");
        }
    }));
    match &arguments[..] {
        [option, file, scratch] if option == "--sample" => sample::write(file, scratch),
        [headers, sheets, scratch] => {
            let headers = headers.parse().expect("how many headers");
            let Readers { made, kept } = compare_readers(headers);
            let kept = compare_questions(headers, made.asked, kept);
            compare_kept_magic(kept);
            compare_lengths();
            compare_writers(sheets.parse().expect("how many sheets"), scratch);
        }
        _ => eprintln!("oracle: HEADERS SHEETS SCRATCH, or --sample FILE SCRATCH"),
    }
}

/// The readers on inputs as they are made, and on copies of these that keep the magic. The copies
/// are counted apart, and take no random numbers: so the others stay as they are.
#[derive(Default)]
struct Readers {
    made: Agreed,
    kept: Agreed,
}

impl Readers {
    /// Gives both an input that comes from a made header, and its copy that keeps the magic, where
    /// there is one.
    fn on(&mut self, made: &Made, input: &[u8], cap: u64) {
        self.made.on(input, cap);
        if let Some(copy) = made.keeping_magic(input) {
            self.kept.on(&copy, cap);
        }
    }
}

/// Holds the readers against each other, and hands on what the questions answered of the same
/// inputs, and the copies that keep the magic.
fn compare_readers(headers: u64) -> Readers {
    let mut random = Random::new(0x9E37_79B9_7F4A_7C15);
    let mut readers = Readers::default();
    on_short_inputs(&mut readers.made);
    for made in every_kind() {
        readers.on(&made, &made.bytes, 3);
    }
    for made in every_offset().into_iter().chain(many_tensors()) {
        readers.on(&made, &made.bytes, 3);
        // Without its last byte it is refused for that (1), whatever the offsets are.
        readers.on(&made, &made.bytes[..made.bytes.len() - 1], 3);
    }
    for _ in 0..headers {
        let made = header(&mut random);
        let cap = [3, 0, 1, 100][random.below(4) as usize];
        on_copies(&mut readers, &made, cap, 1, &mut random);
    }
    for _ in 0..headers / 25 {
        let made = long_header(&mut random);
        on_copies(&mut readers, &made, 3, 7, &mut random);
    }
    on_nestings(&mut readers);
    println!("The readers");
    readers.made.print();
    readers
}

/// Arrays in arrays, also under a key whose arrays are capped, where the outermost has one item
/// more than is kept; and copies of them, which have a seed of their own.
fn on_nestings(readers: &mut Readers) {
    let mut random = Random::new(0xA44A_715A_44A7_15A4);
    for made in smallest_nestings() {
        for end in 0..=made.bytes.len() {
            readers.on(&made, &made.bytes[..end], 3);
        }
    }
    let capped = every_nesting(b"tokenizer.x", 0..3);
    for made in every_nesting(b"a", 0..2).into_iter().chain(capped) {
        readers.on(&made, &made.bytes, 1);
    }
    for made in every_nesting(b"a", 2..3) {
        on_copies(readers, &made, 1, 1, &mut random);
    }
}

/// Every input of up to two bytes, and every magic that stands for something.
fn on_short_inputs(agreed: &mut Agreed) {
    for first in 0..=255u8 {
        agreed.on(&[first], 3);
        for second in 0..=255u8 {
            agreed.on(&[first, second], 3);
        }
    }
    agreed.on(&[], 3);
    for magic in
        [0x6767_6d6cu32, 0x6767_6d66, 0x6767_6a74, 0x6767_6c61, 0x4655_4747, 0x4747_5546, 0]
    {
        agreed.on(&magic.to_le_bytes(), 3);
        agreed.on(&magic.to_be_bytes(), 3);
    }
}

/// A header, its prefixes of every `step`th length, and damaged copies of it.
fn on_copies(readers: &mut Readers, made: &Made, cap: u64, step: usize, random: &mut Random) {
    readers.on(made, &made.bytes, cap);
    for end in (0..made.bytes.len()).step_by(step) {
        readers.on(made, &made.bytes[..end], cap);
    }
    for bytes in damaged(made, random) {
        readers.on(made, &bytes, cap);
    }
}

/// Holds the questions against each other, also on headers that are made for them. Those have a
/// seed of their own. Hands on the copies that keep the magic.
fn compare_questions(headers: u64, asked: Asked, kept: Agreed) -> Agreed {
    let mut random = Random::new(0x00A5_4ED0_FA11_7E57);
    let mut readers = Readers { made: Agreed::default(), kept };
    readers.made.asked = asked;
    for made in every_answer().into_iter().chain(nested_answers()) {
        readers.on(&made, &made.bytes, 3);
    }
    for _ in 0..headers {
        let made = asked_header(&mut random);
        readers.on(&made, &made.bytes, 3);
        for bytes in damaged(&made, &mut random) {
            readers.on(&made, &bytes, 3);
        }
    }
    println!("The readers, on headers that are made for the questions");
    readers.made.print();
    println!("The questions, on all of these inputs");
    readers.made.asked.print();
    readers.kept
}

/// Holds the readers against each other where the magic is kept: on the copies so far, and on the
/// smallest of such inputs.
fn compare_kept_magic(mut kept: Agreed) {
    for front in kept_fronts() {
        kept.on(&front, 3);
    }
    println!("The readers, on big-endian headers that keep the magic");
    kept.print();
}

/// Holds the readers against each other on arrays whose counts fit or are too many. These are
/// counted apart from all others, also where the magic is kept.
fn compare_lengths() {
    let mut readers = Readers::default();
    for made in every_length() {
        readers.on(&made, &made.bytes, 3);
    }
    println!("The readers, on arrays of counts that fit and that are too many");
    readers.made.print();
    println!("The same, big-endian with the magic kept");
    readers.kept.print();
}

fn compare_writers(sheets: u64, scratch: &str) {
    let mut random = Random::new(0x0DDB_1A5E_5BAD_5EED);
    let mut agreed = writers::Agreed::default();
    for contents in writers::Contents::smallest() {
        agreed.on(&contents, scratch);
    }
    for _ in 0..sheets {
        agreed.on(&writers::Contents::new(&mut random), scratch);
    }
    println!("The writers");
    agreed.print();
}
