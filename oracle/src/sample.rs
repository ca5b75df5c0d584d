//! A sample of the original's answers, stored for the program `replay`: its inputs and what the
//! original said of each, and nothing of this project's reader.

use crate::compare::class;
use crate::domain::{Domain, Walk};
use crate::inputs::{damaged, every_kind, every_offset, header, Random};
use crate::original::*;
use serde_json::Value;
use std::collections::{BTreeMap, BTreeSet};

/// The rows of the tables that `replay` lends.
const ROWS: u64 = 64;
/// The longest input.
const LONGEST: usize = 260;

/// A stored answer: words of eight bytes and texts behind a length of four, little-endian.
#[derive(Default)]
struct Stored(Vec<u8>);

impl Stored {
    fn word(&mut self, value: u64) {
        self.0.extend_from_slice(&value.to_le_bytes());
    }

    fn words(&mut self, values: &[u64]) {
        values.iter().for_each(|value| self.word(*value));
    }

    fn text(&mut self, text: &[u8]) {
        self.0.extend_from_slice(&(text.len() as u32).to_le_bytes());
        self.0.extend_from_slice(text);
    }

    /// A value: its form, and what it is. A float comes in both widths, because the original does
    /// not say which one it read.
    fn value(&mut self, value: &Value) {
        match value {
            Value::Null => self.word(0),
            Value::Bool(yes) => self.words(&[1, u64::from(*yes)]),
            Value::Number(number) => match (number.as_u64(), number.as_i64(), number.as_f64()) {
                (Some(n), _, _) => self.words(&[2, n]),
                (_, Some(n), _) => self.words(&[3, n as u64]),
                (_, _, x) => {
                    let x = x.expect("a number that is no float");
                    self.words(&[4, x.to_bits(), (x as f32).to_bits().into()])
                }
            },
            Value::String(text) => {
                self.word(5);
                self.text(text.as_bytes());
            }
            Value::Array(items) => {
                self.word(6);
                self.word(items.len() as u64);
                items.iter().for_each(|item| self.value(item));
            }
            Value::Object(_) => unreachable!("the original makes no objects"),
        }
    }

    fn tensor(&mut self, tensor: &Tensor) {
        let mut lengths = [1; 4];
        lengths[..tensor.shape.len()].copy_from_slice(&tensor.shape);
        self.text(tensor.name.as_bytes());
        self.word(tensor.kind.into());
        self.word(tensor.n_dimensions.into());
        self.words(&lengths);
        self.word(tensor.offset);
        self.word(tensor.size);
    }

    /// All that the original says of a header. It keeps its byte order to itself: that is its
    /// magic's, and so the word is 0 or 1. A big-endian file that keeps the magic is outside the
    /// domain.
    fn model(&mut self, model: &GGUFModel, big: bool) {
        self.word(0);
        self.word(model.get_version()[1..].parse().expect("a version's number"));
        self.word(big.into());
        self.word(model.num_kv());
        self.word(model.num_tensor());
        self.word(model.alignment());
        self.word(model.data_offset());
        self.word(model.metadata().len() as u64);
        for (key, value) in model.metadata() {
            self.text(key.as_bytes());
            self.value(value);
        }
        model.tensors().iter().for_each(|tensor| self.tensor(tensor));
    }
}

/// What the original says of a file of these bytes, opened by its own function; nothing where it
/// panics.
fn answer(bytes: &[u8], path: &str) -> Option<(u64, Stored)> {
    std::fs::write(path, bytes).expect("the input's file");
    let big = bytes.get(..4) == Some(&FILE_MAGIC_GGUF_BE.to_le_bytes()[..]);
    let answer = std::panic::catch_unwind(|| {
        get_gguf_container(path).and_then(|mut container| container.decode())
    })
    .ok()?;
    let mut stored = Stored::default();
    match answer {
        Ok(model) => stored.model(&model, big),
        Err(error) => stored.word(class(&error.to_string())),
    }
    Some((u64::from_le_bytes(stored.0[..8].try_into().unwrap()), stored))
}

/// How many inputs of each answer the sample takes.
fn wanted(class: u64) -> u64 {
    match class {
        0 => 420,
        1 => 400,
        _ => 80,
    }
}

/// The sample so far.
struct Sample {
    path: String,
    cases: Stored,
    seen: BTreeSet<Vec<u8>>,
    taken: BTreeMap<u64, u64>,
    /// How many have a misaligned offset, and are refused for another reason.
    misaligned: u64,
}

impl Sample {
    /// Takes an input, unless it is outside the domain, is there already, or there are enough of
    /// its answer. Texts that are not UTF-8 are outside, and show by the mark that the original
    /// puts in their place.
    fn offer(&mut self, bytes: &[u8]) {
        let Walk { domain, misaligned, .. } = Walk::over(bytes, ROWS);
        if bytes.len() > LONGEST || domain != Domain::Inside || self.seen.contains(bytes) {
            return;
        }
        let Some((class, stored)) = answer(bytes, &self.path) else { return };
        let marked = stored.0.windows(3).any(|three| three == "\u{FFFD}".as_bytes());
        let count = self.taken.entry(class).or_default();
        if *count < wanted(class) && !marked {
            *count += 1;
            self.misaligned += u64::from(misaligned.is_some());
            self.seen.insert(bytes.to_vec());
            self.cases.text(bytes);
            self.cases.text(&stored.0);
        }
    }

    /// Every magic that stands for something, and its prefixes.
    fn offer_magics(&mut self) {
        for magic in [
            FILE_MAGIC_GGML,
            FILE_MAGIC_GGMF,
            FILE_MAGIC_GGJT,
            FILE_MAGIC_GGLA,
            FILE_MAGIC_GGUF_LE,
            FILE_MAGIC_GGUF_BE,
            0,
        ] {
            for end in 0..=4 {
                self.offer(&magic.to_le_bytes()[..end]);
                self.offer(&magic.to_be_bytes()[..end]);
            }
        }
    }

    /// Whether there are enough of every answer. The original refuses 9 outside the domain alone.
    fn enough(&self) -> bool {
        [0, 1, 4, 7, 8, 10, 11, 13, 14, 15]
            .iter()
            .all(|class| self.taken.get(class).copied().unwrap_or(0) >= wanted(*class))
    }
}

/// Writes the sample to a file: how many cases there are, and each as its input and the original's
/// answer. `scratch` is a file for the inputs.
pub fn write(file: &str, scratch: &str) {
    let mut random = Random::new(0x5EED_0F5A_3B1E_0001);
    let mut sample = Sample {
        path: scratch.into(),
        cases: Stored::default(),
        seen: BTreeSet::new(),
        taken: BTreeMap::new(),
        misaligned: 0,
    };
    sample.offer_magics();
    for made in every_kind() {
        sample.offer(&made.bytes);
    }
    let offsets = every_offset();
    while !sample.enough() {
        for _ in 0..4 {
            sample.offer(&offsets[random.below(offsets.len() as u64) as usize].bytes);
        }
        let made = header(&mut random);
        sample.offer(&made.bytes);
        for _ in 0..3 {
            sample.offer(&made.bytes[..random.below(made.bytes.len() as u64) as usize]);
        }
        let copies = damaged(&made, &mut random);
        for _ in 0..12 {
            sample.offer(&copies[random.below(copies.len() as u64) as usize]);
        }
    }
    let cases: u64 = sample.taken.values().sum();
    let mut all = cases.to_le_bytes().to_vec();
    all.extend(sample.cases.0);
    std::fs::write(file, &all).expect("the sample's file");
    println!("{cases} answers of the original, {} bytes: {:?}", all.len(), sample.taken);
    println!("{} of them have a misaligned offset and another reason", sample.misaligned);
}
