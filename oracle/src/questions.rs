//! The two questions that both answer of a header, its model's family and its file's type, asked of
//! every header that both readers accept.
//!
//! The original's `model_family` gives the text of `general.architecture`, and the word "unknown"
//! where there is none or it is no text. This project's gives the text's place, or says which of
//! the two it is: absent, or another type. The original's `file_type` gives a name, "unknown" for a
//! number above 24 or none, and panics where the value is no integer or below 0. This project's
//! gives the number, or unknown in all those cases.

use crate::original::GGUFModel;
use crate::tree::Tree;
use serde_json::Value;
use std::collections::BTreeMap;
use std::panic::{catch_unwind, AssertUnwindSafe};
use strutpebble::{file_type, find, find_string, model_family, read, Entry, Refusal, StringError};

/// The names that the original gives to the types of files.
const NAMES: [&str; 25] = [
    "All F32",
    "Mostly F16",
    "Mostly Q4_0",
    "Mostly Q4_1",
    "Mostly Q4_1 Some F16",
    "Mostly Q4_2 (UNSUPPORTED)",
    "Mostly Q4_3 (UNSUPPORTED)",
    "Mostly Q8_0",
    "Mostly Q5_0",
    "Mostly Q5_1",
    "Mostly Q2_K",
    "Mostly Q3_K",
    "Mostly Q4_K",
    "Mostly Q5_K",
    "Mostly Q6_K",
    "Mostly IQ2_XXS",
    "Mostly IQ2_XS",
    "Mostly IQ3_XXS",
    "Mostly IQ1_S",
    "Mostly IQ4_NL",
    "Mostly IQ3_S",
    "Mostly IQ2_S",
    "Mostly IQ4_XS",
    "Mostly IQ1_M",
    "Mostly BF16",
];

/// The form of a value that the original makes no file type of.
fn form(value: &Value) -> &'static str {
    match value {
        Value::String(_) => "a string",
        Value::Array(_) => "an array",
        Value::Bool(_) => "a bool",
        Value::Number(number) if number.is_i64() => "an integer below 0",
        _ => "a float",
    }
}

/// How many answers agreed, in words, and how many differ by intent.
#[derive(Default)]
pub struct Asked {
    same: BTreeMap<String, u64>,
    by_intent: BTreeMap<String, u64>,
    types: BTreeMap<u64, u64>,
    headers: u64,
    refused: u64,
    refused_here: u64,
    /// How many have arrays in arrays, accepted and refused.
    nested: u64,
    nested_refused: u64,
}

/// Keys to look up: those that mean something, and others that the inputs have.
const KEYS: [&str; 6] =
    ["general.alignment", "general.architecture", "general.file_type", "tokenizer.x", "a", ""];

/// An entry in words, with all items of its arrays, and the bits of floats: so one that is not a
/// number equals itself.
pub fn in_words(entry: Entry<'_>) -> String {
    format!("{entry:?} {:?}", Tree::of(entry.value()))
}

fn one_more(counts: &mut BTreeMap<String, u64>, what: String) {
    *counts.entry(what).or_default() += 1;
}

impl Asked {
    /// Asks both of one header that both readers accept. Panics where the answers differ otherwise
    /// than by intent.
    pub fn on(&mut self, bytes: &[u8], model: &GGUFModel) {
        self.headers += 1;
        self.family(bytes, model);
        self.file_type(bytes, model);
        Asked::of_rows(bytes);
    }

    /// The original has no model to ask where it refuses the header: here both questions give the
    /// reader's refusal.
    pub fn on_refusal(&mut self, bytes: &[u8], refusal: Refusal) {
        Asked::refuse(bytes, refusal);
        self.refused += 1;
    }

    /// A refusal that the original does not have, whatever it says instead. The lookups that it
    /// does not have either give it too.
    pub fn on_own_refusal(&mut self, bytes: &[u8], refusal: Refusal) {
        Asked::refuse_all(bytes, refusal);
        self.refused_here += 1;
    }

    /// A refusal in or after arrays in arrays, the first of which the original refuses.
    pub fn on_nested_refusal(&mut self, bytes: &[u8], refusal: Refusal) {
        Asked::refuse_all(bytes, refusal);
        self.nested_refused += 1;
    }

    /// Panics where a question says another thing of an input that has arrays in arrays, all of
    /// which are passed, than of its flat twin. A lookup gives the entry that the reader gives.
    pub fn on_nested(&mut self, bytes: &[u8], flat: &[u8]) {
        let header = match read(bytes) {
            Ok(header) => header,
            Err(refusal) => return self.on_nested_refusal(bytes, refusal),
        };
        assert_eq!(model_family(bytes), model_family(flat), "{bytes:?}");
        assert_eq!(file_type(bytes), file_type(flat), "{bytes:?}");
        for key in KEYS {
            assert_eq!(find_string(bytes, key), find_string(flat, key), "{key}: {bytes:?}");
            let found = find(bytes, key).map(|entry| entry.map(in_words));
            let wanted = header.entries().rfind(|entry| entry.key() == key.as_bytes());
            assert_eq!(found, Ok(wanted.map(in_words)), "{key}: {bytes:?}");
        }
        Asked::of_rows(bytes);
        self.nested += 1;
    }

    /// Panics where one of the two questions, or a lookup, does not give the reader's refusal.
    fn refuse_all(bytes: &[u8], refusal: Refusal) {
        Asked::refuse(bytes, refusal);
        assert_eq!(find(bytes, "").err(), Some(refusal), "{bytes:?}");
        assert_eq!(find_string(bytes, ""), Err(StringError::Refused(refusal)), "{bytes:?}");
    }

    /// Panics where one of the two questions does not give the reader's refusal.
    fn refuse(bytes: &[u8], refusal: Refusal) {
        assert_eq!(model_family(bytes), Err(StringError::Refused(refusal)), "{bytes:?}");
        assert_eq!(file_type(bytes), Err(refusal), "{bytes:?}");
    }

    /// Panics where a question or a lookup says another thing of an input that keeps the magic than
    /// of its twin. The original has a model of the twin alone.
    pub fn same_as_twin(bytes: &[u8], twin: &[u8]) {
        assert_eq!(model_family(bytes), model_family(twin), "{bytes:?}");
        assert_eq!(file_type(bytes), file_type(twin), "{bytes:?}");
        if read(bytes).is_err() {
            // The refusal is the same for all keys.
            return Asked::same_lookups(bytes, twin, "");
        }
        KEYS.iter().for_each(|key| Asked::same_lookups(bytes, twin, key));
        Asked::of_rows(bytes);
    }

    /// Panics where a lookup of a key says another thing of an input than of its twin.
    fn same_lookups(bytes: &[u8], twin: &[u8], key: &str) {
        assert_eq!(find_string(bytes, key), find_string(twin, key), "{key}: {bytes:?}");
        let found = |prefix| find(prefix, key).map(|entry| entry.map(in_words));
        assert_eq!(found(bytes), found(twin), "{key}: {bytes:?}");
    }

    fn family(&mut self, bytes: &[u8], model: &GGUFModel) {
        let ours = model_family(bytes);
        let theirs = model.model_family();
        match (ours, model.metadata().get("general.architecture")) {
            (Ok(text), Some(Value::String(_))) => {
                assert_eq!(String::from_utf8_lossy(text), theirs, "the family: {bytes:?}");
                if std::str::from_utf8(text).is_ok() {
                    one_more(&mut self.same, "family: the same text".into());
                } else {
                    let what = "family: not UTF-8, here the bytes, the original puts marks in";
                    one_more(&mut self.by_intent, format!("{what}; else the same"));
                }
            }
            (Err(StringError::Absent), None) => {
                assert_eq!(theirs, "unknown", "the family: {bytes:?}");
                let what = "family: here absent, the original says \"unknown\"";
                one_more(&mut self.by_intent, what.into());
            }
            (Err(StringError::OtherType), Some(value)) if !value.is_string() => {
                assert_eq!(theirs, "unknown", "the family: {bytes:?}");
                let what = "family: here another type, the original says \"unknown\"";
                one_more(&mut self.by_intent, what.into());
            }
            (ours, kept) => panic!("{ours:?} here, and the original keeps {kept:?}: {bytes:?}"),
        }
    }

    fn file_type(&mut self, bytes: &[u8], model: &GGUFModel) {
        let ours = file_type(bytes).expect("an accepted header");
        let kept = model.metadata().get("general.file_type");
        match (ours, catch_unwind(AssertUnwindSafe(|| model.file_type()))) {
            (Some(number), Ok(name)) => {
                let wanted = NAMES.get(number as usize);
                assert_eq!(wanted, Some(&name.as_str()), "the file's type: {bytes:?}");
                *self.types.entry(number).or_default() += 1;
                one_more(&mut self.same, "file type: the number of the same name".into());
            }
            (None, Ok(name)) => {
                assert_eq!(name, "unknown", "the file's type: {bytes:?}");
                let why = if kept.is_none() { "there is none" } else { "a number above 24" };
                one_more(&mut self.same, format!("file type: both say unknown, {why}"));
            }
            (None, Err(_)) => {
                let value = kept.expect("a panic of the original where there is no file type");
                assert!(value.as_u64().is_none(), "a panic of the original: {bytes:?}");
                let what = format!("file type: {}, here unknown, the original panics", form(value));
                one_more(&mut self.by_intent, what);
            }
            (ours, Err(_)) => panic!("the original panics, here is {ours:?}: {bytes:?}"),
        }
    }

    /// A header that was read answers from its rows what the questions answer from the bytes.
    fn of_rows(bytes: &[u8]) {
        let header = read(bytes).expect("an accepted header");
        assert_eq!(header.model_family(), model_family(bytes).ok(), "from rows: {bytes:?}");
        assert_eq!(Ok(header.file_type()), file_type(bytes), "from rows: {bytes:?}");
    }

    pub fn print(&self) {
        for (what, count) in self.same.iter().chain(&self.by_intent) {
            println!("{count:>9}  {what}");
        }
        println!("{:>9}  of the 25 numbers of file types came up", self.types.len());
        let what = "headers refused by both, and here both questions with the reader's refusal";
        println!("{:>9}  {what}", self.refused);
        let what = "headers refused here with 16 or 17, and both questions and the lookups alike";
        println!("{:>9}  {what}", self.refused_here);
        let what = "headers with arrays in arrays refused here, and both questions and the lookups";
        println!("{:>9}  {what} alike", self.nested_refused);
        let what = "headers with arrays in arrays accepted here, both questions as of the flat";
        println!("{:>9}  {what} twin, and the lookups as the reader", self.nested);
        println!("{:>9}  headers asked for both", self.headers);
        println!("{:>9}  answers that agree", self.same.values().sum::<u64>());
        println!("{:>9}  answers that differ by intent", self.by_intent.values().sum::<u64>());
        println!("{:>9}  other differences: the first would have ended this run", 0);
    }
}
