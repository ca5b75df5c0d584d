//! One input through both readers, and every result compared.

use crate::domain::{measure, number_in, twin, Domain, Nested, Step, Walk, OTHER_BLOCKS};
use crate::inputs::WIDTHS;
use crate::original::*;
use crate::questions::{in_words, Asked};
use crate::tree::Tree;
use serde_json::Value;
use std::collections::{BTreeMap, BTreeSet};
use std::io::Cursor;
use strutpebble::{EntryRow, Header, Options, Place, Refusal, Summary, TensorRow};

const ROWS: usize = 160;
const UNTOUCHED_ENTRY: EntryRow = [7; 7];
const UNTOUCHED_TENSOR: TensorRow = [9; 10];

/// What this project's reader said: into tables that were lent, without tables, and by the crate's
/// own `read`.
struct Ours<'a> {
    answer: Result<Summary, Refusal>,
    entries: Vec<EntryRow>,
    tensors: Vec<TensorRow>,
    measured: Result<Summary, Refusal>,
    header: Result<Header<'a>, Refusal>,
}

impl Ours<'_> {
    fn left_the_tables(&self) -> bool {
        self.entries.iter().all(|row| *row == UNTOUCHED_ENTRY)
            && self.tensors.iter().all(|row| *row == UNTOUCHED_TENSOR)
    }

    /// The header's end, or the refusal's number and place, which is a byte of the input or the
    /// byte after its last.
    fn said(&self, bytes: &[u8]) -> Step<u64> {
        let end = self.answer.map(|summary| summary.header_end);
        end.map_err(|refusal| match refusal.place() {
            Place::Prefix(byte) if byte <= bytes.len() as u64 => (refusal.number(), byte),
            other => panic!("refused at {other}: {bytes:?}"),
        })
    }

    /// Panics where the three ways to read an input say other things of it, or where the crate has
    /// other values of a header than the walk.
    fn agree(&self, walk: &Walk, bytes: &[u8]) {
        let own = self.header.as_ref().map(|header| header.summary());
        assert_eq!(own, self.answer.as_ref().copied(), "the crate's own rows: {bytes:?}");
        assert_eq!(self.measured, self.answer, "without rows: {bytes:?}");
        if let Ok(header) = &self.header {
            let values = header.entries().map(|entry| (entry.key(), Tree::of(entry.value())));
            assert_eq!(values.collect::<Vec<_>>(), walk.entries, "the crate's: {bytes:?}");
        }
    }
}

fn ours(bytes: &[u8], cap: u64) -> Ours<'_> {
    let options = Options::new().cap(cap);
    let mut entries = vec![UNTOUCHED_ENTRY; ROWS];
    let mut tensors = vec![UNTOUCHED_TENSOR; ROWS];
    let answer = options.read_rows(bytes, &mut entries, &mut tensors);
    let (measured, header) = (options.measure(bytes), options.read(bytes));
    Ours { answer, entries, tensors, measured, header }
}

/// The refusal's number that an error of the original stands for.
pub fn class(message: &str) -> u64 {
    const CLASSES: [(&str, u64); 16] = [
        ("failed to fill whole buffer", 1),
        ("unsupport ggml format", 2),
        ("unsupport ggmf format", 2),
        ("unsupport ggjt format", 2),
        ("unsupport ggla format", 2),
        ("invalid file magic", 3),
        ("invalid version", 4),
        ("string length", 7),
        ("unsupport metadata value type", 8),
        ("Unsupport item value type", 9),
        ("exceeds maximum of 4", 10),
        ("invalid GGML type", 11),
        ("parameter count overflows u64: shape", 13),
        ("byte size overflows", 14),
        ("total parameter count", 15),
        ("data offset overflow", 18),
    ];
    CLASSES.iter().find(|(text, _)| message.contains(text)).expect("an error that has no class").1
}

/// What the original says: its model and whether that is big-endian, or the class of its error.
type Theirs = Result<(GGUFModel, bool), u64>;

/// What the original says of the bytes as a file. Its own opening of a file reads the magic in the
/// same way.
fn theirs(bytes: &[u8], cap: u64) -> Theirs {
    let magic = bytes.get(..4).ok_or(1u64)?;
    let (order, big) = match i32::from_le_bytes(magic.try_into().unwrap()) {
        FILE_MAGIC_GGML | FILE_MAGIC_GGMF | FILE_MAGIC_GGJT | FILE_MAGIC_GGLA => return Err(2),
        FILE_MAGIC_GGUF_LE => (ByteOrder::LE, false),
        FILE_MAGIC_GGUF_BE => (ByteOrder::BE, true),
        _ => return Err(3),
    };
    let mut container = GGUFContainer::new(order, Box::new(Cursor::new(bytes[4..].to_vec())), cap);
    container.decode().map(|model| (model, big)).map_err(|error| class(&error.to_string()))
}

/// The bytes where a row says that a text is.
fn part(bytes: &[u8], place: u64, len: u64) -> &[u8] {
    &bytes[place as usize..(place + len) as usize]
}

/// The text where a row says that it is.
fn text(bytes: &[u8], place: u64, len: u64) -> String {
    String::from_utf8_lossy(part(bytes, place, len)).to_string()
}

/// A scalar of a type from its bits, as the original shows it.
fn scalar(kind: u64, bits: u64) -> Value {
    match kind {
        0 | 2 | 4 | 10 => Value::from(bits),
        1 => Value::from(bits as i8),
        3 => Value::from(bits as i16),
        5 => Value::from(bits as i32),
        6 => Value::from(f32::from_bits(bits as u32)),
        7 => Value::from(bits != 0),
        11 => Value::from(bits as i64),
        _ => Value::from(f64::from_bits(bits)),
    }
}

/// The kept items of an array, read where its row says that they are.
fn items(row: &EntryRow, bytes: &[u8], big: bool, version: u32) -> Value {
    let number = |place: usize, width: usize| number_in(&bytes[place..place + width], big);
    let size = if version == 1 { 4 } else { 8 };
    let (kind, kept) = (row[3], row[5]);
    let mut place = row[6] as usize;
    let mut out = vec![];
    for _ in 0..kept {
        if kind == 8 {
            let len = number(place, size);
            out.push(Value::from(text(bytes, (place + size) as u64, len)));
            place += size + len as usize;
        } else {
            let width = WIDTHS[kind as usize];
            out.push(scalar(kind, number(place, width)));
            place += width;
        }
    }
    Value::from(out)
}

/// An entry row's value. A signed scalar stands in its word in 64 bits.
fn value(row: &EntryRow, bytes: &[u8], big: bool, version: u32) -> Value {
    match row[2] {
        8 => Value::from(text(bytes, row[3], row[4])),
        9 => items(row, bytes, big, version),
        1 | 3 | 5 => Value::from(row[3] as i64),
        kind => scalar(kind, row[3]),
    }
}

/// How many inputs agreed, by refusal (0: accepted), and how many are outside the domain.
#[derive(Default)]
pub struct Agreed {
    by_number: BTreeMap<u64, u64>,
    panics: u64,
    outside: BTreeMap<&'static str, u64>,
    /// The kinds of another block that both accepted.
    other_blocks: BTreeSet<u32>,
    /// The alignments of headers that are refused for a misaligned offset.
    alignments: BTreeSet<u64>,
    /// By refusal: how many have a misaligned offset, and are refused for this other reason.
    also_misaligned: BTreeMap<u64, u64>,
    /// By refusal (0: accepted): how many keep the magic.
    magic_kept: BTreeMap<u64, u64>,
    /// The twins of those, each compared as any input is.
    twins: Option<Box<Agreed>>,
    /// By refusal (0: accepted): how many have arrays in arrays, all of which are passed.
    nested: BTreeMap<u64, u64>,
    /// The flat twins of those, each compared as any input is.
    flats: Option<Box<Agreed>>,
    /// By refusal: how many have arrays in arrays, and are refused inside one of these.
    refused_inside: BTreeMap<u64, u64>,
    /// By how many arrays stand in one another: how many are accepted.
    depths: BTreeMap<u32, u64>,
    /// How many of these have more entries than the reader keeps while it tests.
    long: u64,
    /// What the questions answered of the same inputs.
    pub asked: Asked,
}

impl Agreed {
    /// Gives one input to both. Panics where they differ inside the domain, and where this project
    /// does not do what it must outside.
    pub fn on(&mut self, bytes: &[u8], cap: u64) {
        let ours = ours(bytes, cap);
        let walk = Walk::over(bytes, ROWS as u64);
        let said = ours.said(bytes);
        assert_eq!(said, walk.answer, "the walk: {bytes:?}");
        let number = said.err().map_or(0, |(number, _)| number);
        assert!(number == 0 || ours.left_the_tables(), "rows: {bytes:?}");
        match walk.domain {
            Domain::MagicKept => return self.on_magic_kept(&ours, number, bytes, cap),
            Domain::MoreRecords => {
                // The crate has rows for every count, and never gives this refusal.
                assert_ne!(ours.header.err().map(|refusal| refusal.number()), Some(6), "{bytes:?}");
                return self.one_outside("more records than rows: here refusal 6");
            }
            _ => ours.agree(&walk, bytes),
        }
        // Nothing where the original panics.
        let theirs = std::panic::catch_unwind(|| theirs(bytes, cap)).ok();
        match walk.domain {
            Domain::NestedArray => return self.on_nested(&ours, theirs, &walk, bytes, cap),
            Domain::PartialBlock(place) => self.on_partial_block(&ours, theirs, place, bytes),
            Domain::OtherBlock(kind) => self.on_other_block(&ours, theirs, kind, bytes),
            Domain::Misaligned { place, other } => {
                return self.on_misaligned(&ours, theirs, place, other, bytes);
            }
            _ => self.on_same(&ours, theirs, bytes),
        }
        if walk.misaligned.is_some() {
            assert_ne!(number, 0, "accepted, and an offset is misaligned: {bytes:?}");
            *self.also_misaligned.entry(number).or_default() += 1;
        }
    }

    /// The magic is kept: the original refuses the version. Here all is as in the twin but the byte
    /// order, and the twin is compared with the original as any input is.
    fn on_magic_kept(&mut self, kept: &Ours, number: u64, bytes: &[u8], cap: u64) {
        assert_eq!(theirs(bytes, cap).err(), Some(4), "the original: {bytes:?}");
        let twin = twin(bytes);
        same_as_twin(kept, &ours(&twin, cap), bytes);
        Asked::same_as_twin(bytes, &twin);
        self.twins.get_or_insert_default().on(&twin, cap);
        *self.magic_kept.entry(number).or_default() += 1;
    }

    /// An array has arrays as items, for which the original refuses it. Here the walk has named the
    /// answer. Where all such arrays are passed, everything but their rows is as in the flat twin,
    /// which is compared with the original as any input is.
    fn on_nested(
        &mut self,
        nested: &Ours,
        theirs: Option<Theirs>,
        walk: &Walk,
        bytes: &[u8],
        cap: u64,
    ) {
        assert_eq!(theirs.and_then(Result::err), Some(9), "the original: {bytes:?}");
        let number = nested.answer.err().map_or(0, |refusal| refusal.number());
        let Some(flat) = walk.flat(bytes) else {
            let refusal = nested.answer.expect_err("accepted, and an array is refused");
            self.asked.on_nested_refusal(bytes, refusal);
            *self.refused_inside.entry(number).or_default() += 1;
            return;
        };
        same_as_flat(nested, &ours(&flat, cap), walk, cap, bytes);
        self.asked.on_nested(bytes, &flat);
        self.flats.get_or_insert_default().on(&flat, cap);
        *self.nested.entry(number).or_default() += 1;
        if number == 0 {
            let depths = walk.entries.iter().map(|(_, value)| value.depth());
            *self.depths.entry(depths.max().unwrap_or(0)).or_default() += 1;
            self.long += u64::from(walk.entries.len() > 64);
        }
    }

    /// Inside the domain.
    fn on_same(&mut self, ours: &Ours, theirs: Option<Theirs>, bytes: &[u8]) {
        let number = ours.answer.err().map_or(0, |refusal| refusal.number());
        match theirs {
            None => {
                assert_eq!(number, 11, "the original panics, and this is not kind 40: {bytes:?}");
                self.panics += 1;
                return;
            }
            Some(Err(class)) => self.on_refusal(ours, class, bytes),
            Some(Ok((model, big))) => {
                same_header(ours, &model, big, bytes);
                self.asked.on(bytes, &model);
            }
        }
        *self.by_number.entry(number).or_default() += 1;
    }

    /// The original refuses, for a reason of this class: so must this project.
    fn on_refusal(&mut self, ours: &Ours, class: u64, bytes: &[u8]) {
        let refusal = ours.answer.expect_err("accepted, and the original refuses");
        assert_eq!(refusal.number(), class, "refused at {}: {bytes:?}", refusal.place());
        // The version has one place in all files, also behind a magic that is kept.
        assert!(class != 4 || refusal.place() == Place::Prefix(4), "{bytes:?}");
        self.asked.on_refusal(bytes, refusal);
    }

    /// A tensor is not whole blocks: this project refuses its record, and so does a question. The
    /// original, too, came to the end of that record, or refused 14 for a larger block before it.
    fn on_partial_block(&mut self, ours: &Ours, theirs: Option<Theirs>, place: u64, bytes: &[u8]) {
        let refusal = ours.answer.expect_err("accepted, and a tensor is not whole blocks");
        let said = (refusal.number(), refusal.place());
        assert_eq!(said, (17, Place::Prefix(place)), "{bytes:?}");
        self.asked.on_own_refusal(bytes, refusal);
        self.one_outside(match theirs {
            None => "partial blocks: here refusal 17, the original panics at a later kind 40",
            Some(Ok(_)) => "partial blocks: here refusal 17, the original accepts",
            Some(Err(1 | 7 | 10 | 11 | 13..=15)) => {
                "partial blocks: here refusal 17, the original refuses for another reason"
            }
            Some(Err(class)) => panic!("the original refuses {class} before it: {bytes:?}"),
        });
    }

    /// All tensors are whole blocks, and a kind has another block here. Only sizes of such kinds
    /// may differ, and what follows from that: the original's blocks of two of the kinds have more
    /// bytes, so that it may refuse 14 alone.
    fn on_other_block(&mut self, ours: &Ours, theirs: Option<Theirs>, kind: u32, bytes: &[u8]) {
        let number = ours.answer.err().map_or(0, |refusal| refusal.number());
        let rows = ours.answer.map_or(0, |summary| summary.tensors);
        for row in &ours.tensors[..rows] {
            let wanted = measure(row[2] as u32, &row[4..8]).map(|(_, size)| size);
            assert_eq!(Some(row[9]), wanted, "a size by the table: {bytes:?}");
        }
        let what = match theirs {
            Some(Ok((model, big))) => {
                same_header(ours, &model, big, bytes);
                self.asked.on(bytes, &model);
                self.other_blocks.insert(kind);
                "another block: accepted, only sizes differ, and those are the table's"
            }
            Some(Err(class)) if class == number => "another block: refused, same class",
            Some(Err(14)) if number != 17 => "another block: the original alone refuses 14",
            None if number == 11 => "another block: kind 40 later, where the original panics",
            _ => panic!("{number} here, and the original says another thing: {bytes:?}"),
        };
        self.one_outside(what);
    }

    /// An offset is misaligned, and no other test refuses the input: this project refuses that
    /// offset, and so does a question. The original accepts, and by its own model, too, this offset
    /// is the first that is no multiple of the alignment; or it refuses 14 for a larger block.
    fn on_misaligned(
        &mut self,
        ours: &Ours,
        theirs: Option<Theirs>,
        place: u64,
        other: Option<u32>,
        bytes: &[u8],
    ) {
        let refusal = ours.answer.expect_err("accepted, and an offset is misaligned");
        let said = (refusal.number(), refusal.place());
        assert_eq!(said, (16, Place::Prefix(place)), "{bytes:?}");
        self.asked.on_own_refusal(bytes, refusal);
        let what = match theirs {
            Some(Ok((model, big))) => {
                let alignment = model.alignment();
                let offsets = model.tensors().iter().map(|tensor| tensor.offset);
                let first = offsets.enumerate().find(|(_, offset)| offset % alignment != 0);
                let (index, offset) = first.expect("a misaligned offset in the original's model");
                assert_eq!(offset, number_in(part(bytes, place, 8), big), "{bytes:?}");
                self.alignments.insert(alignment);
                if index == 0 {
                    "misaligned, the first tensor: here refusal 16, the original accepts"
                } else {
                    "misaligned, a later tensor: here refusal 16, the original accepts"
                }
            }
            Some(Err(14)) if other.is_some() => {
                "misaligned, and another block: here refusal 16, the original refuses 14"
            }
            _ => panic!("16 here, and the original neither accepts nor refuses 14: {bytes:?}"),
        };
        self.one_outside(what);
    }

    fn one_outside(&mut self, what: &'static str) {
        *self.outside.entry(what).or_default() += 1;
    }

    pub fn print(&self) {
        let all: u64 = self.by_number.values().sum();
        for (number, count) in &self.by_number {
            println!("{count:>9}  {}", said(*number));
        }
        println!(
            "{:>9}  kind 40, where the original panics and this reader refuses 11",
            self.panics
        );
        println!("{:>9}  compared, no difference", all + self.panics);
        for (what, count) in &self.outside {
            println!("{count:>9}  outside the domain, {what}");
        }
        self.print_nested();
        self.print_magic_kept();
        println!("{:>9}  of the 9 kinds of another block came up", self.other_blocks.len());
        println!("{:>9}  alignments came up with a misaligned offset", self.alignments.len());
        for (number, count) in &self.also_misaligned {
            println!("{count:>9}  of those refused {number} have a misaligned offset too");
        }
        if let Some(flats) = &self.flats {
            println!("The readers, on the flat twins of those with arrays in arrays");
            flats.print();
        }
        if let Some(twins) = &self.twins {
            println!("The readers, on the twins of those, with the magic turned round too");
            twins.print();
        }
    }

    /// Those that have arrays in arrays.
    fn print_nested(&self) {
        for (number, count) in &self.refused_inside {
            let what = format!("arrays in arrays: here refused {number} inside one");
            println!("{count:>9}  outside the domain, {what}, the original refuses 9");
        }
        for (number, count) in &self.nested {
            let what = format!("arrays in arrays that are passed: here {}", said(*number));
            println!("{count:>9}  outside the domain, {what}, the original refuses 9");
        }
        for (depth, count) in &self.depths {
            println!("{count:>9}  of those accepted have {depth} arrays in one another");
        }
        if self.long > 0 {
            println!("{:>9}  of those accepted have more than 64 entries", self.long);
        }
        let all: u64 = self.nested.values().sum();
        if all > 0 {
            println!("{all:>9}  with these passed, and all but their rows is the flat twin's");
        }
    }

    /// Those that keep the magic, where there are any.
    fn print_magic_kept(&self) {
        for (number, count) in &self.magic_kept {
            let what = format!("magic kept: here {}, the original refuses 4", said(*number));
            println!("{count:>9}  outside the domain, {what}");
        }
        let all: u64 = self.magic_kept.values().sum();
        if all > 0 {
            println!("{all:>9}  with the magic kept, and all but the byte order is the twin's");
        }
    }
}

/// What a refusal's number says, where 0 is none.
fn said(number: u64) -> String {
    if number == 0 {
        "accepted".into()
    } else {
        format!("refused {number}")
    }
}

/// Panics where this project says another thing of an input that keeps the magic than of its twin.
/// Only the byte order is another, and that tells the two apart.
fn same_as_twin(kept: &Ours, twin: &Ours, bytes: &[u8]) {
    assert_eq!(kept.answer, twin.answer.map(in_kept_order), "{bytes:?}");
    assert_eq!(kept.measured, twin.measured.map(in_kept_order), "without rows: {bytes:?}");
    assert!(kept.entries == twin.entries && kept.tensors == twin.tensors, "rows: {bytes:?}");
    match (&kept.header, &twin.header) {
        (Ok(own), Ok(other)) => {
            assert_eq!(own.summary(), in_kept_order(other.summary()), "{bytes:?}");
            let is_same = own.entries().map(in_words).eq(other.entries().map(in_words));
            assert!(is_same && own.tensors().eq(other.tensors()), "the crate's: {bytes:?}");
        }
        (own, other) => assert_eq!(own.as_ref().err(), other.as_ref().err(), "{bytes:?}"),
    }
}

/// Panics where this project says another thing of an input that has arrays in arrays than of its
/// flat twin. Only the rows of these arrays are others: their item type, their count and how many
/// items are kept.
fn same_as_flat(nested: &Ours, flat: &Ours, walk: &Walk, cap: u64, bytes: &[u8]) {
    assert_eq!(nested.answer, flat.answer, "{bytes:?}");
    assert_eq!(nested.measured, flat.measured, "without rows: {bytes:?}");
    assert!(nested.tensors == flat.tensors, "rows: {bytes:?}");
    for (row, flat) in nested.entries.iter().zip(&flat.entries) {
        assert_eq!(*row, nested_row(flat, walk, cap, bytes), "{bytes:?}");
    }
    match (&nested.header, &flat.header) {
        (Ok(own), Ok(other)) => {
            let Summary { entries, tensors, .. } = own.summary();
            assert_eq!(own.summary(), other.summary(), "{bytes:?}");
            assert!(own.tensors().eq(other.tensors()), "the crate's: {bytes:?}");
            same_rows(own, &nested.entries[..entries], &nested.tensors[..tensors], bytes);
        }
        (own, other) => assert_eq!(own.as_ref().err(), other.as_ref().err(), "{bytes:?}"),
    }
}

/// The row of an entry, by its row in the flat twin: one of an array that has arrays as items has
/// this item type and the array's own count, of which the cap counts no items of items.
fn nested_row(flat: &EntryRow, walk: &Walk, cap: u64, bytes: &[u8]) -> EntryRow {
    let mut row = *flat;
    let is_it = |array: &&Nested| flat[2] == 9 && flat[6] == array.first;
    if let Some(array) = walk.nested.iter().find(is_it) {
        let is_capped = part(bytes, flat[0], flat[1]).starts_with(b"tokenizer.");
        let kept = if is_capped { array.count.min(cap) } else { array.count };
        row[3..6].copy_from_slice(&[9, array.count, kept]);
    }
    row
}

/// What a twin says of itself, in the byte order of the input that keeps the magic.
fn in_kept_order(mut summary: Summary) -> Summary {
    assert_eq!(summary.byte_order, strutpebble::ByteOrder::BigMagic);
    summary.byte_order = strutpebble::ByteOrder::Big;
    summary
}

/// Panics where the original's model is not what this project's reader said.
fn same_header(ours: &Ours, model: &GGUFModel, big: bool, bytes: &[u8]) {
    let summary = ours.answer.unwrap_or_else(|refusal| panic!("{refusal}: {bytes:?}"));
    let Summary { version, entries, tensors, alignment, header_end, data_start, .. } = summary;
    assert_eq!(format!("v{version}"), model.get_version());
    // A magic that is kept is outside the domain: inside, only one that is turned round is of a
    // big-endian file.
    let (little, turned) = (strutpebble::ByteOrder::Little, strutpebble::ByteOrder::BigMagic);
    assert_eq!(summary.byte_order, if big { turned } else { little }, "{bytes:?}");
    assert_eq!((entries as u64, tensors as u64), (model.num_kv(), model.num_tensor()));
    assert_eq!((alignment, data_start), (model.alignment(), model.data_offset()), "{bytes:?}");
    assert!(header_end <= bytes.len() as u64 && header_end <= data_start, "{bytes:?}");
    let (rows, rest) = ours.entries.split_at(entries);
    assert!(rest.iter().all(|row| *row == UNTOUCHED_ENTRY));
    let surviving: BTreeMap<String, Value> = rows
        .iter()
        .map(|row| (text(bytes, row[0], row[1]), value(row, bytes, big, version)))
        .collect();
    assert_eq!(&surviving, model.metadata(), "{bytes:?}");
    let (rows, rest) = ours.tensors.split_at(tensors);
    assert!(rest.iter().all(|row| *row == UNTOUCHED_TENSOR));
    for (row, tensor) in rows.iter().zip(model.tensors()) {
        same_tensor(row, tensor, bytes);
    }
    let header = ours.header.as_ref().expect("the crate refuses a header that its reader accepts");
    same_rows(header, &ours.entries[..entries], &ours.tensors[..tensors], bytes);
}

/// Panics where a row is not the original's tensor. Outside the domain the size of a kind that has
/// another block here is held against the table instead.
fn same_tensor(row: &TensorRow, tensor: &Tensor, bytes: &[u8]) {
    let mut lengths = [1; 4];
    lengths[..tensor.shape.len()].copy_from_slice(&tensor.shape);
    assert_eq!(text(bytes, row[0], row[1]), tensor.name);
    assert_eq!((row[2], row[3]), (tensor.kind.into(), tensor.n_dimensions.into()), "{bytes:?}");
    assert_eq!((&row[4..8], row[8]), (&lengths[..], tensor.offset), "{bytes:?}");
    assert!(row[9] == tensor.size || OTHER_BLOCKS.contains(&tensor.kind), "{bytes:?}");
}

/// Panics where a header of the crate has other records than the rows that its reader filled. The
/// values that are no arrays are held against the walk.
fn same_rows(header: &Header, entries: &[EntryRow], tensors: &[TensorRow], bytes: &[u8]) {
    let keys = entries.iter().map(|row| (part(bytes, row[0], row[1]), row[2]));
    let own = header.entries().map(|entry| (entry.key(), entry.value().value_type() as u64));
    assert!(own.eq(keys), "the crate's entries: {bytes:?}");
    let arrays = entries.iter().filter(|row| row[2] == 9).map(|row| (row[3], row[4], row[5]));
    let own = header.entries().filter_map(|entry| entry.value().as_array());
    let own = own.map(|array| (array.item_type() as u64, array.len(), array.kept()));
    assert!(own.eq(arrays), "the crate's arrays: {bytes:?}");
    let rows =
        tensors.iter().map(|row| (part(bytes, row[0], row[1]), row[2] as u32, row[8], row[9]));
    let own = header.tensors().map(|t| (t.name(), t.kind().number(), t.offset(), t.size()));
    assert!(own.eq(rows), "the crate's tensors: {bytes:?}");
}
