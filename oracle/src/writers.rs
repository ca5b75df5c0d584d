//! One sheet through both writers, and what they wrote compared up to the start of the data.

use crate::compare;
use crate::domain::{
    alignment_of, block, is_written, measure, number_in, Domain, Walk, OTHER_BLOCKS,
};
use crate::inputs::{number, whole_blocks, Random, WIDTHS};
use crate::tree::{Tree, DEEPEST};
use crate::writer::{calculate_tensor_size, GGUFWriter, MetadataValue, TensorInfo};
use std::collections::BTreeMap;
use std::mem::take;
use strutpebble::{read, write_header, Array, ByteOrder, Options, Place, Sheet, Type, Value};

/// The bytes of output that this project's writer is lent, and the most that the original is let
/// write after a header.
const ROOM: usize = 1 << 17;
const MOST_DATA: u128 = 1 << 16;

/// The types of values, by their numbers.
const TYPES: [Type; 13] = [
    Type::U8,
    Type::I8,
    Type::U16,
    Type::I16,
    Type::U32,
    Type::I32,
    Type::F32,
    Type::Bool,
    Type::String,
    Type::Array,
    Type::U64,
    Type::I64,
    Type::F64,
];

/// What this project's writer must do with a sheet, beside the original's.
enum Wanted {
    /// The same: the same bytes, or a refusal for the same reason.
    Same,
    /// This refusal, by intent.
    Refusal(u64, &'static str),
    /// An array has arrays as items, which the original refuses: as with the flat twin, by intent.
    AsFlat,
    /// A kind has another block here: the offsets after such a tensor are other ones, by intent.
    OtherOffsets,
}

const ALIGNMENT: &str = "general.alignment";

const MUCH_DATA: &str = "data above 64 KiB, which the original would write: not compared";

/// What both writers are to write.
pub struct Contents {
    version: u32,
    alignment: u64,
    entries: BTreeMap<String, Tree>,
    tensors: Vec<TensorInfo>,
}

impl Tree {
    /// Puts it as the sheet has it behind its type. Only as an item has a text a length in front.
    fn put(&self, out: &mut Vec<u8>) {
        match self {
            Tree::Scalar(kind, bits) => out.extend(number(true, WIDTHS[*kind as usize], *bits)),
            Tree::Text(text) => out.extend(text),
            Tree::Array(kind, items) => {
                out.push(*kind as u8);
                length(out, items.len());
                for item in items {
                    if let Tree::Text(text) = item {
                        length(out, text.len());
                    }
                    item.put(out);
                }
            }
        }
    }

    /// As the crate takes it, where it is no array.
    fn value(&self) -> Value<'_> {
        let (kind, bits) = match self {
            Tree::Scalar(kind, bits) => (*kind, *bits),
            Tree::Text(text) => return Value::String(text),
            Tree::Array(..) => unreachable!("an array of the crate is lent its items"),
        };
        match kind {
            0 => Value::U8(bits as u8),
            1 => Value::I8(bits as i8),
            2 => Value::U16(bits as u16),
            3 => Value::I16(bits as i16),
            4 => Value::U32(bits as u32),
            5 => Value::I32(bits as i32),
            6 => Value::F32(f32::from_bits(bits as u32)),
            7 => Value::Bool(bits != 0),
            10 => Value::U64(bits),
            11 => Value::I64(bits as i64),
            _ => Value::F64(f64::from_bits(bits)),
        }
    }

    /// Hands items on as the crate takes them, behind those that are lent already. The items of an
    /// array among them must stay until all are used, so the others are lent while it is.
    fn lend(items: &[Tree], lent: &[Value<'_>], then: &mut dyn FnMut(&[Value<'_>])) {
        let mut lent = lent.to_vec();
        for (index, item) in items.iter().enumerate() {
            let Tree::Array(kind, inner) = item else {
                lent.push(item.value());
                continue;
            };
            return Tree::lend(inner, &[], &mut |inner| {
                let array = Value::Array(Array::new(TYPES[*kind as usize], inner));
                Tree::lend(&items[index + 1..], &[&lent[..], &[array]].concat(), then);
            });
        }
        then(&lent);
    }

    /// As the original takes it.
    fn original(&self) -> MetadataValue {
        let (kind, bits) = match self {
            Tree::Scalar(kind, bits) => (*kind, *bits),
            Tree::Text(text) => {
                return MetadataValue::String(String::from_utf8(text.clone()).expect("UTF-8"));
            }
            Tree::Array(_, items) => {
                return MetadataValue::Array(items.iter().map(Tree::original).collect());
            }
        };
        match kind {
            0 => MetadataValue::Uint8(bits as u8),
            1 => MetadataValue::Int8(bits as i8),
            2 => MetadataValue::Uint16(bits as u16),
            3 => MetadataValue::Int16(bits as i16),
            4 => MetadataValue::Uint32(bits as u32),
            5 => MetadataValue::Int32(bits as i32),
            6 => MetadataValue::Float32(f32::from_bits(bits as u32)),
            7 => MetadataValue::Bool(bits != 0),
            10 => MetadataValue::Uint64(bits),
            11 => MetadataValue::Int64(bits as i64),
            _ => MetadataValue::Float64(f64::from_bits(bits)),
        }
    }

    /// Whether it is an array of no items that a file does not show as one of u8.
    fn is_typed_and_empty(&self) -> bool {
        matches!(self, Tree::Array(kind, items) if *kind != 0 && items.is_empty())
    }
}

/// Puts a length, or a count, as a sheet has it.
fn length(out: &mut Vec<u8>, n: usize) {
    out.extend((n as u32).to_be_bytes());
}

fn text(random: &mut Random) -> String {
    const TEXTS: [&str; 12] = [
        "general.alignmenT",
        "general.alignment2",
        "general.alignmen",
        "general.architecture",
        "tokenizer.x",
        "a",
        "b",
        "z",
        "",
        "ключ",
        "名前",
        "\u{10FFFF}",
    ];
    if random.below(4) < 3 {
        TEXTS[random.below(12) as usize].into()
    } else {
        (0..random.below(20)).map(|_| char::from(b' ' + random.below(95) as u8)).collect()
    }
}

/// A value of a type that the original's methods can add. Where the sheet nests, an array has up to
/// four more in one another inside it: with it that is one more than is written.
fn said(nests: bool, random: &mut Random) -> Tree {
    let inside = if nests { [0, 1, 2, 3, 3, 4, 4][random.below(7) as usize] } else { 0 };
    match [4, 5, 6, 7, 8, 10, 9, 9][random.below(8) as usize] {
        9 => array(inside, random),
        kind => single(kind, random),
    }
}

/// An array inside which so many may stand in one another.
fn array(inside: u64, random: &mut Random) -> Tree {
    if inside > 0 && random.below(4) > 0 {
        let count = [0, 1, 1, 2, 2, 3][random.below(6) as usize];
        return Tree::Array(9, (0..count).map(|_| array(inside - 1, random)).collect());
    }
    if random.below(20) == 0 {
        return Tree::Array(random.below(13), vec![]);
    }
    let item = [0, 1, 2, 3, 4, 5, 6, 7, 8, 10, 11, 12][random.below(12) as usize];
    Tree::Array(item, (0..1 + random.below(6)).map(|_| single(item, random)).collect())
}

/// A scalar or a text.
fn single(kind: u64, random: &mut Random) -> Tree {
    if kind == 8 {
        return Tree::Text(text(random).into());
    }
    let width = 8 * WIDTHS[kind as usize];
    let any = random.next() ^ (random.next() << 40);
    let bits = [0, 1, u64::MAX, 1 << (width - 1), any, any][random.below(6) as usize];
    Tree::Scalar(kind, if kind == 7 { bits & 1 } else { bits & (u64::MAX >> (64 - width)) })
}

/// A kind: mostly one that both writers have the same block for.
fn kind(random: &mut Random) -> u32 {
    const SAME: [u32; 25] =
        [0, 0, 1, 1, 2, 3, 6, 7, 8, 10, 11, 12, 13, 14, 15, 16, 17, 18, 19, 21, 22, 23, 29, 34, 35];
    match random.below(30) {
        0 => random.below(45) as u32,
        1..=3 => OTHER_BLOCKS[random.below(9) as usize],
        _ => SAME[random.below(25) as usize],
    }
}

/// Lengths of few numbers, or of many. Mostly the first is whole blocks of the kind.
fn shape(kind: u32, random: &mut Random) -> Vec<u64> {
    // 7 << 51 blocks of kinds 9 and 39 are too many bytes by the original's table alone.
    const LARGE: [u64; 8] =
        [1 << 16, 1 << 32, 7 << 51, 1 << 61, 1 << 62, (1 << 62) - 1, 1 << 63, u64::MAX];
    let dimensions = if random.below(60) == 0 { 5 } else { random.below(5) };
    let is_large = random.below(8) == 0;
    let length = |random: &mut Random| {
        if is_large && random.below(2) == 0 {
            LARGE[random.below(8) as usize]
        } else {
            random.below(7)
        }
    };
    let mut shape: Vec<u64> = (0..dimensions).map(|_| length(random)).collect();
    let block = block(kind).unwrap_or(1);
    if block > 1 && random.below(12) > 0 {
        if shape.is_empty() {
            shape.push(length(random));
        }
        shape[0] = whole_blocks(shape[0], block);
    }
    shape
}

fn tensor(random: &mut Random) -> TensorInfo {
    if random.below(100) == 0 {
        // Its end fits, and its padded end does not.
        return TensorInfo { name: text(random), shape: vec![(1 << 62) - 1], dtype: 0 };
    }
    let dtype = kind(random);
    TensorInfo { name: text(random), shape: shape(dtype, random), dtype }
}

impl Contents {
    pub fn new(random: &mut Random) -> Contents {
        let version = if random.below(40) == 0 {
            [0, 4][random.below(2) as usize]
        } else {
            1 + random.below(3) as u32
        };
        let alignment = match random.below(30) {
            0 => [0, 4, 12, 1 << 32, (1 << 32) + 4][random.below(5) as usize],
            1..=9 => [8, 16, 24, 40, 64, 128, 4096, 1 << 16][random.below(8) as usize],
            _ => 32,
        };
        // Mostly no array has arrays as items, since the writers differ by intent where one has.
        let nests = random.below(6) == 0;
        let mut entries: BTreeMap<String, Tree> =
            (0..random.below(6)).map(|_| (text(random), said(nests, random))).collect();
        // At times the sheet says an alignment itself, mostly the right one; never where the
        // writer's is too large for the original's own zeros.
        if random.below(8) == 0 && alignment < 1 << 32 {
            let own = if random.below(4) == 0 {
                said(nests, random)
            } else {
                Tree::Scalar([4, 10][random.below(2) as usize], alignment)
            };
            entries.insert(ALIGNMENT.into(), own);
        }
        let tensors = (0..random.below(4)).map(|_| tensor(random)).collect();
        Contents { version, alignment, entries, tensors }
    }

    /// The smallest sheets on which the two differ by intent: an empty array of i8, and one of
    /// arrays; another alignment; five dimensions; a part of a block; a kind of another block, with
    /// a second tensor, since a header has no sizes: they show in the offset of the next; and two,
    /// three and four arrays in one another, the innermost empty, and in the last two of arrays.
    pub fn smallest() -> [Contents; 9] {
        let contents = |entries, tensors| Contents { version: 3, alignment: 32, entries, tensors };
        let said = |tree| contents([(String::new(), tree)].into(), vec![]);
        let around = |tree| Tree::Array(9, vec![tree]);
        let tensor = |dtype, shape| TensorInfo { name: String::new(), shape, dtype };
        let aligned = Tree::Scalar(4, 64);
        [
            said(Tree::Array(1, vec![])),
            said(Tree::Array(9, vec![])),
            contents([(ALIGNMENT.into(), aligned)].into(), vec![]),
            contents([].into(), vec![tensor(0, vec![1; 5])]),
            contents([].into(), vec![tensor(2, vec![])]),
            contents([].into(), vec![tensor(30, vec![]), tensor(30, vec![])]),
            said(around(Tree::Array(0, vec![]))),
            said(around(around(Tree::Array(9, vec![])))),
            said(around(around(around(Tree::Array(9, vec![]))))),
        ]
    }

    /// The sheet. With `as_u8`, an array of no items is given as one of u8.
    fn sheet(&self, as_u8: bool) -> Vec<u8> {
        let mut sheet = vec![1];
        for (key, said) in &self.entries {
            let mut entry = vec![1];
            length(&mut entry, key.len());
            entry.extend(key.as_bytes());
            entry.push(said.kind() as u8);
            if as_u8 && said.is_typed_and_empty() {
                Tree::Array(0, vec![]).put(&mut entry);
            } else {
                said.put(&mut entry);
            }
            length(&mut sheet, entry.len());
            sheet.extend(entry);
        }
        for tensor in &self.tensors {
            let mut entry = vec![2];
            length(&mut entry, tensor.name.len());
            entry.extend(tensor.name.as_bytes());
            entry.extend(tensor.dtype.to_be_bytes());
            entry.push(tensor.shape.len() as u8);
            tensor.shape.iter().for_each(|length| entry.extend(length.to_be_bytes()));
            length(&mut sheet, entry.len());
            sheet.extend(entry);
        }
        sheet
    }

    /// The same sheet, made by the crate. Of an array that is too deep it does not have all.
    fn built(&self) -> Sheet {
        let mut sheet = Sheet::new();
        for (key, said) in &self.entries {
            match said {
                Tree::Array(kind, items) => Tree::lend(items, &[], &mut |items| {
                    let items = items.iter().copied();
                    sheet = take(&mut sheet).array(key, TYPES[*kind as usize], items);
                }),
                single => sheet = take(&mut sheet).entry(key, single.value()),
            }
        }
        let tensors = self.tensors.iter();
        tensors.fold(sheet, |sheet, tensor| sheet.tensor(&tensor.name, tensor.dtype, &tensor.shape))
    }

    /// The bytes of the data area, where every tensor has a size: the original writes as many
    /// zeros.
    fn data(&self) -> Option<u128> {
        let unit = u128::from(self.alignment.max(1));
        self.tensors.iter().try_fold(0, |end: u128, tensor| {
            Some((end + u128::from(calculate_tensor_size(tensor).ok()?)).div_ceil(unit) * unit)
        })
    }

    /// Whether the original would write more data than it is let. It refuses arrays in arrays
    /// before it comes to the data.
    fn has_much_data(&self) -> bool {
        let is_much = |data: u128| data > MOST_DATA && data <= u128::from(u64::MAX);
        !self.is_nested() && self.data().is_some_and(is_much)
    }

    /// What the original wrote up to the start of the data, or the refusal that its error stands
    /// for.
    fn theirs(&self, path: &str) -> Result<Vec<u8>, u64> {
        let mut writer = GGUFWriter::new(path, self.version as i32)
            .map_err(class)?
            .with_alignment(self.alignment);
        for (key, said) in &self.entries {
            match said.original() {
                MetadataValue::Array(items) => writer.add_metadata_array(key, items),
                MetadataValue::String(text) => writer.add_metadata(key, &text),
                MetadataValue::Uint32(n) => writer.add_metadata_u32(key, n),
                MetadataValue::Int32(n) => writer.add_metadata_i32(key, n),
                MetadataValue::Uint64(n) => writer.add_metadata_u64(key, n),
                MetadataValue::Float32(x) => writer.add_metadata_f32(key, x),
                MetadataValue::Bool(yes) => writer.add_metadata_bool(key, yes),
                _ => unreachable!("a type that the original has no method for"),
            }
        }
        self.tensors.iter().for_each(|tensor| writer.add_tensor(tensor.clone()));
        writer.write().and_then(|()| writer.finalize()).map_err(class)?;
        let mut bytes = std::fs::read(path).expect("what the original wrote");
        bytes.truncate(bytes.len() - self.data().expect("a size of each tensor") as usize);
        Ok(bytes)
    }

    /// What this project wrote up to the start of the data, or its refusal. What it must not touch
    /// is looked at, and that a refusal's place is the sheet's bad entry or one of its tensors.
    fn ours(&self, sheet: &[u8]) -> Result<Vec<u8>, u64> {
        let mut out = vec![7; ROOM];
        let little = ByteOrder::Little;
        let answer = write_header(sheet, self.version, little, self.alignment, &mut out);
        let end = answer.map_or(0, |written| written.data_start as usize);
        assert!(out[end..].iter().all(|byte| *byte == 7), "bytes after the end: {sheet:?}");
        out.truncate(end);
        let Err(refusal) = answer else { return Ok(out) };
        let inside = match (refusal.number(), refusal.place()) {
            (31, Place::Sheet(byte)) => self.bad_entry(sheet) == Some(byte),
            (17, Place::Tensor(index)) => self.domain() == Domain::PartialBlock(index),
            (13..=15 | 35 | 36, Place::Tensor(index)) => index < self.tensors.len() as u64,
            (30 | 32..=34 | 37 | 38, place) => place == Place::Nowhere,
            _ => false,
        };
        assert!(inside, "refused at {}: {sheet:?}", refusal.place());
        Err(refusal.number())
    }

    /// Where the first entry of a sheet with these contents starts that is too deep or has five
    /// dimensions.
    fn bad_entry(&self, sheet: &[u8]) -> Option<u64> {
        let deep = self.entries.values().map(|said| said.is_too_deep(DEEPEST));
        let wide = self.tensors.iter().map(|tensor| tensor.shape.len() > 4);
        let before = deep.chain(wide).position(|is_bad| is_bad)?;
        let next = |place, _| place + 4 + number_in(&sheet[place..place + 4], true) as usize;
        Some((0..before).fold(1, next) as u64)
    }

    /// Whether arrays stand in one another deeper than is written.
    fn is_too_deep(&self) -> bool {
        self.entries.values().any(|said| said.is_too_deep(DEEPEST))
    }

    /// Whether an array has arrays as items.
    fn is_nested(&self) -> bool {
        self.entries.values().any(Tree::is_nested)
    }

    /// The flat twin: the items of an array of arrays are the bytes that these take in the file.
    fn flat(&self) -> Contents {
        let size = if self.version == 1 { 4 } else { 8 };
        let flat = |(key, said): (&String, &Tree)| (key.clone(), said.flat(size));
        let entries = self.entries.iter().map(flat).collect();
        Contents { entries, tensors: self.tensors.clone(), ..*self }
    }

    /// Panics where a header that was written has other entries, by a walk over its bytes, than the
    /// sheet and an alignment that is added.
    fn same_entries(&self, header: &[u8]) {
        let mut wanted = self.entries.clone();
        if self.alignment != 32 {
            let added = Tree::Scalar(4, self.alignment);
            wanted.entry(ALIGNMENT.into()).or_insert(added);
        }
        let wanted = wanted.iter().map(|(key, said)| (key.as_bytes(), said));
        let walk = Walk::over(header, u64::MAX);
        let found = walk.entries.iter().map(|(key, value)| (*key, value));
        assert!(wanted.eq(found), "other entries: {header:?}");
    }

    fn has_five_dimensions(&self) -> bool {
        self.tensors.iter().any(|tensor| tensor.shape.len() > 4)
    }

    /// Whether both refuse the alignment: 32, or 33 where it must be added.
    fn has_bad_alignment(&self) -> bool {
        let is_added = !self.entries.contains_key(ALIGNMENT);
        let is_too_large = is_added && self.alignment > u64::from(u32::MAX);
        self.alignment == 0 || !self.alignment.is_multiple_of(8) || is_too_large
    }

    /// Whether the sheet says an alignment by which a reader goes, and that is not the writer's.
    fn has_other_alignment(&self) -> bool {
        let Some(said) = self.entries.get(ALIGNMENT) else { return false };
        let number = match said {
            Tree::Scalar(kind, bits) => alignment_of(*kind, *bits),
            _ => 32,
        };
        self.alignment != number
    }

    /// Where the tensors stand, which are the last that a writer looks at.
    fn domain(&self) -> Domain {
        let mut domain = Domain::Inside;
        // Wherever a tensor is refused, what was there so far decides.
        let _ = self.lay_out(&mut domain);
        domain
    }

    /// The offsets of the tensors by this project's table; nothing where one is refused.
    fn lay_out(&self, domain: &mut Domain) -> Option<Vec<u64>> {
        let (mut end, mut total, mut offsets) = (0u64, 0u64, vec![]);
        for (index, TensorInfo { shape, dtype, .. }) in self.tensors.iter().enumerate() {
            if !is_written(*dtype) {
                return None;
            }
            domain.come_to(*dtype, shape, index as u64)?;
            let (numbers, size) = measure(*dtype, shape)?;
            total = total.checked_add(numbers)?;
            offsets.push(end);
            end = end.checked_add(size)?.checked_next_multiple_of(self.alignment)?;
        }
        Some(offsets)
    }

    /// What this project's writer must do, by the contents alone, in the order in which it refuses.
    fn wanted(&self) -> Wanted {
        if !(1..=3).contains(&self.version) {
            return Wanted::Same;
        }
        if self.is_too_deep() {
            return Wanted::Refusal(31, "arrays too deep in one another: here refusal 31");
        }
        if self.is_nested() {
            return Wanted::AsFlat;
        }
        if self.has_five_dimensions() {
            return Wanted::Refusal(31, "five dimensions: here refusal 31");
        }
        if self.has_bad_alignment() {
            return Wanted::Same;
        }
        if self.has_other_alignment() {
            return Wanted::Refusal(34, "another alignment in the sheet: here refusal 34");
        }
        match self.domain() {
            Domain::PartialBlock(_) => Wanted::Refusal(17, "partial blocks: here refusal 17"),
            Domain::OtherBlock(_) => Wanted::OtherOffsets,
            _ => Wanted::Same,
        }
    }

    /// A header that the original wrote, with the offsets of this project's table.
    fn laid_out_anew(&self, mut header: Vec<u8>) -> Vec<u8> {
        let mut rows = vec![[0; 10]; self.tensors.len()];
        Options::new().read_rows(&header, &mut vec![[0; 7]; 10], &mut rows).expect("a header");
        let offsets = self.lay_out(&mut Domain::Inside).expect("offsets of what was written");
        for (row, offset) in rows.iter().zip(offsets) {
            // Behind the name come the dimensions, the lengths and the kind.
            let place = (row[0] + row[1] + 4 + 8 * row[3] + 4) as usize;
            header[place..place + 8].copy_from_slice(&offset.to_le_bytes());
        }
        header
    }

    fn has_typed_empty_array(&self) -> bool {
        self.entries.values().any(Tree::is_typed_and_empty)
    }
}

/// The refusal's number that an error of the original stands for.
fn class(error: anyhow::Error) -> u64 {
    const CLASSES: [(&str, u64); 11] = [
        ("invalid GGUF version", 30),
        ("nested arrays", 31),
        ("non-zero multiple of 8", 32),
        ("too large for u32", 33),
        ("Q4_2/Q4_3", 35),
        ("Q4_0_4_*", 35),
        ("IQ4_NL_*", 35),
        ("invalid GGML kind", 35),
        ("element count overflow", 13),
        ("tensor byte size overflow", 14),
        ("tensor offset overflow", 36),
    ];
    let message = error.to_string();
    CLASSES.iter().find(|(text, _)| message.contains(text)).expect("an error that has no class").1
}

/// How many sheets agreed, by refusal (0: written), and how many differ by intent.
#[derive(Default)]
pub struct Agreed {
    by_number: BTreeMap<u64, u64>,
    by_intent: BTreeMap<String, u64>,
    /// Both readers on what this project's writer wrote.
    own: compare::Agreed,
    /// Both readers on what the original wrote, where this project's writer did not write the same.
    other: compare::Agreed,
    /// The flat twins of sheets that have arrays in arrays, each compared as any sheet is.
    flats: Option<Box<Agreed>>,
}

impl Agreed {
    /// Gives one sheet to both, and to both readers what was written. Panics where they differ
    /// otherwise than by intent.
    pub fn on(&mut self, contents: &Contents, path: &str) {
        let sheet = contents.sheet(false);
        let ours = contents.ours(&sheet);
        let built = contents.built().bytes().expect("the crate's sheet");
        if built != sheet {
            assert!(contents.is_too_deep(), "the crate's sheet: {sheet:?}");
            assert_eq!(contents.ours(&built), ours, "the crate's sheet: {sheet:?}");
        }
        let theirs = (!contents.has_much_data()).then(|| contents.theirs(path));
        if let Ok(header) = &ours {
            assert!(read(header).is_ok(), "refused, and this project wrote it: {sheet:?}");
            contents.same_entries(header);
            self.own.on(header, 3);
        }
        if let Some(Ok(header)) = theirs.as_ref().filter(|theirs| **theirs != ours) {
            self.other.on(header, 3);
        }
        match (contents.wanted(), theirs) {
            (Wanted::Refusal(number, what), theirs) => {
                assert_eq!(ours, Err(number), "{sheet:?}");
                self.on_refusal(number, what, theirs);
            }
            (Wanted::AsFlat, theirs) => self.on_nested(contents, ours, theirs, path),
            (Wanted::OtherOffsets, theirs) => self.on_other_offsets(contents, theirs),
            (Wanted::Same, Some(theirs)) => self.on_same(contents, ours, theirs, &sheet),
            (Wanted::Same, None) => self.intended(MUCH_DATA),
        }
    }

    /// Refused here, by intent. The original has no such reason, but may have a later one. Those of
    /// the version and the alignment come first, but for 31, which comes before the alignment's.
    fn on_refusal(&mut self, number: u64, what: &str, theirs: Option<Result<Vec<u8>, u64>>) {
        let there = match theirs {
            Some(Err(30..=33)) if number != 31 => panic!("{what}, and the original was before it"),
            Some(Ok(_)) => "the original writes it",
            Some(Err(31)) => "the original refuses every array of arrays",
            Some(Err(_)) => "the original refuses it for another reason",
            None => "the original would write data above 64 KiB",
        };
        self.intended(&format!("{what}, {there}"));
    }

    /// An array has arrays as items, and none is too deep. The original refuses it, after what it
    /// refuses of the flat twin. Here all is as with that twin, which is compared as any sheet is:
    /// what was written is its header but for the item types and counts of these arrays.
    fn on_nested(
        &mut self,
        contents: &Contents,
        ours: Result<Vec<u8>, u64>,
        theirs: Option<Result<Vec<u8>, u64>>,
        path: &str,
    ) {
        let flat = contents.flat();
        let class = theirs.and_then(Result::err).expect("arrays in arrays that the original wrote");
        if !flat.has_much_data() {
            assert_eq!(class, flat.theirs(path).err().unwrap_or(31), "{:?}", contents.sheet(false));
        }
        let as_flat = ours.as_ref().map_err(|number| *number).map(|header| {
            Walk::over(header, u64::MAX).flat(header).expect("the end of each array")
        });
        let sheet = flat.sheet(false);
        assert_eq!(as_flat, flat.ours(&sheet), "the flat twin: {sheet:?}");
        self.flats.get_or_insert_default().on(&flat, path);
        self.intended(match (ours, class) {
            (Ok(_), 31) => "arrays in arrays: here written, the original refuses them",
            (Err(_), 31) => "arrays in arrays: here refused for another reason, as the flat twin",
            (Err(number), class) if number == class => {
                "arrays in arrays: both refuse for another reason, same class"
            }
            _ => "arrays in arrays: the original refuses for another reason, another class",
        });
    }

    /// Both must do the same, but for the item type of an empty array.
    fn on_same(
        &mut self,
        contents: &Contents,
        ours: Result<Vec<u8>, u64>,
        theirs: Result<Vec<u8>, u64>,
        sheet: &[u8],
    ) {
        if contents.has_typed_empty_array() && theirs.is_ok() {
            assert!(ours.is_ok() && ours != theirs, "{sheet:?}");
            assert_eq!(contents.ours(&contents.sheet(true)), theirs, "{sheet:?}");
            return self.intended(
                "an empty array of a type other than u8: \
                 the original writes item type 0, and nothing else differs",
            );
        }
        assert_eq!(ours, theirs, "{sheet:?}");
        *self.by_number.entry(ours.err().unwrap_or(0)).or_default() += 1;
    }

    /// A kind has another block here. What differs beside offsets follows from the sizes: blocks of
    /// fewer numbers make them larger here, blocks of more bytes make the original refuse 14. An
    /// empty array is given the item type that the original writes.
    fn on_other_offsets(&mut self, contents: &Contents, theirs: Option<Result<Vec<u8>, u64>>) {
        let sheet = contents.sheet(true);
        let ours = contents.ours(&sheet);
        assert_eq!(ours.is_ok(), contents.lay_out(&mut Domain::Inside).is_some(), "{sheet:?}");
        let Some(theirs) = theirs else { return self.intended(MUCH_DATA) };
        self.intended(match (ours, theirs) {
            (Ok(ours), Ok(theirs)) => {
                let is_same = ours == theirs;
                assert_eq!(ours, contents.laid_out_anew(theirs), "{sheet:?}");
                if is_same {
                    "another block: same bytes, and the offsets are the table's"
                } else {
                    "another block: only offsets differ, and those are the table's"
                }
            }
            (Err(number), Err(class)) if number == class => "another block: refused, same class",
            (Ok(_) | Err(13 | 15 | 35 | 36), Err(14)) => {
                "another block: the original refuses 14 for more bytes of a block"
            }
            (Err(15 | 36), Err(_)) => "another block: refused for the larger sizes here",
            (ours, theirs) => panic!("{ours:?} here, and the original {theirs:?}: {sheet:?}"),
        });
    }

    fn intended(&mut self, what: &str) {
        *self.by_intent.entry(what.into()).or_default() += 1;
    }

    pub fn print(&self) {
        self.print_sheets();
        println!("The readers, on what this project's writer wrote");
        self.own.print();
        println!("The readers, on what the original's writer wrote otherwise");
        self.other.print();
        if let Some(flats) = &self.flats {
            println!("The writers, on the flat twins of those with arrays in arrays");
            flats.print_sheets();
        }
    }

    fn print_sheets(&self) {
        for (number, count) in &self.by_number {
            println!(
                "{:>9}  {}",
                count,
                if *number == 0 {
                    "written, same bytes".into()
                } else {
                    format!("refused {number}")
                }
            );
        }
        println!("{:>9}  sheets compared, no difference", self.by_number.values().sum::<u64>());
        for (what, count) in &self.by_intent {
            println!("{count:>9}  {what}");
        }
    }
}
