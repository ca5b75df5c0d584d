//! Headers that are made up, and damaged copies of them. The same seed gives the same inputs.

use crate::domain::{alignment_after_entries, alignment_of, block, OTHER_BLOCKS};
use std::collections::BTreeSet;
use std::ops::Range;

/// A small generator of random numbers (xorshift).
pub struct Random(u64);

impl Random {
    pub fn new(seed: u64) -> Self {
        Random(seed)
    }

    pub fn next(&mut self) -> u64 {
        self.0 ^= self.0 << 13;
        self.0 ^= self.0 >> 7;
        self.0 ^= self.0 << 17;
        self.0.wrapping_mul(0x2545_F491_4F6C_DD1D) >> 11
    }

    pub fn below(&mut self, n: u64) -> u64 {
        self.next() % n
    }

    fn pick<T: Copy>(&mut self, of: &[T]) -> T {
        of[self.below(of.len() as u64) as usize]
    }
}

/// A header that was made up: its bytes, its byte order, where its fields of numbers are (place
/// and width), and how many arrays may stand in one another inside each of its arrays.
pub struct Made {
    pub bytes: Vec<u8>,
    pub big: bool,
    version: u64,
    fields: Vec<(usize, usize)>,
    inside: u64,
}

/// The bytes of a scalar of each value type, 0 of a string and an array.
pub const WIDTHS: [usize; 13] = [1, 1, 2, 2, 4, 4, 4, 1, 0, 0, 8, 8, 8];

/// All versions, each in both byte orders.
const FORMS: [(u64, bool); 6] =
    [(1, false), (2, false), (3, false), (1, true), (2, true), (3, true)];

/// The bytes of a number in a byte order.
pub fn number(big: bool, width: usize, value: u64) -> Vec<u8> {
    let mut bytes = value.to_le_bytes()[..width].to_vec();
    if big {
        bytes.reverse();
    }
    bytes
}

impl Made {
    fn number(&mut self, width: usize, value: u64) {
        self.fields.push((self.bytes.len(), width));
        self.bytes.extend(number(self.big, width, value));
    }

    fn size(&mut self, n: u64) {
        self.number(if self.version == 1 { 4 } else { 8 }, n);
    }

    fn text(&mut self, text: &[u8]) {
        self.size(text.len() as u64);
        self.bytes.extend_from_slice(text);
    }

    /// An input that comes from this header (itself, a prefix or a damaged copy) with the magic
    /// kept. Nothing where the header is not big-endian of version 3, or the magic is what was
    /// damaged.
    pub fn keeping_magic(&self, input: &[u8]) -> Option<Vec<u8>> {
        let (magic, rest) = input.split_at(input.len().min(4));
        let can_keep = self.big && self.version == 3 && b"FUGG".starts_with(magic);
        can_keep.then(|| [&b"GGUF"[..magic.len()], rest].concat())
    }

    fn scalar(&mut self, kind: u64, random: &mut Random) {
        let width = WIDTHS[kind as usize];
        let sign = 1u64 << (8 * width - 1);
        let other = random.next() ^ (random.next() << 40);
        let eights = 8 * random.below(20);
        let value = random.pick(&[0, 1, u64::MAX, sign, eights, other]);
        self.number(width, value);
    }
}

fn name(random: &mut Random) -> Vec<u8> {
    const NAMES: [&[u8]; 12] = [
        b"general.alignment",
        b"general.alignmenT",
        b"general.alignment2",
        b"general.alignmen",
        b"general.architecture",
        b"general.file_type",
        b"tokenizer.x",
        b"tokenizer.",
        b"tokenizer",
        b"a",
        b"b",
        b"",
    ];
    if random.below(4) < 3 {
        random.pick(&NAMES).to_vec()
    } else {
        (0..random.below(30)).map(|_| b'a' + random.below(26) as u8).collect()
    }
}

/// An array, with as many in one another inside it as the header may have, or fewer.
fn any_array(made: &mut Made, random: &mut Random) {
    let inside = random.below(made.inside + 1);
    array(made, inside, random);
}

/// An array inside which so many may stand in one another. Where none may, one of arrays has no
/// items.
fn array(made: &mut Made, inside: u64, random: &mut Random) {
    let any = random.below(13);
    let item = if inside > 0 && random.below(4) > 0 { 9 } else { any };
    let count = match item {
        9 if inside == 0 => 0,
        9 => random.pick(&[0, 1, 1, 2, 2, 3]),
        _ => random.below(7),
    };
    made.number(4, item);
    made.size(count);
    for _ in 0..count {
        match item {
            8 => made.text(&name(random)),
            9 => array(made, inside - 1, random),
            _ => made.scalar(item, random),
        }
    }
}

const ALIGNMENT: &[u8] = b"general.alignment";

/// What `general.alignment` may say, as a type and a number: alignments, and what is none, since it
/// is 0, is not divided by 8, is below 0 or is no integer.
const ALIGNMENTS: [(u64, u64); 24] = [
    (4, 8),
    (4, 24),
    (4, 32),
    (4, 64),
    (0, 248),
    (1, 120),
    (2, 4096),
    (3, 40),
    (5, 1 << 30),
    (10, 1 << 33),
    (10, 1 << 63),
    (10, u64::MAX - 7),
    (11, 1 << 62),
    (4, 0),
    (4, 12),
    (10, (1 << 33) + 4),
    (1, 248),
    (3, 1 << 15),
    (5, 1 << 31),
    (11, 1 << 63),
    (6, 0x4280_0000),
    (7, 64),
    (8, 0),
    (9, 64),
];

fn entry(made: &mut Made, random: &mut Random) {
    if random.below(8) == 0 {
        let (kind, number) = random.pick(&ALIGNMENTS);
        return entry_of(made, ALIGNMENT, kind, number, b"64");
    }
    let key = name(random);
    made.text(&key);
    let wants_array = made.inside > 0 || key.starts_with(b"tok");
    let kind = if wants_array && random.below(2) == 0 { 9 } else { random.below(13) };
    made.number(4, kind);
    match kind {
        8 => made.text(&name(random)),
        9 => any_array(made, random),
        _ => made.scalar(kind, random),
    }
}

/// A kind: mostly one whose block is the same for both readers, or that has no size.
fn kind(random: &mut Random) -> u64 {
    const SAME: [u64; 31] = [
        0, 0, 1, 1, 2, 3, 6, 7, 8, 10, 11, 12, 13, 14, 15, 16, 17, 18, 19, 21, 22, 23, 29, 31, 32,
        33, 34, 35, 36, 37, 38,
    ];
    match random.below(12) {
        0 => random.pick(&OTHER_BLOCKS).into(),
        1 => random.below(45),
        _ => random.pick(&SAME),
    }
}

/// A length that is whole blocks: so many blocks, or where these are too many, so many numbers but
/// for the rest.
pub fn whole_blocks(length: u64, block: u64) -> u64 {
    length.checked_mul(block).unwrap_or(length / block * block)
}

/// The lengths of a tensor. Mostly the first is whole blocks, since the readers differ by intent
/// where it is not; then a tensor without dimensions, whose first length reads as 1, is given one.
fn lengths(kind: u64, random: &mut Random) -> Vec<u64> {
    if matches!(kind, 31..=33 | 36..=38) && random.below(3) == 0 {
        // It has no size that is too large, only the total of all numbers is.
        return vec![u64::MAX];
    }
    let dimensions = if random.below(20) == 0 { 5 } else { random.below(5) };
    let length = |random: &mut Random| {
        let small = random.below(300);
        random.pick(&[
            1 << 32,
            0,
            u64::MAX,
            1 << 62,
            (1 << 62) - 1,
            1 << 63,
            // So many blocks of kinds 9 and 39 are too many bytes by the original's table alone.
            7 << 51,
            1 << 16,
            small,
            small,
            small,
            small,
            small,
        ])
    };
    let mut lengths: Vec<u64> = (0..dimensions).map(|_| length(random)).collect();
    let block = block(kind as u32).unwrap_or(1);
    if block > 1 && random.below(8) > 0 {
        if lengths.is_empty() {
            lengths.push(length(random));
        }
        lengths[0] = whole_blocks(lengths[0], block);
    }
    lengths
}

fn tensor_of(made: &mut Made, name: &[u8], kind: u64, lengths: &[u64], offset: u64) {
    made.text(name);
    made.number(4, lengths.len() as u64);
    lengths.iter().for_each(|length| made.number(8, *length));
    made.number(4, kind);
    made.number(8, offset);
}

/// The offset of a tensor: a multiple of the alignment, or else mostly a number that is near one.
fn offset(alignment: u64, is_aligned: bool, random: &mut Random) -> u64 {
    let multiple = alignment.checked_mul(random.below(100)).unwrap_or(alignment);
    if is_aligned {
        return multiple;
    }
    let eights = 8 * random.below(1000);
    let any = random.next() ^ (random.next() << 40);
    let steps = [0, 0, 1, 8, alignment / 2, alignment - 1];
    let near = multiple.wrapping_add(random.pick(&steps));
    random.pick(&[near, near, near, eights, any])
}

fn tensor(made: &mut Made, alignment: u64, is_aligned: bool, random: &mut Random) {
    let name = name(random);
    let kind = kind(random);
    let lengths = lengths(kind, random);
    tensor_of(made, &name, kind, &lengths, offset(alignment, is_aligned, random));
}

/// For every kind: one tensor of each of these lengths, which are whole blocks or almost.
pub fn every_kind() -> Vec<Made> {
    let mut all = vec![];
    for kind in 0..40 {
        for length in [0, 1, 31, 32, 33, 255, 256, 257, 768] {
            let mut made = start(3, false, 1, 0);
            tensor_of(&mut made, b"a", kind, &[length], 0);
            all.push(made);
        }
    }
    all
}

/// For every version, byte order and alignment: a tensor at offsets about the alignment's
/// multiples, alone, and with others that are aligned, misaligned or refused for another reason.
/// Where an alignment is said, another was said before it. The tensors have no names, so that the
/// smallest header with a misaligned offset is among these.
pub fn every_offset() -> Vec<Made> {
    let mut all = vec![];
    for (version, big) in FORMS {
        for said in ALIGNMENTS.into_iter().map(Some).chain([None]) {
            let alignment = said.map_or(32, |(kind, number)| alignment_of(kind, number));
            for offset in about(alignment) {
                for tensors in beside(offset, alignment) {
                    let entries = if said.is_some() { 2 } else { 0 };
                    let mut made = start(version, big, tensors.len() as u64, entries);
                    if let Some((kind, number)) = said {
                        entry_of(&mut made, ALIGNMENT, 4, 16, b"");
                        entry_of(&mut made, ALIGNMENT, kind, number, b"64");
                    }
                    for (kind, lengths, offset) in tensors {
                        tensor_of(&mut made, b"", kind, &lengths, offset);
                    }
                    all.push(made);
                }
            }
        }
    }
    all
}

/// Offsets that are a multiple, or almost one.
fn about(alignment: u64) -> BTreeSet<u64> {
    let last = u64::MAX / alignment * alignment;
    let twice = alignment.wrapping_mul(2);
    let near = [1, 8, alignment / 2, alignment - 8, alignment - 1, alignment + 1];
    [0, alignment, twice, last, last + 1, u64::MAX, 1 << 63].into_iter().chain(near).collect()
}

/// A tensor at an offset, alone and beside others; each by its kind, its lengths and its offset.
fn beside(offset: u64, alignment: u64) -> [Vec<(u64, Vec<u64>, u64)>; 8] {
    let one = || (0, vec![], offset);
    [
        vec![one()],
        // Of too many bytes by the original's table alone.
        vec![(9, vec![7 << 56], offset)],
        // Of size 0, and behind aligned ones.
        vec![(1, vec![], 0), (0, vec![7], alignment), (0, vec![0], offset)],
        // Of a kind without a size, and before an aligned one.
        vec![(31, vec![5], offset), (0, vec![], alignment)],
        // More than one.
        vec![one(), (1, vec![], offset)],
        // Before one that is refused 11, 17 or 13: the offset does not matter.
        vec![one(), (4, vec![], 0)],
        vec![one(), (2, vec![33], 0)],
        vec![one(), (0, vec![1 << 32, 1 << 32], offset)],
    ]
}

/// For every version and byte order: a hundred and fifty tensors, of which one is misaligned or
/// none, behind one entry, or behind more than the reader keeps while it tests.
pub fn many_tensors() -> Vec<Made> {
    let mut all = vec![];
    for (version, big) in FORMS {
        for entries in [1, 100] {
            for misaligned in [None, Some(0), Some(1), Some(63), Some(64), Some(65), Some(149)] {
                let mut made = start(version, big, 150, entries);
                (1..entries).for_each(|_| entry_of(&mut made, b"a", 4, 8, b""));
                entry_of(&mut made, ALIGNMENT, 4, 64, b"");
                for index in 0..150 {
                    let step = if misaligned == Some(index) { 32 } else { 0 };
                    tensor_of(&mut made, b"", 0, &[], 64 * index + step);
                }
                all.push(made);
            }
        }
    }
    all
}

/// For every version and byte order, an array under this key with up to four others around it: of
/// each item type, and of one that there is not, with so many items. In each array around it comes
/// first one that is of arrays and has no items. Behind all come an entry and a tensor: their
/// places show where the arrays end.
pub fn every_nesting(key: &[u8], counts: Range<u64>) -> Vec<Made> {
    let mut all = vec![];
    for (version, big) in FORMS {
        for around in 0..5 {
            for item in 0..14 {
                for count in counts.clone() {
                    let mut made = start(version, big, 1, 2);
                    nested_entry(&mut made, key, around, item, count);
                    entry_of(&mut made, b"b", 4, 7, b"");
                    tensor_of(&mut made, b"", 0, &[5], 0);
                    all.push(made);
                }
            }
        }
    }
    all
}

/// In version 1, little-endian, one entry without a key: up to five arrays in one another, each of
/// one item but the last, which has none and is of u8 or of arrays. The smallest headers with
/// arrays in arrays are among these and their prefixes.
pub fn smallest_nestings() -> Vec<Made> {
    let mut all = vec![];
    for item in [0, 9] {
        for around in 0..5 {
            let mut made = start(1, false, 0, 1);
            array_entry(&mut made, b"", around, item, 0);
            all.push(made);
        }
    }
    all
}

/// For every version and byte order, an array of each type of scalars, alone and with three others
/// around it, where up to 17 bytes stand for its items; with counts that fit and that are too many.
pub fn every_length() -> Vec<Made> {
    let mut all = vec![];
    for (version, big) in FORMS {
        for (item, width) in (0..).zip(WIDTHS).filter(|(_, width)| *width > 0) {
            for bytes in 0..18 {
                for count in counts_about((bytes / width) as u64, width as u64, version) {
                    for around in [0, 3] {
                        let mut made = start(version, big, 0, 1);
                        array_entry(&mut made, b"a", around, item, count);
                        made.bytes.resize(made.bytes.len() + bytes, 0xA5);
                        all.push(made);
                    }
                }
            }
        }
    }
    all
}

/// Counts of items of a width, of those that a version can say: as many as are there, one more, and
/// those whose bytes are, in 64 bits or in 32, none, as many as are there, or the most.
fn counts_about(there: u64, width: u64, version: u64) -> BTreeSet<u64> {
    let wraps = (u64::MAX / width).wrapping_add(1);
    let products = [1 << 29, 1 << 61, wraps];
    let about = |count: u64| [count.wrapping_sub(1), count, count.wrapping_add(there)];
    let others = [there, there + 1, u32::MAX.into(), u64::MAX];
    let most = if version == 1 { u32::MAX.into() } else { u64::MAX };
    let all = products.into_iter().flat_map(about).chain(others);
    all.filter(|count| *count <= most).collect()
}

/// An entry up to the items of an array that has so many others around it, of one item each.
fn array_entry(made: &mut Made, key: &[u8], around: u64, item: u64, count: u64) {
    made.text(key);
    made.number(4, 9);
    for _ in 0..around {
        made.number(4, 9);
        made.size(1);
    }
    made.number(4, item);
    made.size(count);
}

/// An entry whose value is an array with so many others around it.
fn nested_entry(made: &mut Made, key: &[u8], around: u64, item: u64, count: u64) {
    made.text(key);
    made.number(4, 9);
    for _ in 0..around {
        made.number(4, 9);
        made.size(2);
        made.number(4, 9);
        made.size(0);
    }
    made.number(4, item);
    made.size(count);
    for index in 0..count {
        match item {
            8 => made.text(&b"xy"[index as usize..]),
            9 => {
                made.number(4, 2);
                made.size(0);
            }
            // There is no such type.
            13 => {}
            _ => made.number(WIDTHS[item as usize], index + 1),
        }
    }
}

/// The keys that the questions look up, and keys that are almost those.
const ARCHITECTURE: &[u8] = b"general.architecture";
const FILE_TYPE: &[u8] = b"general.file_type";
const ALMOST: [&[u8]; 6] = [
    b"general.architectur",
    b"general.architecture2",
    b"General.architecture",
    b"general.file_typ",
    b"general.file_type\0",
    b"general.file-type",
];

/// Numbers that are file types, that are almost, and that are one in fewer bytes.
const FILE_TYPES: [u64; 44] = [
    0,
    1,
    2,
    3,
    4,
    5,
    6,
    7,
    8,
    9,
    10,
    11,
    12,
    13,
    14,
    15,
    16,
    17,
    18,
    19,
    20,
    21,
    22,
    23,
    24,
    25,
    26,
    31,
    39,
    127,
    128,
    255,
    256 + 7,
    32768,
    65535,
    65536 + 24,
    1 << 31,
    (1 << 32) - 24,
    (1 << 32) - 1,
    (1 << 32) + 5,
    1 << 63,
    (1 << 63) + 1,
    u64::MAX - 23,
    u64::MAX,
];

/// An entry of a type, whose value is this number or this text, or an array of one such item.
fn entry_of(made: &mut Made, key: &[u8], kind: u64, number: u64, text: &[u8]) {
    made.text(key);
    made.number(4, kind);
    match kind {
        8 => made.text(text),
        9 => {
            made.number(4, 4);
            made.size(1);
            made.number(4, number);
        }
        _ => made.number(WIDTHS[kind as usize], number),
    }
}

/// An entry that a question may look up: any type under either key, or under one that is almost it.
fn asked_entry(made: &mut Made, random: &mut Random) {
    const TEXTS: [&[u8]; 7] =
        [b"llama", b"", b"unknown", b"7", b"general.architecture", "é".as_bytes(), b"\xff\xfe"];
    let key = if random.below(6) == 0 {
        random.pick(&ALMOST)
    } else {
        random.pick(&[ARCHITECTURE, FILE_TYPE])
    };
    let any = random.below(13);
    let kind = if key == ARCHITECTURE { random.pick(&[8, any]) } else { any };
    let any = random.next() ^ (random.next() << 40);
    let listed = random.pick(&FILE_TYPES);
    let number = random.pick(&[listed, listed, listed, any]);
    let text = random.pick(&TEXTS);
    if made.inside > 0 && random.below(3) == 0 {
        made.text(key);
        made.number(4, 9);
        return any_array(made, random);
    }
    entry_of(made, key, kind, number, text);
}

/// A header with up to five entries that a question may look up, often with one key twice.
pub fn asked_header(random: &mut Random) -> Made {
    with_entries(random, 0, 6, asked_entry)
}

/// For every version, byte order and type: `general.file_type` with each of the listed numbers, and
/// `general.architecture`; each behind another entry of its key.
pub fn every_answer() -> Vec<Made> {
    let mut all = vec![];
    for (version, big) in FORMS {
        for kind in 0..13 {
            for (key, numbers) in [(FILE_TYPE, &FILE_TYPES[..]), (ARCHITECTURE, &FILE_TYPES[..1])] {
                for number in numbers {
                    let mut made = start(version, big, 0, 2);
                    entry_of(&mut made, key, (kind + 4) % 13, 3, b"llama");
                    entry_of(&mut made, key, kind, *number, b"phi");
                    all.push(made);
                }
            }
        }
    }
    all
}

/// For every version and byte order: under each key that is looked up an array of arrays, behind an
/// entry that answers, or before it.
pub fn nested_answers() -> Vec<Made> {
    let mut all = vec![];
    for (version, big) in FORMS {
        for (key, kind) in [(ARCHITECTURE, 8), (FILE_TYPE, 4), (ALIGNMENT, 4)] {
            for is_last in [false, true] {
                let mut made = start(version, big, 0, 2);
                if is_last {
                    entry_of(&mut made, key, kind, 24, b"phi");
                }
                nested_entry(&mut made, key, 1, 4, 1);
                if !is_last {
                    entry_of(&mut made, key, kind, 24, b"phi");
                }
                all.push(made);
            }
        }
    }
    all
}

/// A header with up to five entries.
pub fn header(random: &mut Random) -> Made {
    with_entries(random, 0, 6, entry)
}

/// A header with some hundred entries: the reader keeps the rows of up to 64 while it tests, and
/// reads more of them twice.
pub fn long_header(random: &mut Random) -> Made {
    with_entries(random, 60, 80, entry)
}

/// The front of a header, up to its first entry.
fn start(version: u64, big: bool, tensors: u64, entries: u64) -> Made {
    let mut made = Made { bytes: vec![], big, version, fields: vec![(0, 4)], inside: 0 };
    made.bytes.extend_from_slice(if big { b"FUGG" } else { b"GGUF" });
    made.number(4, version);
    made.size(tensors);
    made.size(entries);
    made
}

/// The magic that is kept, with versions behind it that are big-endian, and with a 3 in each of the
/// version's other bytes; alone, and with counts of 0.
pub fn kept_fronts() -> Vec<Vec<u8>> {
    let big = [0, 1, 2, 3, 4, 255].map(u32::to_be_bytes);
    let threes = [[3, 0, 0, 0], [0, 3, 0, 0], [0, 0, 3, 0]];
    let mut all = vec![];
    for version in big.into_iter().chain(threes) {
        let front = [&b"GGUF"[..], &version].concat();
        all.push([&front[..], &[0; 16]].concat());
        all.push(front);
    }
    all
}

/// A header of any version and byte order, with up to three tensors, and `least` entries or fewer
/// than `spread` more, each made by `entry`. Mostly no array has arrays as items, and all offsets
/// are aligned, since the readers differ by intent where one has or is not. Where an array has,
/// mostly as many stand in one another as are read, and at times one more.
fn with_entries(
    random: &mut Random,
    least: u64,
    spread: u64,
    entry: fn(&mut Made, &mut Random),
) -> Made {
    let big = random.below(2) == 1;
    let version = random.pick(&[1, 2, 3, 3]);
    let tensors = random.below(4);
    let entries = least + random.below(spread);
    let mut made = start(version, big, tensors, entries);
    made.inside = random.pick(&[0, 0, 0, 0, 0, 0, 0, 0, 0, 0, 0, 0, 3, 3, 4]);
    (0..entries).for_each(|_| entry(&mut made, random));
    // Where the entries are refused, the offsets are not looked at.
    let alignment = alignment_after_entries(&made.bytes).unwrap_or(32);
    let is_aligned = random.below(4) > 0;
    (0..tensors).for_each(|_| tensor(&mut made, alignment, is_aligned, random));
    made
}

/// Copies with one field at a boundary value, and copies with one byte changed.
pub fn damaged(made: &Made, random: &mut Random) -> Vec<Vec<u8>> {
    const SMALL: [u64; 17] = [0, 1, 2, 3, 4, 5, 8, 9, 12, 13, 31, 32, 39, 40, 41, 255, 256];
    const LARGE: [u64; 4] = [(1 << 30) + 1, 1 << 32, 1 << 62, u64::MAX];
    let mut copies = vec![];
    for &(place, width) in &made.fields {
        for value in SMALL.into_iter().chain(LARGE) {
            if random.below(4) == 0 {
                let mut bytes = made.bytes.clone();
                bytes[place..place + width].copy_from_slice(&number(made.big, width, value));
                copies.push(bytes);
            }
        }
    }
    for _ in 0..8 {
        let mut bytes = made.bytes.clone();
        let place = random.below(bytes.len() as u64) as usize;
        bytes[place] = random.next() as u8;
        copies.push(bytes);
    }
    copies
}
