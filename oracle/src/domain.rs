//! Which inputs both readers must say the same of, seen from the bytes of the input alone.
//!
//! A big-endian file of version 3 may keep the magic `47 47 55 46` and turn only the rest round.
//! This project reads it; the original takes the version's bytes for another number, and refuses
//! it. So an input leaves the domain where it begins with that magic and `00 00 00 03`, whatever
//! follows. Both read its twin, which has the magic turned round too.
//!
//! This project reads arrays in arrays, four deep with the outermost. The original refuses (9)
//! every array that has an array as an item. So an input leaves the domain where the reading comes
//! to the count of an array of arrays, and that is above 0. Where every such array is passed, both
//! read the input's flat twin, in which the bytes of the items are the items: all that comes after
//! them stands at the same place there.
//!
//! This project goes by ggml's own table of blocks, and refuses (17) a tensor whose first length is
//! not whole blocks of its kind. The original has another block for nine of the kinds, and no such
//! test. So an input leaves the domain where the reading comes to the end of the record of such a
//! tensor. Up to the first of them both read alike, and a refusal there ends the reading inside the
//! domain: that is why the walk over the input ends at every refusal.
//!
//! After every other test this project refuses (16) a tensor whose offset is not a multiple of the
//! header's alignment, at which the original does not look. So an input leaves the domain where it
//! passes every other test and an offset is misaligned. One that is refused for another reason
//! stays where it was, whatever its offsets are.
//!
//! The walk goes by this project's rules up to the end, whatever the original does, so that every
//! answer of this project can be held against it: the header's end, or a refusal with its place.

use crate::inputs::{number, WIDTHS};
use crate::tree::{Tree, DEEPEST};

/// Where an input, or a sheet, stands. What the original comes to first decides.
#[derive(Clone, Copy, Debug, PartialEq, Eq)]
pub enum Domain {
    /// Both must say the same of it.
    Inside,
    /// It begins as a big-endian file of version 3 that keeps the magic: here it is read as its
    /// twin, and the original refuses its version (4).
    MagicKept,
    /// It counts more records than there are rows. The original has no rows.
    MoreRecords,
    /// The reading comes to an array that has arrays as items: here it is read, up to four deep,
    /// and the original refuses it (9).
    NestedArray,
    /// The reading comes to a tensor that is not whole blocks by this project's table, whatever its
    /// kind: here it is refused 17. The place is the first byte of the first such record, or in a
    /// sheet the tensor's number.
    PartialBlock(u64),
    /// All tensors that the reading comes to are whole blocks by this project's table, and the
    /// original has another block for the kind of one; this is the first such kind.
    OtherBlock(u32),
    /// The input passes every other test, and an offset is not a multiple of the alignment: here it
    /// is refused 16. The place is the first byte of the first such offset, and `other` is the kind
    /// that `OtherBlock` would name.
    Misaligned { place: u64, other: Option<u32> },
}

/// What the reading passed, or the refusal at which it ends: its number and its place.
pub type Step<T> = Result<T, (u64, u64)>;

/// What a walk over an input came to.
pub struct Walk<'a> {
    /// Where the input stands.
    pub domain: Domain,
    /// What this project must answer: the header's end, or a refusal.
    pub answer: Step<u64>,
    /// The entries that were passed, each by its key and its value.
    pub entries: Vec<(&'a [u8], Tree)>,
    /// The arrays that have arrays as items, also one that is refused.
    pub nested: Vec<Nested>,
    /// The place of the first misaligned offset, also where the reading ends after it for another
    /// reason.
    pub misaligned: Option<u64>,
}

/// An entry's array that has arrays as items.
pub struct Nested {
    /// The place of its item type.
    place: u64,
    /// How many arrays are its items.
    pub count: u64,
    /// The place of the first of them.
    pub first: u64,
    /// The place after the last of them; nothing where it is refused before.
    end: Option<u64>,
}

impl<'a> Walk<'a> {
    /// A walk that came to nothing so far.
    fn new() -> Walk<'a> {
        let (entries, nested) = (vec![], vec![]);
        Walk { domain: Domain::Inside, answer: Ok(0), entries, nested, misaligned: None }
    }

    /// The walk over an input whose records are to be read into tables of so many rows each.
    pub fn over(bytes: &'a [u8], rows: u64) -> Walk<'a> {
        let mut walk = Walk::new();
        // Wherever the reading ends, what it came to so far decides.
        walk.answer = walk.go(bytes, rows);
        walk
    }

    /// Reads the input by this project's rules, up to its end or the first refusal, and says what
    /// it came to. Up to where the input leaves the domain, both read so.
    fn go(&mut self, bytes: &'a [u8], rows: u64) -> Step<u64> {
        if bytes.starts_with(MAGIC_KEPT) {
            self.domain = Domain::MagicKept;
        }
        let (mut rest, tensors, entries) = Rest::of(bytes)?;
        if tensors > rows || entries > rows {
            self.domain.leave(Domain::MoreRecords);
            let counts = if tensors > rows { 2 } else { 1 };
            return Err((6, rest.place - counts * rest.size as u64));
        }
        let alignment = self.entries(&mut rest, entries)?;
        self.tensors(&mut rest, tensors, alignment)?;
        // No input is so long that its data would start above 2^64 - 1 (18).
        match self.misaligned {
            Some(place) => Err(self.domain.end_misaligned(place)),
            None => Ok(rest.place),
        }
    }

    /// Passes so many entries, and gives the alignment: the last `general.alignment` decides.
    fn entries(&mut self, rest: &mut Rest<'a>, count: u64) -> Step<u64> {
        let mut alignment = 32;
        for _ in 0..count {
            let key = rest.string()?;
            let kind = rest.kind()?;
            let nested = rest.nested(kind);
            let value = rest.value(kind, DEEPEST);
            if let Some(nested) = nested {
                let end = value.is_ok().then_some(rest.place);
                self.nested.push(Nested { end, ..nested });
                self.domain.leave(Domain::NestedArray);
            }
            let value = value?;
            if key == b"general.alignment" {
                alignment = match value {
                    Tree::Scalar(kind, bits) => alignment_of(kind, bits),
                    _ => 32,
                };
            }
            self.entries.push((key, value));
        }
        Ok(alignment)
    }

    /// Passes so many tensors, each with the tests that come after its record.
    fn tensors(&mut self, rest: &mut Rest<'a>, count: u64, alignment: u64) -> Step<()> {
        let mut total = 0u64;
        for _ in 0..count {
            let place = rest.place;
            let (kind, lengths, offset) = rest.tensor()?;
            // The last fields of the record are the kind and the offset.
            if self.misaligned.is_none() && !offset.is_multiple_of(alignment) {
                self.misaligned = Some(rest.place - 8);
            }
            block(kind).ok_or((11, rest.place - 12))?;
            self.domain.come_to(kind, &lengths, place).ok_or((17, place))?;
            let numbers = product(&lengths).ok_or((13, place))?;
            measure(kind, &lengths).ok_or((14, place))?;
            total = total.checked_add(numbers).ok_or((15, place))?;
        }
        Ok(())
    }

    /// The flat twin of the input that was walked over: each array of arrays is one of bytes there,
    /// those of its items. Nothing where such an array is refused, since it has no end then.
    pub fn flat(&self, bytes: &[u8]) -> Option<Vec<u8>> {
        let big = !bytes.starts_with(b"GGUF") || bytes.starts_with(MAGIC_KEPT);
        let mut flat = bytes.to_vec();
        for Nested { place, first, end, .. } in &self.nested {
            let (place, first) = (*place as usize, *first as usize);
            // Item type 0 is four zeros in both byte orders.
            flat[place..place + 4].fill(0);
            let count = number(big, first - place - 4, (*end)? - first as u64);
            flat[place + 4..first].copy_from_slice(&count);
        }
        Some(flat)
    }
}

impl Domain {
    /// What comes first decides where an input leaves the domain.
    fn leave(&mut self, domain: Domain) {
        if *self == Domain::Inside {
            *self = domain;
        }
    }

    /// The reading comes to a tensor of a kind, with lengths, at a place. Gives nothing where it
    /// ends there, since there is no such kind (11), or since the tensor is not whole blocks.
    pub fn come_to(&mut self, kind: u32, lengths: &[u64], place: u64) -> Option<()> {
        let first = lengths.first().unwrap_or(&1);
        let is_whole = first.is_multiple_of(block(kind)?);
        match *self {
            Domain::Inside | Domain::OtherBlock(_) if !is_whole => {
                *self = Domain::PartialBlock(place);
            }
            Domain::Inside if OTHER_BLOCKS.contains(&kind) => *self = Domain::OtherBlock(kind),
            _ => {}
        }
        is_whole.then_some(())
    }

    /// The reading passes every other test, and an offset is misaligned: the refusal.
    fn end_misaligned(&mut self, place: u64) -> (u64, u64) {
        match *self {
            Domain::Inside => *self = Domain::Misaligned { place, other: None },
            Domain::OtherBlock(kind) => *self = Domain::Misaligned { place, other: Some(kind) },
            _ => {}
        }
        (16, place)
    }
}

/// The first bytes of a big-endian file of version 3 that keeps the magic.
const MAGIC_KEPT: &[u8] = b"GGUF\0\0\0\x03";

/// The same file with the magic turned round too, of one that keeps it.
pub fn twin(bytes: &[u8]) -> Vec<u8> {
    [&b"FUGG"[..], &bytes[4..]].concat()
}

/// The numbers of a block of each kind, by this project's table; nothing where there is no such
/// kind. A kind without a size is given 1: its lengths are not tested, and its size is 0 anyway.
pub fn block(kind: u32) -> Option<u64> {
    match kind {
        4 | 5 | 40.. => None,
        0 | 1 | 24..=28 | 30 => Some(1),
        31..=33 | 36..=38 => Some(1),
        2..=9 | 20 | 39 => Some(32),
        _ => Some(256),
    }
}

/// The bytes of a block of each kind, by this project's table; 0 for a kind without a size, and for
/// 4 and 5, which are no kinds.
const BYTES: [u64; 40] = [
    4, 2, 18, 20, 0, 0, 22, 24, 34, 36, 84, 110, 144, 176, 210, 292, 66, 74, 98, 50, 18, 110, 82,
    136, 1, 2, 4, 8, 8, 56, 2, 0, 0, 0, 54, 66, 0, 0, 0, 17,
];

/// The kinds whose block has other numbers, or other bytes, than the original's.
pub const OTHER_BLOCKS: [u32; 9] = [9, 20, 24, 25, 26, 27, 28, 30, 39];

/// Whether tensors of the kind are written (else 35): there is such a kind, and it has a size.
pub fn is_written(kind: u32) -> bool {
    BYTES.get(kind as usize).is_some_and(|bytes| *bytes > 0)
}

/// How many numbers a tensor of a kind has, and its size, by this project's table; nothing where
/// there is no such kind, and where the numbers (13) or their bytes before the division (14) pass
/// 2^64 - 1.
pub fn measure(kind: u32, lengths: &[u64]) -> Option<(u64, u64)> {
    let block = block(kind)?;
    let numbers = product(lengths)?;
    Some((numbers, numbers.checked_mul(BYTES[kind as usize])? / block))
}

/// The product of lengths, taken from the left; nothing where it passes 2^64 - 1 (13).
fn product(lengths: &[u64]) -> Option<u64> {
    lengths.iter().try_fold(1u64, |product, length| product.checked_mul(*length))
}

/// The alignment that a value of a type gives under `general.alignment`: an integer above 0 that 8
/// divides, or else 32.
pub fn alignment_of(kind: u64, bits: u64) -> u64 {
    let number = match kind {
        0 => (bits as u8).into(),
        1 => (bits as i8).try_into().unwrap_or(0),
        2 => (bits as u16).into(),
        3 => (bits as i16).try_into().unwrap_or(0),
        4 => (bits as u32).into(),
        5 => (bits as i32).try_into().unwrap_or(0),
        10 => bits,
        11 => (bits as i64).try_into().unwrap_or(0),
        _ => 0,
    };
    if number > 0 && number.is_multiple_of(8) {
        number
    } else {
        32
    }
}

/// The alignment of a header that ends, or goes on, after its entries; nothing where the reading
/// ends before.
pub fn alignment_after_entries(bytes: &[u8]) -> Option<u64> {
    let (mut rest, _, entries) = Rest::of(bytes).ok()?;
    Walk::new().entries(&mut rest, entries).ok()
}

/// The bytes that are not read yet and the place of the first, with the file's byte order and the
/// width of a size. Each method passes what it is named for, or gives the refusal at which the
/// reading ends: a field is missing (1), or it is one that the method names.
#[derive(Clone, Copy)]
struct Rest<'a> {
    bytes: &'a [u8],
    place: u64,
    big: bool,
    size: usize,
}

impl<'a> Rest<'a> {
    /// What comes after the counts of tensors and of entries, and those two (2, 3, 4).
    fn of(bytes: &'a [u8]) -> Step<(Rest<'a>, u64, u64)> {
        let mut rest = Rest { bytes, place: 0, big: false, size: 8 };
        rest.big = match rest.field(4)? {
            b"GGUF" => bytes.starts_with(MAGIC_KEPT),
            b"FUGG" => true,
            b"lmgg" | b"fmgg" | b"tjgg" | b"algg" => return Err((2, 0)),
            _ => return Err((3, 0)),
        };
        match rest.number(4)? {
            1 => rest.size = 4,
            2 | 3 => {}
            _ => return Err((4, 4)),
        }
        let (tensors, entries) = (rest.size()?, rest.size()?);
        Ok((rest, tensors, entries))
    }

    fn field(&mut self, width: usize) -> Step<&'a [u8]> {
        let (field, rest) = self.bytes.split_at_checked(width).ok_or((1, self.place))?;
        self.bytes = rest;
        self.place += width as u64;
        Ok(field)
    }

    fn number(&mut self, width: usize) -> Step<u64> {
        Ok(number_in(self.field(width)?, self.big))
    }

    fn size(&mut self) -> Step<u64> {
        self.number(self.size)
    }

    /// A string of no more than 2^30 bytes (7).
    fn string(&mut self) -> Step<&'a [u8]> {
        let place = self.place;
        match self.size()? {
            length if length > 1 << 30 => Err((7, place)),
            length => self.field(length as usize),
        }
    }

    /// The type of a value or of an item, up to 12 (8).
    fn kind(&mut self) -> Step<u64> {
        let place = self.place;
        match self.number(4)? {
            kind if kind > 12 => Err((8, place)),
            kind => Ok(kind),
        }
    }

    /// A value of a type, or an item of one. If it is an array, so many may stand in one another
    /// from it on.
    fn value(&mut self, kind: u64, deepest: u32) -> Step<Tree> {
        match kind {
            8 => Ok(Tree::Text(self.string()?.to_vec())),
            9 => self.array(deepest),
            _ => {
                let bits = self.number(WIDTHS[kind as usize])?;
                Ok(Tree::Scalar(kind, if kind == 7 { u64::from(bits != 0) } else { bits }))
            }
        }
    }

    /// An array, of which so many may stand in one another (9).
    fn array(&mut self, deepest: u32) -> Step<Tree> {
        let place = self.place;
        let (item, count) = (self.kind()?, self.size()?);
        if item == 9 && count > 0 && deepest == 1 {
            return Err((9, place));
        }
        let items: Step<_> = (0..count).map(|_| self.value(item, deepest - 1)).collect();
        Ok(Tree::Array(item, items?))
    }

    /// What comes next, a value of this type, where it is an array that has arrays as items. Only
    /// its item type and its count are looked at, as by the original, and nothing is passed.
    fn nested(mut self, kind: u64) -> Option<Nested> {
        let place = self.place;
        let (item, count) = (self.kind().ok()?, self.size().ok()?);
        let is_nested = kind == 9 && item == 9 && count > 0;
        is_nested.then_some(Nested { place, count, first: self.place, end: None })
    }

    /// A tensor of up to four dimensions (10): its kind, its lengths, 1 beyond the last, and its
    /// offset.
    fn tensor(&mut self) -> Step<(u32, [u64; 4], u64)> {
        self.string()?;
        let place = self.place;
        let dimensions = self.number(4)?;
        let mut lengths = [1; 4];
        let given = lengths.get_mut(..dimensions as usize).ok_or((10, place))?;
        for length in given {
            *length = self.number(8)?;
        }
        Ok((self.number(4)? as u32, lengths, self.number(8)?))
    }
}

/// The number in a field of up to eight bytes.
pub fn number_in(field: &[u8], big: bool) -> u64 {
    let digit = |value: u64, byte: &u8| value << 8 | u64::from(*byte);
    if big {
        field.iter().fold(0, digit)
    } else {
        field.iter().rev().fold(0, digit)
    }
}
