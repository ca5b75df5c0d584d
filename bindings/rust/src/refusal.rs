//! Refusals: why a header is not read or written, or a trace not replayed, and where the reason
//! stands.

use core::error::Error;
use core::fmt;

/// Why the reader, the range check, the replay or the writer refuses.
///
/// It displays as a short sentence, and [`number`](Reason::number) is its number in the C header and
/// in the project's docs/REFUSALS.md, which says when it is given and what to do about it.
#[derive(Clone, Copy, Debug, PartialEq, Eq, Hash)]
#[non_exhaustive]
pub enum Reason {
    /// 1: a field is not wholly in the prefix; more bytes of the file may change the answer.
    CutOff,
    /// 2: the magic is that of a format before GGUF.
    OlderFormat,
    /// 3: any other magic that is not GGUF's.
    NotGguf,
    /// 4: the version is not 1, 2 or 3, or it is a big-endian 1 or 2 behind the magic
    /// `47 47 55 46`, where only a 3 may be big-endian.
    UnknownVersion,
    /// 5: the version is above [`Options::highest_version`](crate::Options::highest_version).
    VersionAboveCeiling,
    /// 6: there are more tensors, or more entries, than rows were lent.
    TooFewRows,
    /// 7: a string has more than 2^30 bytes.
    StringTooLong,
    /// 8: the type of a value or of an array's items is above 12.
    UnknownType,
    /// 9: arrays stand in one another more than four deep, the outermost counted: the items of a
    /// fourth that is not empty are arrays.
    NestedArray,
    /// 10: a tensor has more than four dimensions.
    TooManyDimensions,
    /// 11: a number names no kind of tensor.
    UnknownKind,
    /// 12: a kind is above [`Options::highest_kind`](crate::Options::highest_kind).
    KindAboveCeiling,
    /// 13: the product of a tensor's lengths is above 2^64 - 1.
    ProductOverflow,
    /// 14: a tensor's size, before it is divided by the numbers of a block, is above 2^64 - 1.
    SizeOverflow,
    /// 15: the products of the tensors so far come to more than 2^64 - 1.
    TotalOverflow,
    /// 16: a tensor's offset is not a multiple of the header's alignment.
    Misaligned,
    /// 17: a tensor's first length (1 where it has no dimensions) is not whole blocks of its kind.
    PartialBlock,
    /// 18: the data would start above 2^64 - 1.
    DataStartOverflow,
    /// 20: the data of a tensor ends after the end of the file.
    PastTheFile,
    /// 30: the version to write is not 1, 2 or 3, or it is 1 or 2 and the byte order is
    /// [`ByteOrder::Big`](crate::ByteOrder::Big), which is there in version 3 only.
    VersionNotWritten,
    /// 31: the sheet is not well formed; among other reasons, because the item type of an array
    /// inside three others is [`Type::Array`](crate::Type::Array), whatever its count.
    BadSheet,
    /// 32: the alignment to write is 0, or not a multiple of 8.
    BadAlignment,
    /// 33: `general.alignment` must be added, and the alignment is above 2^32 - 1.
    AlignmentTooLarge,
    /// 34: the sheet's own `general.alignment` gives a reader another alignment.
    OtherAlignment,
    /// 35: a kind of tensor that is not written.
    KindNotWritten,
    /// 36: a tensor's end, or its padded end, is above 2^64 - 1.
    OffsetOverflow,
    /// 37: version 1 can't count so many tensors or entries.
    CountOverflow,
    /// 38: the output ends before the start of the data.
    OutputTooShort,
    /// 43: a trace does not start with the byte 1, or one of its records is cut or says another
    /// length than 16.
    BadTrace,
    /// 44: what a record of a trace fetches ends above 2^64 - 1.
    TraceOverflow,
    /// 45: there are more tensors than answers were lent for them.
    /// [`Header::replay_fetches`](crate::Header::replay_fetches) lends one for each.
    TooFewAnswers,
    /// A number that this version of the crate does not know.
    Other(u64),
}

/// Each reason with its number and its words. 13, 14, 15 and 17 are both the reader's and the
/// writer's, so their words fit a file that is read and a file that is to be written.
const REASONS: [(Reason, u64, &str); 31] = [
    (Reason::CutOff, 1, "the header does not end inside these bytes: fetch more"),
    (Reason::OlderFormat, 2, "the file has a format that came before GGUF"),
    (Reason::NotGguf, 3, "this is not a GGUF file"),
    (Reason::UnknownVersion, 4, "the version is not 1, 2 or 3"),
    (Reason::VersionAboveCeiling, 5, "the version is above the highest that is accepted"),
    (Reason::TooFewRows, 6, "there are more tensors, or more entries, than rows for them"),
    (Reason::StringTooLong, 7, "a string has more than 2^30 bytes"),
    (Reason::UnknownType, 8, "there is no such type of value"),
    (Reason::NestedArray, 9, "arrays stand in one another more than 4 deep"),
    (Reason::TooManyDimensions, 10, "a tensor has more than 4 dimensions"),
    (Reason::UnknownKind, 11, "there is no such kind of tensor"),
    (Reason::KindAboveCeiling, 12, "the kind of a tensor is above the highest that is accepted"),
    (Reason::ProductOverflow, 13, "the product of the tensor's lengths is above 2^64 - 1"),
    (Reason::SizeOverflow, 14, "the tensor's size is above 2^64 - 1 before its division"),
    (Reason::TotalOverflow, 15, "the tensors up to this one have more than 2^64 - 1 numbers"),
    (Reason::Misaligned, 16, "the tensor's offset is not a multiple of the alignment"),
    (Reason::PartialBlock, 17, "the tensor's first length is not whole blocks of its kind"),
    (Reason::DataStartOverflow, 18, "the data would start above 2^64 - 1"),
    (Reason::PastTheFile, 20, "the tensor's data ends after the end of the file"),
    (Reason::VersionNotWritten, 30, "the version is not 1, 2 or 3, or has no such byte order"),
    (Reason::BadSheet, 31, "the sheet is not well formed"),
    (Reason::BadAlignment, 32, "the alignment is 0 or not a multiple of 8"),
    (Reason::AlignmentTooLarge, 33, "an alignment above 2^32 - 1 can't be added to the header"),
    (Reason::OtherAlignment, 34, "the sheet's general.alignment gives another alignment"),
    (Reason::KindNotWritten, 35, "tensors of this kind are not written"),
    (Reason::OffsetOverflow, 36, "the tensor's data, padded, would end above 2^64 - 1"),
    (Reason::CountOverflow, 37, "version 1 can't count so many tensors or entries"),
    (Reason::OutputTooShort, 38, "the output is too short for the header and its padding"),
    (Reason::BadTrace, 43, "the trace is not well formed"),
    (Reason::TraceOverflow, 44, "a fetch of the trace ends above 2^64 - 1"),
    (Reason::TooFewAnswers, 45, "there are more tensors than answers for them"),
];

impl Reason {
    /// The reason of a refusal's number.
    fn of(number: u64) -> Reason {
        let known = REASONS.iter().find(|(_, listed, _)| *listed == number);
        known.map_or(Reason::Other(number), |(reason, _, _)| *reason)
    }

    /// The refusal's number.
    pub fn number(self) -> u64 {
        match self {
            Reason::Other(number) => number,
            known => known.row().map_or(0, |(_, number, _)| *number),
        }
    }

    /// The row of the table above; nothing for a number that is not in it.
    fn row(self) -> Option<&'static (Reason, u64, &'static str)> {
        REASONS.iter().find(|(reason, _, _)| *reason == self)
    }
}

impl fmt::Display for Reason {
    fn fmt(&self, f: &mut fmt::Formatter<'_>) -> fmt::Result {
        f.write_str(
            self.row().map_or("a reason that this crate does not know", |(_, _, words)| words),
        )
    }
}

/// Where the reason of a refusal stands.
#[derive(Clone, Copy, Debug, PartialEq, Eq, Hash)]
#[non_exhaustive]
pub enum Place {
    /// A byte of the prefix that was read, counted from 0.
    Prefix(u64),
    /// A byte of the sheet that was to be written, counted from 0.
    Sheet(u64),
    /// A byte of the trace that was to be replayed, counted from 0.
    Trace(u64),
    /// A tensor, counted from 0.
    Tensor(u64),
    /// No place: the reason is in the arguments.
    Nowhere,
}

impl fmt::Display for Place {
    fn fmt(&self, f: &mut fmt::Formatter<'_>) -> fmt::Result {
        match self {
            Place::Prefix(byte) => write!(f, "byte {byte}"),
            Place::Sheet(byte) => write!(f, "byte {byte} of the sheet"),
            Place::Trace(byte) => write!(f, "byte {byte} of the trace"),
            Place::Tensor(index) => write!(f, "tensor {index}"),
            Place::Nowhere => f.write_str("no place"),
        }
    }
}

/// A refusal: why the reader, the range check, the replay or the writer gives no answer, and where
/// the reason stands.
///
/// | given by | place |
/// |---|---|
/// | the reader and every question about a prefix | [`Place::Prefix`] |
/// | the range check | [`Place::Tensor`] |
/// | the replay, 43 and 44 | [`Place::Trace`] |
/// | the replay, 45 | [`Place::Nowhere`] |
/// | the writer, 31 | [`Place::Sheet`] |
/// | the writer, 13, 14, 15, 17, 35 and 36 | [`Place::Tensor`] |
/// | the writer, any other | [`Place::Nowhere`] |
///
/// ```
/// use strutpebble::{Place, Reason};
///
/// let refusal = strutpebble::read(b"GGUF").unwrap_err();
/// assert_eq!((refusal.number(), refusal.reason()), (1, Reason::CutOff));
/// assert_eq!(refusal.place(), Place::Prefix(4));
/// assert!(refusal.wants_more());
/// assert_eq!(
///     refusal.to_string(),
///     "refused 1 at byte 4: the header does not end inside these bytes: fetch more"
/// );
/// ```
#[derive(Clone, Copy, Debug, PartialEq, Eq, Hash)]
pub struct Refusal {
    reason: Reason,
    place: Place,
}

impl Refusal {
    /// A refusal of the reader, or of a question about a prefix.
    pub(crate) fn of_reader(number: u64, byte: u64) -> Refusal {
        Refusal { reason: Reason::of(number), place: Place::Prefix(byte) }
    }

    /// A refusal of the range check.
    pub(crate) fn of_range_check(number: u64, tensor: u64) -> Refusal {
        Refusal { reason: Reason::of(number), place: Place::Tensor(tensor) }
    }

    /// A refusal of the replay.
    pub(crate) fn of_replay(number: u64, place: u64) -> Refusal {
        let place = match number {
            45 => Place::Nowhere,
            _ => Place::Trace(place),
        };
        Refusal { reason: Reason::of(number), place }
    }

    /// A refusal of the writer.
    pub(crate) fn of_writer(number: u64, place: u64) -> Refusal {
        let place = match number {
            31 => Place::Sheet(place),
            13..=15 | 17 | 35 | 36 => Place::Tensor(place),
            _ => Place::Nowhere,
        };
        Refusal { reason: Reason::of(number), place }
    }

    /// The refusal's number.
    pub fn number(&self) -> u64 {
        self.reason.number()
    }

    /// Why.
    pub fn reason(&self) -> Reason {
        self.reason
    }

    /// Where.
    pub fn place(&self) -> Place {
        self.place
    }

    /// Whether more bytes of the same file may give another answer. Every other refusal of a prefix
    /// stays, whatever bytes follow.
    pub fn wants_more(&self) -> bool {
        self.reason == Reason::CutOff
    }
}

impl fmt::Display for Refusal {
    fn fmt(&self, f: &mut fmt::Formatter<'_>) -> fmt::Result {
        write!(f, "refused {}", self.number())?;
        if self.place != Place::Nowhere {
            write!(f, " at {}", self.place)?;
        }
        write!(f, ": {}", self.reason)
    }
}

impl Error for Refusal {}

#[cfg(test)]
mod tests {
    use super::*;
    use alloc::collections::BTreeSet;
    use alloc::string::ToString;

    #[test]
    fn every_number_has_its_own_reason_and_words() {
        let numbers = (1..=18).chain([20]).chain(30..=38).chain(43..=45);
        assert!(numbers.eq(REASONS.iter().map(|(_, number, _)| *number)));
        let words: BTreeSet<_> = REASONS.iter().map(|(reason, _, _)| reason.to_string()).collect();
        assert_eq!(words.len(), REASONS.len());
        for (reason, number, _) in REASONS {
            assert_eq!((Reason::of(number), reason.number()), (reason, number));
            assert_eq!(Refusal::of_reader(number, 0).wants_more(), number == 1);
        }
    }

    #[test]
    fn a_number_that_is_not_known() {
        for number in [0, 19, 21, 29, 39, 42, 46, 100, u64::MAX] {
            let refusal = Refusal::of_reader(number, 7);
            assert_eq!((refusal.reason(), refusal.number()), (Reason::Other(number), number));
            assert!(refusal.to_string().contains("does not know"));
        }
    }

    #[test]
    fn what_a_place_counts() {
        for (reason, number, words) in REASONS {
            let wanted = match number {
                31 => (Place::Sheet(5), " at byte 5 of the sheet"),
                13 | 14 | 15 | 17 | 35 | 36 => (Place::Tensor(5), " at tensor 5"),
                _ => (Place::Nowhere, ""),
            };
            let refusal = Refusal::of_writer(number, 5);
            assert_eq!((refusal.reason(), refusal.place()), (reason, wanted.0));
            let text = refusal.to_string();
            assert_eq!(text.strip_prefix("refused ").unwrap().split_once(": ").unwrap().1, words);
            assert!(text.starts_with(&alloc::format!("refused {number}{}:", wanted.1)), "{text}");
            assert_eq!(Refusal::of_reader(number, 5).place(), Place::Prefix(5));
            assert_eq!(Refusal::of_range_check(number, 5).place(), Place::Tensor(5));
            let in_trace = if number == 45 { Place::Nowhere } else { Place::Trace(5) };
            assert_eq!(Refusal::of_replay(number, 5).place(), in_trace);
        }
        let bad = "refused 43 at byte 5 of the trace: the trace is not well formed";
        assert_eq!(Refusal::of_replay(43, 5).to_string(), bad);
        let few = "refused 45: there are more tensors than answers for them";
        assert_eq!(Refusal::of_replay(45, 0).to_string(), few);
    }
}
