//! What the first bytes of a file say: its byte order, its version, and how many records it claims.

/// The order of the bytes of a file's numbers, and whether its magic, the first four bytes of the
/// file, is turned round as they are.
///
/// ```
/// use strutpebble::ByteOrder;
///
/// // An empty header of version 3 in each of them.
/// for (byte_order, front) in [
///     (ByteOrder::Little, b"GGUF\x03\0\0\0"),
///     (ByteOrder::Big, b"GGUF\0\0\0\x03"),
///     (ByteOrder::BigMagic, b"FUGG\0\0\0\x03"),
/// ] {
///     let file = [&front[..], &[0; 16]].concat();
///     assert_eq!(strutpebble::read(&file)?.byte_order(), byte_order);
/// }
/// # Ok::<(), strutpebble::Refusal>(())
/// ```
#[derive(Clone, Copy, Debug, Default, PartialEq, Eq, Hash)]
pub enum ByteOrder {
    /// The lowest byte comes first. The magic is `47 47 55 46`, and the version 1, 2 or 3.
    #[default]
    Little = 0,
    /// The highest byte comes first, but not in the magic, which is `47 47 55 46` as in a
    /// little-endian file. Other tools write big-endian files so. The version is 3: in versions 1
    /// and 2 there is no such file.
    Big = 1,
    /// The highest byte comes first, and the magic is turned round too: it is `46 55 47 47`. The
    /// version is 1, 2 or 3.
    BigMagic = 2,
}

impl ByteOrder {
    /// Whether the highest byte of a number comes first, however the magic stands.
    ///
    /// ```
    /// use strutpebble::ByteOrder;
    ///
    /// assert!(ByteOrder::Big.is_big() && ByteOrder::BigMagic.is_big());
    /// assert!(!ByteOrder::Little.is_big());
    /// ```
    pub const fn is_big(self) -> bool {
        matches!(self, ByteOrder::Big | ByteOrder::BigMagic)
    }

    /// The byte order of a word of the archive's answer. Above 2 there is none.
    pub(crate) fn from_word(word: u64) -> ByteOrder {
        match word {
            0 => ByteOrder::Little,
            1 => ByteOrder::Big,
            2 => ByteOrder::BigMagic,
            _ => unreachable!("no header has a byte order above 2"),
        }
    }

    /// The number by which the archive's writer knows it.
    pub(crate) fn to_number(self) -> u32 {
        self as u32
    }

    /// The number of at most 8 bytes.
    pub(crate) fn number(self, bytes: &[u8]) -> u64 {
        let append = |number: u64, byte: &u8| number << 8 | u64::from(*byte);
        match self {
            ByteOrder::Little => bytes.iter().rev().fold(0, append),
            ByteOrder::Big | ByteOrder::BigMagic => bytes.iter().fold(0, append),
        }
    }
}

/// How a file writes its numbers.
#[derive(Clone, Copy, Debug, PartialEq, Eq)]
pub(crate) struct Dialect {
    pub byte_order: ByteOrder,
    /// The bytes of a size: the count of records or items, or the length of a string.
    pub size_width: usize,
}

impl Dialect {
    pub fn new(byte_order: ByteOrder, version: u64) -> Dialect {
        Dialect { byte_order, size_width: if version == 1 { 4 } else { 8 } }
    }

    /// The dialect of a file, by its magic and its version; nothing where no header starts so.
    pub fn of_front(prefix: &[u8]) -> Option<Dialect> {
        let (magic, version) = prefix.get(..8)?.split_at(4);
        let byte_order = match (magic, version) {
            // Only a 3 is taken for a big-endian number here: a 1 or a 2 stays the number far
            // above 3 that it is in a little-endian file.
            (b"GGUF", [0, 0, 0, 3]) => ByteOrder::Big,
            (b"GGUF", _) => ByteOrder::Little,
            (b"FUGG", _) => ByteOrder::BigMagic,
            _ => return None,
        };
        let version = byte_order.number(version);
        (1..=3).contains(&version).then(|| Dialect::new(byte_order, version))
    }
}

/// How many records a file claims to have.
#[derive(Clone, Copy, Debug, PartialEq, Eq)]
pub(crate) struct Claim {
    pub entries: usize,
    pub tensors: usize,
}

impl Claim {
    /// The counts at the front of a file, where the prefix has room for so many records; nothing
    /// where no header starts so, or where it does not end in this prefix, because so many records
    /// would not fit even if each were as short as a record can be.
    ///
    /// The shortest entry is a key of no bytes (its size), a type (4 bytes) and a value of one
    /// byte; an array has no fewer than its item type and its count. The shortest tensor is a name
    /// of no bytes, a dimension count of 0 (4 bytes), a kind (4) and an offset (8).
    pub fn of_front(prefix: &[u8]) -> Option<Claim> {
        let Dialect { byte_order, size_width } = Dialect::of_front(prefix)?;
        let (counts, records) = prefix.get(8..)?.split_at_checked(2 * size_width)?;
        let (tensors, entries) = counts.split_at(size_width);
        let (tensors, entries) = (byte_order.number(tensors), byte_order.number(entries));
        let size_width = size_width as u64;
        let shortest_entries = entries.checked_mul(size_width + 4 + 1)?;
        let shortest_tensors = tensors.checked_mul(size_width + 4 + 4 + 8)?;
        let shortest = shortest_entries.checked_add(shortest_tensors)?;
        (shortest <= records.len() as u64)
            .then_some(Claim { entries: entries as usize, tensors: tensors as usize })
    }
}

#[cfg(test)]
mod tests {
    use super::ByteOrder::{Big, BigMagic, Little};
    use super::*;
    use alloc::vec::Vec;

    /// Every version and byte order that there is.
    const FORMS: [(u8, ByteOrder); 7] = [
        (1, Little),
        (2, Little),
        (3, Little),
        (3, Big),
        (1, BigMagic),
        (2, BigMagic),
        (3, BigMagic),
    ];

    /// A front that claims so many records, with so many bytes after it.
    fn front(version: u8, order: ByteOrder, tensors: u64, entries: u64, room: usize) -> Vec<u8> {
        let size = if version == 1 { 4 } else { 8 };
        let magic = if order == BigMagic { b"FUGG" } else { b"GGUF" };
        let mut bytes = magic.to_vec();
        for (width, number) in [(4, version.into()), (size, tensors), (size, entries)] {
            match order {
                Little => bytes.extend(&number.to_le_bytes()[..width]),
                Big | BigMagic => bytes.extend(&number.to_be_bytes()[8 - width..]),
            }
        }
        bytes.resize(bytes.len() + room, 0);
        bytes
    }

    #[test]
    fn claims_up_to_the_shortest_records() {
        for (version, order) in FORMS {
            let (entry, tensor) = if version == 1 { (9, 20) } else { (13, 24) };
            for (tensors, entries) in [(0, 0), (1, 0), (0, 1), (300, 0), (0, 300), (70, 65_000)] {
                let room = tensors * tensor + entries * entry;
                let of = |room| {
                    Claim::of_front(&front(version, order, tensors as u64, entries as u64, room))
                };
                assert_eq!(of(room), Some(Claim { entries, tensors }));
                assert_eq!(of(room + 1), Some(Claim { entries, tensors }));
                if room > 0 {
                    assert_eq!(of(room - 1), None);
                }
            }
        }
    }

    #[test]
    fn claims_that_are_too_large() {
        for count in [1 << 32, 1 << 60, u64::MAX / 13, u64::MAX / 24 + 1, u64::MAX] {
            for (version, order) in FORMS.into_iter().filter(|(version, _)| *version > 1) {
                assert_eq!(Claim::of_front(&front(version, order, count, 0, 1000)), None);
                assert_eq!(Claim::of_front(&front(version, order, 0, count, 1000)), None);
                assert_eq!(Claim::of_front(&front(version, order, count, count, 1000)), None);
            }
        }
        for order in [Little, BigMagic] {
            let most = u32::MAX.into();
            assert_eq!(Claim::of_front(&front(1, order, most, most, 1000)), None);
        }
        // Each of the two would fit, and both together do not.
        assert_eq!(Claim::of_front(&front(3, Little, 1, 1, 36)), None);
        assert_eq!(Claim::of_front(&front(3, Big, 1, 1, 36)), None);
    }

    #[test]
    fn fronts_of_no_header() {
        assert_eq!(Dialect::of_front(b"GGUF\x03\0\0"), None);
        assert_eq!(Dialect::of_front(b"GGUF\0\0\0"), None);
        assert_eq!(Dialect::of_front(b"GGUG\x03\0\0\0"), None);
        assert_eq!(Dialect::of_front(b"FUGG\x03\0\0\0"), None);
        for version in [0, 4, 255] {
            for order in [Little, Big, BigMagic] {
                assert_eq!(Dialect::of_front(&front(version, order, 0, 0, 0)), None);
            }
        }
        for (version, order) in FORMS {
            let whole = front(version, order, 0, 0, 0);
            assert!(Claim::of_front(&whole).is_some());
            for end in 0..whole.len() {
                assert_eq!(Claim::of_front(&whole[..end]), None, "{whole:?}, {end} bytes");
            }
        }
    }

    #[test]
    fn big_endian_behind_gguf_in_version_3_alone() {
        for start in [b"GGUF\0\0\0\x01", b"GGUF\0\0\0\x02"] {
            let bytes = [&start[..], &[0; 16]].concat();
            assert_eq!(Dialect::of_front(&bytes), None);
            assert_eq!(Claim::of_front(&bytes), None);
        }
        // All four bytes of the version count.
        for version in [[3, 0, 0, 3], [0, 3, 0, 3], [0, 0, 3, 3], [0, 0, 3, 0], [0, 3, 0, 0]] {
            assert_eq!(Dialect::of_front(&[&b"GGUF"[..], &version].concat()), None);
        }
    }

    #[test]
    fn dialects() {
        for (version, byte_order) in FORMS {
            let size_width = if version == 1 { 4 } else { 8 };
            let found = Dialect::of_front(&front(version, byte_order, 0, 0, 0));
            assert_eq!(found, Some(Dialect { byte_order, size_width }));
        }
        // In bytes, what stands behind each magic.
        for (start, byte_order) in
            [(b"GGUF\x03\0\0\0", Little), (b"GGUF\0\0\0\x03", Big), (b"FUGG\0\0\0\x03", BigMagic)]
        {
            assert_eq!(Dialect::of_front(start), Some(Dialect { byte_order, size_width: 8 }));
        }
    }

    #[test]
    fn numbers_of_byte_orders() {
        for (word, order) in [(0, Little), (1, Big), (2, BigMagic)] {
            assert_eq!(ByteOrder::from_word(word), order);
            assert_eq!(u64::from(order.to_number()), word);
            assert_eq!(order.is_big(), word > 0);
        }
        assert_eq!(ByteOrder::default(), Little);
    }

    #[test]
    fn numbers_in_byte_orders() {
        for (order, number) in [(Little, 0x03_02_01), (Big, 0x01_02_03), (BigMagic, 0x01_02_03)] {
            assert_eq!(order.number(&[1, 2, 3]), number);
            assert_eq!(order.number(&[0xff; 8]), u64::MAX);
            assert_eq!(order.number(&[]), 0);
        }
    }
}
