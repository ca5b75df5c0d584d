//! Every refusal that a small file reaches, with its number and its place.
//!
//! In version 3 the first record starts at 24. An entry with a key of one byte has its type at 33;
//! a tensor with a name of one byte and one length has its dimension count at 33, its kind at 45
//! and its offset at 49, and ends at 57.

mod made;

use made::{
    a_and_b, a_and_b_at, made, number_and_byte, shortest, Made, BLOCKS, DIALECTS, NO_BYTES,
};
use strutpebble::ByteOrder::{self, Big, BigMagic, Little};
use strutpebble::{
    file_type, find, find_string, measure, model_family, read, Options, Reason, StringError,
};

/// The refusal of the reader with default options, which every question gives too.
fn refused(file: &[u8]) -> (u64, u64) {
    let refusal = read(file).unwrap_err();
    assert_eq!(measure(file), Err(refusal));
    assert_eq!(find(file, "k"), Err(refusal));
    assert_eq!(find_string(file, "k"), Err(StringError::Refused(refusal)));
    assert_eq!(model_family(file), Err(StringError::Refused(refusal)));
    assert_eq!(file_type(file), Err(refusal));
    number_and_byte(refusal)
}

#[test]
fn cut_off_1() {
    assert_eq!(refused(b""), (1, 0));
    assert_eq!(refused(b"XYZ"), (1, 0));
    assert_eq!(refused(b"GGUF\x03\0\0"), (1, 4));
    assert_eq!(refused(&made(3, Little, 0, 1).bytes), (1, 24));
    // A string of 2^30 bytes may be there, and is not in this prefix.
    assert_eq!(refused(&made(3, Little, 0, 1).size(1 << 30).bytes), (1, 32));
    // An item that is missing is refused at its own start: items of two bytes from 49 on, the last
    // of three cut in half.
    assert_eq!(
        refused(
            &made(3, Little, 0, 1).array("k", 2, 3).number(2, 1).number(2, 2).number(1, 3).bytes
        ),
        (1, 53)
    );
}

#[test]
fn magics_2_and_3() {
    for older in [0x6767_6d6cu32, 0x6767_6d66, 0x6767_6a74, 0x6767_6c61] {
        assert_eq!(refused(&older.to_le_bytes()), (2, 0));
        assert_eq!(refused(&older.to_be_bytes()), (3, 0));
    }
    assert_eq!(refused(b"ABCD"), (3, 0));
    assert_eq!(refused(b"GGUG\x03\0\0\0"), (3, 0));
}

#[test]
fn versions_4_and_5() {
    assert_eq!(refused(b"GGUF\0\0\0\0"), (4, 4));
    assert_eq!(refused(b"GGUF\x04\0\0\0"), (4, 4));
    // The bytes of version 3 in the other order.
    assert_eq!(refused(b"FUGG\x03\0\0\0"), (4, 4));
    for order in [Little, Big, BigMagic] {
        let file = a_and_b(3, order);
        for version in [0, 1, 2] {
            let answer = Options::new().highest_version(version).read(&file);
            assert_eq!(number_and_byte(answer.unwrap_err()), (5, 4), "{order:?}, {version}");
        }
        assert!(Options::new().highest_version(3).read(&file).is_ok());
        assert!(Options::new().highest_version(9).read(&file).is_ok());
    }
    assert!(Options::new().highest_version(2).read(&a_and_b(2, Little)).is_ok());
    assert!(Options::new().highest_version(2).read(&a_and_b(2, BigMagic)).is_ok());
}

#[test]
fn big_endian_versions_4() {
    // Behind this magic a 3 alone may be big-endian, whatever follows.
    for front in [
        b"GGUF\0\0\0\0",
        b"GGUF\0\0\0\x01",
        b"GGUF\0\0\0\x02",
        b"GGUF\0\0\0\x04",
        b"GGUF\x03\0\0\x03",
        b"GGUF\0\x03\0\0",
        b"GGUF\0\0\x03\0",
    ] {
        assert_eq!(refused(front), (4, 4));
        let longer = [&front[..], &[0; 16]].concat();
        assert_eq!(refused(&longer), (4, 4));
        // No ceiling matters.
        for version in [0, 2, 9] {
            let answer = Options::new().highest_version(version).read(&longer);
            assert_eq!(number_and_byte(answer.unwrap_err()), (4, 4));
        }
    }
    for version in [1, 2] {
        assert_eq!(refused(&a_and_b(version, Big)), (4, 4));
        assert!(read(&a_and_b(version, BigMagic)).is_ok());
    }
    let refusal = read(b"GGUF\0\0\0\x02").unwrap_err();
    assert_eq!(refusal.reason(), Reason::UnknownVersion);
    assert_eq!(refusal.to_string(), "refused 4 at byte 4: the version is not 1, 2 or 3");
}

#[test]
fn too_few_rows_6() {
    for (version, entries_at) in [(1, 12), (3, 16)] {
        let file = made(version, Little, 1, 1)
            .key("k", 0)
            .number(1, 5)
            .tensor("t", &[], 0, 0)
            .bytes
            .clone();
        let mut entries = [[7; 7]; 1];
        let mut tensors = [[7; 10]; 1];
        let options = Options::new();
        let refusal = options.read_rows(&file, &mut entries, &mut []).unwrap_err();
        assert_eq!(number_and_byte(refusal), (6, 8));
        let refusal = options.read_rows(&file, &mut [], &mut tensors).unwrap_err();
        assert_eq!(number_and_byte(refusal), (6, entries_at));
        let refusal = options.read_rows(&file, &mut [], &mut []).unwrap_err();
        assert_eq!(number_and_byte(refusal), (6, 8));
        assert_eq!((entries, tensors), ([[7; 7]], [[7; 10]]));
        assert!(options.read_rows(&file, &mut entries, &mut tensors).is_ok());
        // The crate's own rows are always enough.
        assert!(read(&file).is_ok());
    }
}

#[test]
fn a_refusal_leaves_the_rows() {
    // A good entry, and a tensor of a kind that there is not, or of a part of a block, or at an
    // offset that is not aligned.
    for (kind, offset, wanted) in [(40, 0, (11, 51)), (2, 0, (17, 38)), (0, 33, (16, 55))] {
        let mut file = made(3, Little, 1, 1);
        file.key("k", 0).number(1, 5).tensor("t", &[], kind, offset);
        let mut entries = [[7; 7]; 3];
        let mut tensors = [[7; 10]; 3];
        let refusal =
            Options::new().read_rows(&file.bytes, &mut entries, &mut tensors).unwrap_err();
        assert_eq!(number_and_byte(refusal), wanted);
        assert_eq!((entries, tensors), ([[7; 7]; 3], [[7; 10]; 3]));
    }
}

#[test]
fn long_strings_7() {
    assert_eq!(refused(&made(3, Little, 0, 1).size((1 << 30) + 1).bytes), (7, 24));
    assert_eq!(refused(&made(1, Little, 0, 1).size((1 << 30) + 1).bytes), (7, 16));
    assert_eq!(refused(&made(3, Big, 0, 1).size(u64::MAX).bytes), (7, 24));
    assert_eq!(refused(&made(3, BigMagic, 0, 1).size(u64::MAX).bytes), (7, 24));
    assert_eq!(refused(&made(3, Little, 0, 1).key("k", 8).size(u64::MAX).bytes), (7, 37));
    assert_eq!(refused(&made(3, Little, 1, 0).size((1 << 30) + 1).bytes), (7, 24));
}

#[test]
fn types_8() {
    assert_eq!(refused(&made(3, Little, 0, 1).key("k", 13).bytes), (8, 33));
    assert_eq!(refused(&made(3, Little, 0, 1).array("k", 13, 0).bytes), (8, 37));
    assert_eq!(refused(&made(3, Little, 0, 1).key("k", 9).number(4, 13).bytes), (8, 37));
}

/// An array in three others, in a header of one entry: its item type, its count, and nothing more.
/// In version 3 the item types of the four are at 37, 49, 61 and 73, and in version 1 at 25, 33, 41
/// and 49.
fn fourth(version: u32, order: ByteOrder, item_type: u64, count: u64) -> Vec<u8> {
    let mut file = made(version, order, 0, 1);
    file.array("k", 9, 1).inner(9, 1).inner(9, 1).inner(item_type, count).bytes.clone()
}

#[test]
fn arrays_too_deep_9() {
    for (version, order) in DIALECTS {
        let (place, most) = if version == 1 { (49, u32::MAX.into()) } else { (73, u64::MAX) };
        for count in [1, 2, most] {
            let file = fourth(version, order, 9, count);
            assert_eq!(refused(&file), (9, place));
            assert_eq!(refused(&[&file[..], &[0; 100]].concat()), (9, place));
            // The count has to be there.
            for end in 0..file.len() {
                assert_eq!(refused(&file[..end]).0, 1, "{end} bytes");
            }
        }
        assert!(read(&fourth(version, order, 9, 0)).is_ok());
        assert!(read(&fourth(version, order, 0, 0)).is_ok());
    }
    let refusal = read(&fourth(3, Little, 9, 1)).unwrap_err();
    assert_eq!(refusal.reason(), Reason::NestedArray);
    let words = "refused 9 at byte 73: arrays stand in one another more than 4 deep";
    assert_eq!((refusal.to_string().as_str(), refusal.wants_more()), (words, false));
}

#[test]
fn arrays_not_too_deep() {
    // Arrays of arrays, of which the first is not there.
    assert_eq!(refused(&made(3, Little, 0, 1).array("k", 9, 1).bytes), (1, 49));
    assert_eq!(refused(&made(3, Little, 0, 1).array("k", 9, 1).inner(9, 1).bytes), (1, 61));
    let mut file = made(3, Little, 0, 1);
    assert_eq!(refused(&file.array("k", 9, 1).inner(9, 1).inner(9, 1).bytes), (1, 73));
    assert!(read(&made(3, Little, 0, 1).array("k", 9, 0).bytes).is_ok());
    assert!(read(&made(3, Little, 0, 1).array("k", 9, 1).inner(9, 0).bytes).is_ok());
    // After a fourth array that is good, the next fourth is refused, also in the next second.
    let mut file = made(3, Little, 0, 1);
    file.array("k", 9, 1).inner(9, 1).inner(9, 2).inner(9, 0).inner(9, 1);
    assert_eq!(refused(&file.bytes), (9, 85));
    let mut file = made(3, Little, 0, 1);
    file.array("k", 9, 2).inner(9, 1).inner(9, 1).inner(0, 1).number(1, 5);
    assert!(read(&file.clone().inner(9, 1).inner(9, 1).inner(9, 0).bytes).is_ok());
    assert_eq!(refused(&file.inner(9, 1).inner(9, 1).inner(9, 1).bytes), (9, 110));
}

#[test]
fn cut_off_inside_arrays_1() {
    // A third array with two items of two bytes. Where each field starts, and where the last ends.
    let fields = [37, 41, 49, 53, 61, 65, 73, 75, 77];
    for order in [Little, Big, BigMagic] {
        let mut file = made(3, order, 0, 1);
        file.array("k", 9, 1).inner(9, 1).inner(2, 2).number(2, 1).number(2, 2);
        assert_eq!(file.bytes.len(), 77);
        assert!(read(&file.bytes).is_ok());
        for pair in fields.windows(2) {
            for end in pair[0]..pair[1] {
                assert_eq!(refused(&file.bytes[..end]), (1, pair[0] as u64), "{end} bytes");
            }
        }
    }
    // The text of a string, in version 1: its size is at 49, and two of its three bytes are there.
    let mut file = made(1, BigMagic, 0, 1);
    file.array("k", 9, 1).inner(9, 1).inner(8, 1).text("abc");
    assert!(read(&file.bytes).is_ok());
    assert_eq!(refused(&file.bytes[..55]), (1, 53));
    // Counts that are made up, of which one has a length of 2^64 in bytes.
    for count in [1, 1 << 61, u64::MAX] {
        assert_eq!(refused(&fourth(3, Little, 10, count)), (1, 85));
        assert_eq!(refused(&fourth(3, Big, 8, count)), (1, 85));
    }
    assert_eq!(refused(&made(3, Little, 0, 1).array("k", 9, u64::MAX).inner(9, 0).bytes), (1, 61));
}

/// The types of scalars with the bytes of one, each with up to 17 bytes of items.
fn scalars_and_bytes() -> impl Iterator<Item = (u64, u64, u64)> {
    let widths = [1, 1, 2, 2, 4, 4, 4, 1, 0, 0, 8, 8, 8];
    let scalars = (0..).zip(widths).filter(|(_, width)| *width > 0);
    scalars.flat_map(|(item_type, width)| (0..18).map(move |bytes| (item_type, width, bytes)))
}

/// Counts above the items that are there: one more; those whose product with the width is, in 64
/// bits, the largest, none, or what is there; and the greatest.
fn counts_above(there: u64, width: u64) -> Vec<u64> {
    let largest = u64::MAX / width;
    let mut counts = vec![there + 1, largest, (1 << 61) - 1, 1 << 61, (1 << 61) + there, u64::MAX];
    counts.extend(largest.checked_add(1));
    counts.extend(largest.checked_add(1 + there));
    counts
}

/// Whether the file, which ends in an array's count, is refused at the first item that is missing
/// where so many bytes of items of a width follow.
fn stops_at_the_missing_item(mut file: Vec<u8>, width: u64, bytes: u64) -> bool {
    let missing = file.len() as u64 + bytes / width * width;
    file.resize(file.len() + bytes as usize, 1);
    refused(&file) == (1, missing)
}

#[test]
fn arrays_too_long_1() {
    for (version, order) in DIALECTS {
        let most = if version == 1 { u32::MAX.into() } else { u64::MAX };
        for (item_type, width, bytes) in scalars_and_bytes() {
            for count in counts_above(bytes / width, width).into_iter().filter(|n| *n <= most) {
                let said = format!("{bytes} bytes, {count} of {item_type}, version {version}");
                let alone = made(version, order, 0, 1).array("k", item_type, count).bytes.clone();
                assert!(stops_at_the_missing_item(alone, width, bytes), "{said}");
                let inside = fourth(version, order, item_type, count);
                assert!(stops_at_the_missing_item(inside, width, bytes), "{said}");
            }
        }
    }
}

#[test]
fn types_and_strings_inside_arrays_7_and_8() {
    assert_eq!(refused(&made(3, Little, 0, 1).array("k", 9, 1).inner(13, 0).bytes), (8, 49));
    assert_eq!(refused(&made(3, Little, 0, 1).array("k", 9, 1).number(4, 13).bytes), (8, 49));
    assert_eq!(refused(&fourth(3, Big, 13, 0)), (8, 73));
    assert_eq!(refused(&fourth(1, BigMagic, 13, 1)), (8, 49));
    for size in [(1 << 30) + 1, u64::MAX] {
        let mut file = made(3, Little, 0, 1);
        file.array("k", 9, 1).inner(8, 2).text("a").size(size);
        assert_eq!(refused(&file.bytes), (7, 70));
    }
    // Under a tokenizer's key, in an array after those that are kept. The first inner array is at
    // 63, and each of the four before it has 13 bytes.
    let mut file = made(3, Little, 0, 1);
    file.array("tokenizer.lists", 9, 5);
    for item in 0..4 {
        file.inner(0, 1).number(1, item);
    }
    assert_eq!(refused(&file.inner(13, 1).bytes), (8, 115));
}

#[test]
fn dimensions_10() {
    assert_eq!(refused(&made(3, Little, 1, 0).text("t").number(4, 5).bytes), (10, 33));
    assert!(read(&made(3, Little, 1, 0).tensor("t", &[1, 2, 3, 4], 0, 0).bytes).is_ok());
}

#[test]
fn kinds_11_and_12() {
    for kind in [4, 5, 40, 41, u32::MAX.into()] {
        assert_eq!(refused(&made(3, Little, 1, 0).tensor("t", &[1], kind, 0).bytes), (11, 45));
    }
    let file = made(3, Little, 1, 0).tensor("t", &[32], 39, 0).bytes.clone();
    assert_eq!(number_and_byte(Options::new().highest_kind(38).read(&file).unwrap_err()), (12, 45));
    assert!(Options::new().highest_kind(39).read(&file).is_ok());
    // No ceiling makes a kind of 40.
    let file = made(3, Little, 1, 0).tensor("t", &[1], 40, 0).bytes.clone();
    assert_eq!(
        number_and_byte(Options::new().highest_kind(100).read(&file).unwrap_err()),
        (11, 45)
    );
}

#[test]
fn products_and_sizes_13_14_15() {
    assert_eq!(
        refused(&made(3, Little, 1, 0).tensor("t", &[1 << 32, 1 << 32, 0], 0, 0).bytes),
        (13, 24)
    );
    assert_eq!(refused(&made(3, Little, 1, 0).tensor("t", &[1 << 62], 0, 0).bytes), (14, 24));
    // Kind 24 has one byte for each of its numbers: only the total is too great, at the second
    // tensor.
    let half = 1 << 63;
    assert_eq!(
        refused(
            &made(3, Little, 2, 0).tensor("s", &[half], 24, 0).tensor("t", &[half], 24, 0).bytes
        ),
        (15, 57)
    );
    assert!(read(
        &made(3, Little, 2, 0).tensor("s", &[half], 24, 0).tensor("t", &[half - 1], 24, 0).bytes
    )
    .is_ok());
}

/// The refusal of a header whose one tensor has this kind and these lengths.
fn refused_tensor(kind: u64, lengths: &[u64]) -> (u64, u64) {
    refused(&made(3, Little, 1, 0).tensor("t", lengths, kind, 0).bytes)
}

#[test]
fn partial_blocks_17() {
    for (kind, numbers, _) in BLOCKS.into_iter().filter(|(_, numbers, _)| *numbers > 1) {
        for length in [1, numbers - 1, numbers + 1, u64::MAX] {
            assert_eq!(refused_tensor(kind, &[length]), (17, 24), "kind {kind}, length {length}");
        }
        // The first length decides, also where the product is whole blocks, or 0.
        assert_eq!(refused_tensor(kind, &[numbers / 2, 2]), (17, 24), "kind {kind}");
        assert_eq!(refused_tensor(kind, &[1, 0]), (17, 24), "kind {kind}");
        // Without dimensions there is one number.
        assert_eq!(refused_tensor(kind, &[]), (17, 24), "kind {kind}");
    }
    let refusal = read(&made(3, Little, 1, 0).tensor("t", &[33], 2, 0).bytes).unwrap_err();
    assert_eq!(refusal.reason(), Reason::PartialBlock);
    let words = "refused 17 at byte 24: the tensor's first length is not whole blocks of its kind";
    assert_eq!((refusal.to_string().as_str(), refusal.wants_more()), (words, false));
    // In version 1 the first record starts at 16. The second tensor starts 29 bytes on.
    let mut file = made(1, BigMagic, 2, 0);
    file.tensor("s", &[64], 2, 0).tensor("t", &[65], 2, 64);
    assert_eq!(refused(&file.bytes), (17, 45));
}

#[test]
fn a_partial_block_beside_other_reasons() {
    // After 11 and 12.
    assert_eq!(refused_tensor(40, &[33]), (11, 45));
    let file = made(3, Little, 1, 0).tensor("t", &[33], 2, 0).bytes.clone();
    assert_eq!(number_and_byte(Options::new().highest_kind(1).read(&file).unwrap_err()), (12, 45));
    // Before 13, 14 and 15.
    assert_eq!(refused_tensor(2, &[33, 1 << 32, 1 << 32]), (17, 24));
    assert_eq!(refused_tensor(2, &[32, 1 << 32, 1 << 32]), (13, 24));
    assert_eq!(refused_tensor(2, &[(1 << 63) + 1]), (17, 24));
    assert_eq!(refused_tensor(2, &[1 << 63]), (14, 24));
    for (length, wanted) in [(33, 17), (32, 15)] {
        let mut file = made(3, Little, 2, 0);
        file.tensor("s", &[u64::MAX], 24, 0).tensor("t", &[length], 2, 0);
        assert_eq!(refused(&file.bytes), (wanted, 57));
    }
    // A kind without bytes is tested for the others alone.
    for kind in NO_BYTES {
        assert_eq!(refused_tensor(kind, &[33, 1 << 32, 1 << 32]), (13, 24));
    }
    // The record has to be there, and the next one need not be.
    let file = made(3, Little, 2, 0).tensor("t", &[33], 2, 0).bytes.clone();
    assert_eq!(refused(&file[..56]), (1, 49));
    assert_eq!(refused(&file), (17, 24));
}

#[test]
fn misaligned_offsets_16() {
    // In version 1 the first record starts at 16, and a record has 29 bytes.
    for (version, order) in DIALECTS {
        let (offset_of_a, offset_of_b) = if version == 1 { (37, 66) } else { (49, 82) };
        for bad in [1, 8, 16, 31, 33, 48, (1 << 32) + 16, (1 << 56) - 1, u64::MAX] {
            assert_eq!(refused(&a_and_b_at(version, order, 0, bad)), (16, offset_of_b));
            assert_eq!(refused(&a_and_b_at(version, order, bad, 0)), (16, offset_of_a));
            // The first of two decides.
            assert_eq!(refused(&a_and_b_at(version, order, bad, bad)), (16, offset_of_a));
        }
        for good in [0, 32, 96, 1 << 56, u64::MAX - 31] {
            assert!(read(&a_and_b_at(version, order, good, good)).is_ok(), "offset {good}");
        }
    }
    let refusal = read(&a_and_b_at(3, Little, 0, 33)).unwrap_err();
    assert_eq!(refusal.reason(), Reason::Misaligned);
    let words = "refused 16 at byte 82: the tensor's offset is not a multiple of the alignment";
    assert_eq!((refusal.to_string().as_str(), refusal.wants_more()), (words, false));
    // Tensors of size 0 are no exception.
    for (kind, length) in NO_BYTES.map(|kind| (kind, 33)).into_iter().chain([(0, 0), (2, 0)]) {
        let mut file = made(3, Little, 1, 0);
        assert_eq!(refused(&file.tensor("t", &[length], kind, 33).bytes), (16, 49), "kind {kind}");
    }
}

/// Whether a header's last tensor, which this adds, is refused for its offset and at it.
fn is_misaligned(mut file: Made, offset: u64) -> bool {
    let place = file.tensor("t", &[1], 0, offset).bytes.len() as u64 - 8;
    let is_refused = read(&file.bytes).is_err();
    assert!(!is_refused || refused(&file.bytes) == (16, place));
    is_refused
}

#[test]
fn the_alignment_of_the_whole_header_decides() {
    // The last of equal keys decides; what is unusable means 32.
    for (values, bad, good) in [
        (&[][..], 16, 32),
        (&[64], 32, 64),
        (&[8, 64], 8, 64),
        (&[64, 8], 12, 8),
        (&[64, 12], 16, 32),
        (&[8, 0], 8, 32),
        (&[24], 32, 120),
        (&[1 << 20], 1 << 19, 3 << 20),
    ] {
        for (offset, wanted) in [(bad, true), (good, false), (0, false)] {
            let mut file = made(3, Little, 1, values.len() as u64);
            for value in values {
                file.key("general.alignment", 4).number(4, *value);
            }
            assert_eq!(is_misaligned(file, offset), wanted, "{values:?}, offset {offset}");
        }
    }
    // The greatest alignment that there is leaves two offsets.
    let greatest = u64::MAX - 7;
    for (offset, wanted) in
        [(0, false), (8, true), (1 << 63, true), (greatest - 8, true), (greatest, false)]
    {
        let mut file = made(3, Little, 1, 1);
        file.key("general.alignment", 10).number(8, greatest);
        assert_eq!(is_misaligned(file, offset), wanted, "offset {offset}");
    }
}

/// The front of a header of two tensors, up to the end of the first, which is misaligned.
fn misaligned_first() -> Made {
    let mut file = made(3, Little, 2, 0);
    file.tensor("a", &[5], 0, 33);
    file
}

#[test]
fn a_misaligned_offset_after_all_other_reasons() {
    assert_eq!(refused(&misaligned_first().size(u64::MAX).bytes), (7, 57));
    assert_eq!(refused(&misaligned_first().text("b").number(4, 5).bytes), (10, 66));
    for (kind, lengths, wanted) in [
        (40, &[3][..], (11, 78)),
        (2, &[33], (17, 57)),
        (0, &[1 << 32, 1 << 32], (13, 57)),
        (0, &[1 << 62], (14, 57)),
        (24, &[u64::MAX], (15, 57)),
        (0, &[3], (16, 49)),
    ] {
        assert_eq!(refused(&misaligned_first().tensor("b", lengths, kind, 32).bytes), wanted);
    }
    // In one tensor too.
    assert_eq!(refused(&made(3, Little, 1, 0).tensor("t", &[1], 40, 33).bytes), (11, 45));
    let file = a_and_b_at(3, Little, 33, 32);
    assert_eq!(number_and_byte(Options::new().highest_kind(0).read(&file).unwrap_err()), (12, 78));
    let answer = Options::new().read_rows(&file, &mut [], &mut [[7; 10]]);
    assert_eq!(number_and_byte(answer.unwrap_err()), (6, 8));
    // The header has to be there to its last byte.
    for end in 0..file.len() {
        assert_eq!(refused(&file[..end]).0, 1, "{end} bytes");
    }
    assert_eq!(refused(&file), (16, 49));
}

#[test]
fn a_misaligned_offset_leaves_the_rows() {
    // Up to 64 entries are kept while the header is tested, and more are passed again.
    for count in [0, 1, 64, 65, 100] {
        for (version, order) in [(1, BigMagic), (3, Little), (3, Big)] {
            let mut file = shortest(version, order, 3, count);
            let offset = file.len() - 8;
            file[offset + if order.is_big() { 7 } else { 0 }] = 33;
            let mut entries = vec![[7; 7]; 100];
            let mut tensors = [[7; 10]; 5];
            let refusal = Options::new().read_rows(&file, &mut entries, &mut tensors).unwrap_err();
            assert_eq!(number_and_byte(refusal), (16, offset as u64));
            assert_eq!((entries, tensors), (vec![[7; 7]; 100], [[7; 10]; 5]));
        }
    }
}

#[test]
fn counts_that_are_made_up() {
    // No table of 2^64 - 1 rows is asked for: the first record that is not there refuses.
    for (tensors, entries) in [(u64::MAX, 0), (0, u64::MAX), (u64::MAX, u64::MAX)] {
        assert_eq!(refused(&made(3, Little, tensors, entries).bytes), (1, 24));
    }
    assert_eq!(refused(&made(3, Big, u64::MAX, u64::MAX).bytes), (1, 24));
    assert_eq!(refused(&made(1, BigMagic, u32::MAX.into(), u32::MAX.into()).bytes), (1, 16));
    // A record that is there and is bad refuses as ever.
    assert_eq!(refused(&made(3, Little, 0, u64::MAX).key("k", 13).bytes), (8, 33));
    assert_eq!(refused(&made(3, Little, u64::MAX, 0).tensor("t", &[1], 40, 0).bytes), (11, 45));
    // So does a count of items.
    assert_eq!(refused(&made(3, Little, 0, 1).array("k", 0, u64::MAX).number(1, 1).bytes), (1, 50));
}

#[test]
fn errors_of_questions_name_their_source() {
    let cut_off = read(&made(3, Little, 0, 1).bytes).unwrap_err();
    let words = "refused 1 at byte 24: the header does not end inside these bytes: fetch more";
    assert_eq!((cut_off.to_string().as_str(), cut_off.wants_more()), (words, true));
    let error: Box<dyn std::error::Error> = Box::new(StringError::from(cut_off));
    assert_eq!(error.to_string(), "the header was refused");
    assert_eq!(error.source().unwrap().to_string(), words);
    let absent: &dyn std::error::Error = &StringError::Absent;
    assert_eq!(
        (absent.to_string().as_str(), absent.source().is_none()),
        ("no entry has this key", true)
    );
    let no_gguf = read(b"ABCDEFGH").unwrap_err();
    assert_eq!((no_gguf.reason(), no_gguf.wants_more()), (Reason::NotGguf, false));
}
