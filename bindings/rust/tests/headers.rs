//! Whole headers: what they say of themselves, their tensors, and which bytes of the file hold
//! them.

mod made;

use made::{a_and_b, made, BLOCKS, DIALECTS, NO_BYTES};
use strutpebble::ByteOrder::{Big, BigMagic, Little};
use strutpebble::{measure, read, Header, Kind, Options, Place, RangeError, Reason, Summary};

/// The tensors a and b in version 3, byte by byte.
#[rustfmt::skip]
const A_AND_B: [u8; 90] = [
    0x47, 0x47, 0x55, 0x46, 3, 0, 0, 0,
    2, 0, 0, 0, 0, 0, 0, 0,   0, 0, 0, 0, 0, 0, 0, 0,
    1, 0, 0, 0, 0, 0, 0, 0,   b'a',   1, 0, 0, 0,   5, 0, 0, 0, 0, 0, 0, 0,
    0, 0, 0, 0,    0, 0, 0, 0, 0, 0, 0, 0,
    1, 0, 0, 0, 0, 0, 0, 0,   b'b',   1, 0, 0, 0,   3, 0, 0, 0, 0, 0, 0, 0,
    1, 0, 0, 0,   32, 0, 0, 0, 0, 0, 0, 0,
];

#[test]
fn an_empty_header() {
    let v3 = b"GGUF\x03\0\0\0\0\0\0\0\0\0\0\0\0\0\0\0\0\0\0\0";
    let header = read(v3).unwrap();
    assert_eq!(
        (header.version(), header.header_end(), header.data_start(), header.alignment()),
        (3, 24, 32, 32)
    );
    assert_eq!((header.entries().len(), header.tensors().len()), (0, 0));
    assert_eq!(header.check_ranges(0), Ok(()));

    let v1 = b"GGUF\x01\0\0\0\0\0\0\0\0\0\0\0";
    let header = read(v1).unwrap();
    assert_eq!((header.version(), header.header_end(), header.data_start()), (1, 16, 32));
}

#[test]
fn an_empty_big_endian_header() {
    let front: [u8; 8] = [0x47, 0x47, 0x55, 0x46, 0, 0, 0, 3];
    let file = [&front[..], &[0; 16]].concat();
    assert_eq!(made(3, Big, 0, 0).bytes, file);
    let header = read(&file).unwrap();
    let said = Summary {
        version: 3,
        byte_order: Big,
        entries: 0,
        tensors: 0,
        alignment: 32,
        header_end: 24,
        data_start: 32,
    };
    assert_eq!((header.summary(), measure(&file)), (said, Ok(said)));
    assert_eq!((header.entries().len(), header.tensors().len()), (0, 0));
    assert_eq!(header.check_ranges(0), Ok(()));
}

#[test]
fn a_and_b_in_version_3() {
    let header = read(&A_AND_B).unwrap();
    let said = Summary {
        version: 3,
        byte_order: Little,
        entries: 0,
        tensors: 2,
        alignment: 32,
        header_end: 90,
        data_start: 96,
    };
    assert_eq!(header.summary(), said);
    assert_eq!(measure(&A_AND_B), Ok(said));

    let tensors: Vec<_> = header.tensors().collect();
    assert_eq!(tensors.len(), 2);
    let (a, b) = (tensors[0], tensors[1]);
    assert_eq!(
        (a.name(), a.kind(), a.lengths(), a.offset(), a.size()),
        (&b"a"[..], Kind::F32, &[5][..], 0, 20)
    );
    assert_eq!(
        (b.name(), b.kind(), b.lengths(), b.offset(), b.size()),
        (&b"b"[..], Kind::F16, &[3][..], 32, 6)
    );
    assert_eq!(a.shape(), [5, 1, 1, 1]);
    assert_eq!(header.tensors().next_back(), Some(b));
}

#[test]
fn a_and_b_in_other_versions_and_orders() {
    for (version, order) in DIALECTS {
        let end = if version == 1 { 74 } else { 90 };
        let bytes = a_and_b(version, order);
        let header = read(&bytes).unwrap();
        assert_eq!(
            (header.version(), header.header_end(), header.data_start()),
            (version, end, 96)
        );
        assert_eq!(header.byte_order(), order);
        let sizes: Vec<_> =
            header.tensors().map(|tensor| (tensor.offset(), tensor.size())).collect();
        assert_eq!(sizes, [(0, 20), (32, 6)]);
    }
    assert_eq!(a_and_b(3, Little), A_AND_B);
    assert_eq!(a_and_b(3, Big)[..8], [0x47, 0x47, 0x55, 0x46, 0, 0, 0, 3]);
    assert_eq!(a_and_b(3, BigMagic)[..8], [0x46, 0x55, 0x47, 0x47, 0, 0, 0, 3]);
}

#[test]
fn a_and_b_big_endian() {
    let file = a_and_b(3, Big);
    let (header, little) = (read(&file).unwrap(), read(&A_AND_B).unwrap());
    // All but the byte order is as in the little-endian file.
    assert_eq!(header.summary(), Summary { byte_order: Big, ..little.summary() });
    assert_eq!(measure(&file), Ok(header.summary()));
    assert!(header.tensors().eq(little.tensors()));
    assert_eq!((header.range_of(0), header.range_of_name("b")), (Ok(96..116), Ok(128..134)));
    assert_eq!(header.check_ranges(134), Ok(()));
    assert_eq!(first_outside(&header, 133), Place::Tensor(1));
}

#[test]
fn the_magic_turned_round_too() {
    let mut file = made(3, Big, 2, 5);
    file.key("general.alignment", 4).number(4, 64);
    file.key("minus", 3).number(2, 0xfffe);
    file.key("text", 8).text("strut");
    file.array("halves", 2, 3).number(2, 1).number(2, 256).number(2, 65535);
    file.array("tokenizer.tokens", 8, 4).text("a").text("").text("bc").text("d");
    file.tensor("a", &[5], 0, 0).tensor("b", &[3, 2], 1, 64);
    let plain = file.bytes;
    let turned = [&b"FUGG"[..], &plain[4..]].concat();
    let (header, other) = (read(&plain).unwrap(), read(&turned).unwrap());
    assert_eq!((header.byte_order(), header.alignment()), (Big, 64));
    // All but the byte order is the same.
    assert_eq!(other.summary(), Summary { byte_order: BigMagic, ..header.summary() });
    assert!(other.entries().eq(header.entries()));
    assert!(other.tensors().eq(header.tensors()));
    let rows = |file: &[u8]| {
        let (mut entries, mut tensors) = ([[9; 7]; 5], [[9; 10]; 2]);
        Options::new().read_rows(file, &mut entries, &mut tensors).unwrap();
        (entries, tensors)
    };
    assert_eq!(rows(&plain), rows(&turned));
}

#[test]
fn ranges_by_number_and_by_name() {
    let header = read(&A_AND_B).unwrap();
    assert_eq!(header.range_of(0), Ok(96..116));
    assert_eq!(header.range_of(1), Ok(128..134));
    assert_eq!(header.range_of(2), Err(RangeError::NoSuchTensor));
    assert_eq!(header.range_of_name("a"), Ok(96..116));
    assert_eq!(header.range_of_name("b"), Ok(128..134));
    assert_eq!(header.range_of_name("c"), Err(RangeError::NoSuchTensor));
    assert_eq!(header.range_of_name(""), Err(RangeError::NoSuchTensor));
    assert_eq!(header.find_tensor("b").map(|(index, _)| index), Some(1));
}

#[test]
fn of_equal_names_the_first() {
    let file = made(3, Little, 3, 0)
        .tensor("x", &[8], 0, 0)
        .tensor("y", &[8], 0, 32)
        .tensor("y", &[8], 0, 64)
        .bytes
        .clone();
    let header = read(&file).unwrap();
    let (index, tensor) = header.find_tensor("y").unwrap();
    assert_eq!((index, tensor.offset()), (1, 32));
}

/// The first tensor that ends after a file of so many bytes.
fn first_outside(header: &Header, file_length: u64) -> Place {
    let refusal = header.check_ranges(file_length).unwrap_err();
    assert_eq!((refusal.number(), refusal.reason()), (20, Reason::PastTheFile));
    refusal.place()
}

#[test]
fn the_range_check() {
    let header = read(&A_AND_B).unwrap();
    assert_eq!(header.check_ranges(134), Ok(()));
    assert_eq!(first_outside(&header, 133), Place::Tensor(1));
    assert_eq!(first_outside(&header, 116), Place::Tensor(1));
    assert_eq!(first_outside(&header, 115), Place::Tensor(0));
    assert_eq!(first_outside(&header, 0), Place::Tensor(0));
}

#[test]
fn a_range_that_no_file_has() {
    // The data starts at 96: both tensors would start above 2^64 - 1.
    let file = made(3, Little, 2, 0)
        .tensor("a", &[], 0, u64::MAX - 63)
        .tensor("b", &[], 0, u64::MAX - 95)
        .bytes
        .clone();
    let header = read(&file).unwrap();
    assert_eq!(header.data_start(), 96);
    assert_eq!(header.tensor(0).unwrap().range(), None);
    assert_eq!(header.range_of(0), Err(RangeError::Overflow));
    assert_eq!(header.range_of_name("b"), Err(RangeError::Overflow));
    assert_eq!(first_outside(&header, u64::MAX), Place::Tensor(0));
}

#[test]
fn the_last_byte_that_a_file_can_have() {
    // A tensor of 31 bytes: 64 + offset + 31 = 2^64 - 1.
    let mut file = made(3, Little, 1, 0).tensor("a", &[31], 24, u64::MAX - 95).bytes.clone();
    let header = read(&file).unwrap();
    assert_eq!((header.header_end(), header.data_start()), (57, 64));
    assert_eq!(header.range_of(0), Ok(u64::MAX - 31..u64::MAX));
    assert_eq!(header.check_ranges(u64::MAX), Ok(()));
    assert_eq!(first_outside(&header, u64::MAX - 1), Place::Tensor(0));
    // One byte longer it would end at 2^64.
    file[37] += 1;
    let header = read(&file).unwrap();
    assert_eq!(header.range_of(0), Err(RangeError::Overflow));
    assert_eq!(first_outside(&header, u64::MAX), Place::Tensor(0));
}

#[test]
fn a_cut_file_of_bf16() {
    // 256 numbers of 2 bytes, from 64 on.
    let file = made(3, Little, 1, 0).tensor("t", &[256], 30, 0).bytes.clone();
    let header = read(&file).unwrap();
    assert_eq!((header.tensor(0).unwrap().kind(), header.range_of(0)), (Kind::BF16, Ok(64..576)));
    assert_eq!(header.check_ranges(576), Ok(()));
    for file_length in [64, 66, 576 / 2, 64 + 512 / 2, 575] {
        assert_eq!(first_outside(&header, file_length), Place::Tensor(0));
    }
}

/// The size of the tensor of a header that has only that one.
fn size_of(kind: u64, lengths: &[u64]) -> u64 {
    let file = made(3, Little, 1, 0).tensor("t", lengths, kind, 0).bytes.clone();
    match read(&file) {
        Ok(header) => header.tensor(0).unwrap().size(),
        Err(refusal) => panic!("kind {kind}, lengths {lengths:?}: {refusal}"),
    }
}

#[test]
fn sizes_of_known_shapes() {
    for (kind, lengths, size) in [
        (2, &[32][..], 18),
        (2, &[96, 3], 162),
        (9, &[32], 36),
        (20, &[32], 18),
        (39, &[32], 17),
        (30, &[256], 512),
        (30, &[3, 5], 30),
        (0, &[], 4),
        (24, &[], 1),
        (0, &[(1 << 62) - 1], u64::MAX - 3),
        (24, &[u64::MAX], u64::MAX),
        (0, &[0, 1 << 32, 1 << 32], 0),
        (2, &[0, 33], 0),
        (31, &[64], 0),
        (31, &[33], 0),
        (31, &[], 0),
    ] {
        assert_eq!(size_of(kind, lengths), size, "kind {kind}, lengths {lengths:?}");
    }
}

#[test]
fn sizes_of_whole_blocks() {
    for (kind, numbers, bytes) in BLOCKS {
        for blocks in [0, 1, 2, 3, 1000, 1 << 40] {
            assert_eq!(size_of(kind, &[blocks * numbers]), blocks * bytes, "kind {kind}");
        }
        assert_eq!(size_of(kind, &[3 * numbers, 1, 5, 7]), 105 * bytes, "kind {kind}");
    }
    // What takes no bytes need not be whole blocks.
    for kind in NO_BYTES {
        for length in [0, 1, 33, 256, u64::MAX] {
            assert_eq!(size_of(kind, &[length]), 0, "kind {kind}");
        }
    }
}

#[test]
fn bytes_that_follow_change_nothing() {
    let mut longer = A_AND_B.to_vec();
    longer.extend([0xff; 100]);
    assert_eq!(measure(&longer), measure(&A_AND_B));
    assert!(read(&longer).unwrap().tensors().eq(read(&A_AND_B).unwrap().tensors()));
}

#[test]
fn a_header_that_is_cut_off() {
    // Where each field starts.
    let fields = [0, 4, 8, 16, 24, 32, 33, 37, 45, 49, 57, 65, 66, 70, 78, 82, 90];
    for order in [Little, Big, BigMagic] {
        let file = a_and_b(3, order);
        assert_eq!(file.len(), 90);
        for pair in fields.windows(2) {
            for end in pair[0]..pair[1] {
                let refusal = read(&file[..end]).unwrap_err();
                assert_eq!(
                    (refusal.reason(), refusal.place()),
                    (Reason::CutOff, Place::Prefix(pair[0] as u64)),
                    "{order:?}, {end} bytes"
                );
                assert!(refusal.wants_more());
            }
        }
    }
}

#[test]
fn alignments() {
    // The last of equal keys decides; what is unusable means 32.
    for (values, alignment, start) in [
        (&[64][..], 64, 64),
        (&[64, 8], 8, 96),
        (&[64, 12], 32, 96),
        (&[0], 32, 64),
        (&[1 << 20], 1 << 20, 1 << 20),
    ] {
        let mut file = made(3, Little, 0, values.len() as u64);
        for value in values {
            file.key("general.alignment", 4).number(4, *value);
        }
        let header = read(&file.bytes).unwrap();
        assert_eq!((header.alignment(), header.data_start()), (alignment, start), "{values:?}");
    }
}

#[test]
fn rows_of_the_callers() {
    let file =
        made(3, Little, 1, 1).key("k", 4).number(4, 7).tensor("t", &[2, 3], 0, 0).bytes.clone();
    let mut entries = [[9; 7]; 2];
    let mut tensors = [[9; 10]; 2];
    let summary = Options::new().read_rows(&file, &mut entries, &mut tensors).unwrap();
    assert_eq!((summary.entries, summary.tensors), (1, 1));
    // The key's place and length, the type, the value; the name's place and length, kind,
    // dimensions, four lengths, offset, size.
    assert_eq!(entries, [[32, 1, 4, 7, 0, 0, 0], [9; 7]]);
    assert_eq!(tensors, [[49, 1, 0, 2, 2, 3, 1, 1, 0, 24], [9; 10]]);
}

#[test]
fn kinds_have_names_where_the_reader_knows_them() {
    let mut names = std::collections::BTreeSet::new();
    for number in (0..64).chain([u32::MAX]) {
        let file = made(3, Little, 1, 0).tensor("t", &[256], number.into(), 0).bytes.clone();
        let kind = Kind::from(number);
        match read(&file) {
            Ok(header) => assert_eq!(header.tensor(0).unwrap().kind(), kind),
            Err(refusal) => assert_eq!(refusal.reason(), Reason::UnknownKind),
        }
        assert_eq!(kind.name().is_some(), read(&file).is_ok(), "kind {number}");
        assert_eq!((kind.number(), u32::from(kind)), (number, number));
        names.extend(kind.name());
    }
    assert_eq!(names.len(), 38);
    for (kind, number, name) in [
        (Kind::F32, 0, "F32"),
        (Kind::Q5_0, 6, "Q5_0"),
        (Kind::Q6_K, 14, "Q6_K"),
        (Kind::IQ4_NL, 20, "IQ4_NL"),
        (Kind::I8, 24, "I8"),
        (Kind::BF16, 30, "BF16"),
        (Kind::TQ1_0, 34, "TQ1_0"),
        (Kind::MXFP4, 39, "MXFP4"),
    ] {
        assert_eq!(
            (kind.number(), kind.name(), kind.to_string()),
            (number, Some(name), name.into())
        );
    }
}
