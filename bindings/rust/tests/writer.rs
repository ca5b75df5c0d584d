//! Headers that are written: the known numbers, every refusal that a small sheet reaches, sheets
//! that can't be made, and reading back.

mod made;

use made::{a_and_b, bytes, list, lists, made, shown, strings, Made, BLOCKS, DIALECTS, NO_BYTES};
use std::error::Error;
use strutpebble::ByteOrder::{self, Big, BigMagic, Little};
use strutpebble::{
    read, write_header, Kind, Options, Place, Reason, Refusal, Sheet, SheetError, Type, Value,
    WriteError, WriteOptions, Written,
};

/// Writes into bytes that are all 7, and gives them with the answer.
fn written(
    sheet: &[u8],
    version: u32,
    order: ByteOrder,
    alignment: u64,
) -> (Result<Written, Refusal>, [u8; 256]) {
    let mut out = [7; 256];
    let answer = write_header(sheet, version, order, alignment, &mut out);
    (answer, out)
}

/// The refusal of a sheet, which leaves the output as it was.
fn refused_bytes(sheet: &[u8], version: u32, alignment: u64) -> (u64, Place) {
    let (answer, out) = written(sheet, version, Little, alignment);
    assert_eq!(out, [7; 256]);
    let refusal = answer.unwrap_err();
    assert!(!matches!(refusal.reason(), Reason::Other(_)));
    (refusal.number(), refusal.place())
}

/// The refusal of a sheet, which is the same by every way to write it.
fn refused(sheet: &Sheet) -> (u64, Place) {
    let refusal_of_bytes = refused_bytes(&sheet.bytes().unwrap(), 3, 32);
    let Err(WriteError::Refused(refusal)) = sheet.to_vec() else { panic!("not refused") };
    assert_eq!((refusal.number(), refusal.place()), refusal_of_bytes);
    let mut out = [7; 256];
    assert_eq!(sheet.write(&mut out), Err(WriteError::Refused(refusal)));
    assert_eq!(out, [7; 256]);
    refusal_of_bytes
}

fn two_tensors() -> Sheet {
    Sheet::new().tensor("a", Kind::F32, &[5]).tensor("b", 1, &[3])
}

#[test]
fn an_empty_sheet() {
    assert_eq!(Sheet::new().bytes(), Ok(vec![1]));
    let (answer, out) = written(&[1], 3, Little, 32);
    assert_eq!(answer, Ok(Written { header_end: 24, data_start: 32 }));
    assert_eq!(out[..24], made(3, Little, 0, 0).bytes);
    assert_eq!(out[24..32], [0; 8]);
    assert_eq!(out[32..], [7; 224]);
    assert_eq!(Sheet::new().to_vec().unwrap(), out[..32]);
}

#[test]
fn an_added_alignment() {
    let (answer, out) = written(&[1], 3, Little, 64);
    assert_eq!(answer, Ok(Written { header_end: 57, data_start: 64 }));
    assert_eq!(out[..57], made(3, Little, 0, 1).key("general.alignment", 4).number(4, 64).bytes);
    // Two keys around it: it stands in its sorted place.
    let around = Sheet::new().entry("z", Value::U8(1)).entry("a", Value::Bool(true));
    for (version, order) in DIALECTS {
        let options = WriteOptions::new().version(version).byte_order(order).alignment(8);
        let mut out = [7; 256];
        let answer = options.write(&around, &mut out).unwrap();
        let mut wanted = made(version, order, 0, 3);
        wanted.key("a", 7).number(1, 1);
        wanted.key("general.alignment", 4).number(4, 8);
        wanted.key("z", 0).number(1, 1);
        assert_eq!(out[..answer.header_end as usize], wanted.bytes);
    }
}

#[test]
fn tensors_a_and_b() {
    for (version, order) in DIALECTS {
        let end = if version == 1 { 74 } else { 90 };
        let (answer, out) = written(&two_tensors().bytes().unwrap(), version, order, 32);
        assert_eq!(answer, Ok(Written { header_end: end, data_start: 96 }));
        assert_eq!(out[..end as usize], a_and_b(version, order));
        assert_eq!(out[end as usize..96], vec![0; 96 - end as usize]);
        assert_eq!(out[96..], [7; 160]);
        let options = WriteOptions::new().version(version).byte_order(order);
        assert_eq!(options.to_vec(&two_tensors()).unwrap(), out[..96]);
        let mut again = [7; 256];
        assert_eq!(options.write(&two_tensors(), &mut again), Ok(answer.unwrap()));
        assert_eq!(again, out);
        let header = read(&out).unwrap();
        assert_eq!((header.version(), header.byte_order()), (version, order));
    }
}

#[test]
fn the_front_of_each_byte_order() {
    for (order, front) in [
        (Little, [0x47, 0x47, 0x55, 0x46, 3, 0, 0, 0]),
        (Big, [0x47, 0x47, 0x55, 0x46, 0, 0, 0, 3]),
        (BigMagic, [0x46, 0x55, 0x47, 0x47, 0, 0, 0, 3]),
    ] {
        let file = WriteOptions::new().byte_order(order).to_vec(&Sheet::new()).unwrap();
        assert_eq!(file.len(), 32);
        assert_eq!(file[..8], front);
        assert_eq!(file[8..], [0; 24]);
        assert_eq!(written(&[1], 3, order, 32).1[..32], file);
    }
}

#[test]
fn a_short_output_stays_as_it_was() {
    let mut out = [7; 95];
    let Err(WriteError::Refused(refusal)) = two_tensors().write(&mut out) else {
        panic!("95 bytes are enough")
    };
    assert_eq!((refusal.reason(), refusal.place()), (Reason::OutputTooShort, Place::Nowhere));
    let words = "refused 38: the output is too short for the header and its padding";
    assert_eq!(refusal.to_string(), words);
    assert_eq!(out, [7; 95]);
    assert!(two_tensors().write(&mut [7; 96]).is_ok());
    assert_eq!(write_header(&[1], 3, Little, 32, &mut []), Err(refusal));
}

#[test]
fn refusals_of_arguments_and_of_raw_sheets() {
    assert_eq!(refused_bytes(&[], 0, 0), (30, Place::Nowhere));
    assert_eq!(refused_bytes(&[1], 4, 32), (30, Place::Nowhere));
    assert_eq!(refused_bytes(&[], 3, 32), (31, Place::Sheet(0)));
    assert_eq!(refused_bytes(&[2], 3, 32), (31, Place::Sheet(0)));
    assert_eq!(refused_bytes(&[1, 0, 0], 3, 32), (31, Place::Sheet(1)));
    let (answer, _) = written(&[1, 0, 0], 3, Little, 32);
    let words = "refused 31 at byte 1 of the sheet: the sheet is not well formed";
    assert_eq!(answer.unwrap_err().to_string(), words);
    // Metadata after a tensor, and a key twice.
    let metadata = Sheet::new().entry("k", Value::U8(5)).bytes().unwrap();
    let tensor = Sheet::new().tensor("t", 0, &[]).bytes().unwrap();
    let late = [&tensor, &metadata[1..]].concat();
    assert_eq!(refused_bytes(&late, 3, 32), (31, Place::Sheet(tensor.len() as u64)));
    let twice = [&metadata, &metadata[1..]].concat();
    assert_eq!(refused_bytes(&twice, 3, 32), (31, Place::Sheet(metadata.len() as u64)));
    assert_eq!(refused_bytes(&[1], 3, 0), (32, Place::Nowhere));
    assert_eq!(refused_bytes(&[1], 3, 12), (32, Place::Nowhere));
    assert_eq!(refused_bytes(&[1], 3, 1 << 32), (33, Place::Nowhere));
}

/// The refusal of a version in a byte order, which is the same by every way to write.
fn refused_form(version: u32, order: ByteOrder) -> Refusal {
    let (answer, out) = written(&two_tensors().bytes().unwrap(), version, order, 32);
    assert_eq!(out, [7; 256]);
    let refusal = answer.unwrap_err();
    let options = WriteOptions::new().version(version).byte_order(order);
    let mut out = [7; 256];
    assert_eq!(options.write(&two_tensors(), &mut out), Err(WriteError::Refused(refusal)));
    assert_eq!(out, [7; 256]);
    assert_eq!(options.to_vec(&two_tensors()), Err(WriteError::Refused(refusal)));
    // Before any other reason: no sheet, no alignment, no output.
    assert_eq!(write_header(&[], version, order, 0, &mut []), Err(refusal));
    refusal
}

#[test]
fn versions_and_byte_orders_30() {
    for version in [1, 2] {
        let refusal = refused_form(version, Big);
        assert_eq!((refusal.number(), refusal.place()), (30, Place::Nowhere));
        assert_eq!(refusal.reason(), Reason::VersionNotWritten);
        let words = "refused 30: the version is not 1, 2 or 3, or has no such byte order";
        assert_eq!(refusal.to_string(), words);
    }
    // The last two would be known if their bytes were turned round.
    for version in [0, 4, u32::MAX, 1 << 24, 3 << 24] {
        for order in [Little, Big, BigMagic] {
            let refusal = refused_form(version, order);
            assert_eq!((refusal.number(), refusal.place()), (30, Place::Nowhere));
        }
    }
}

#[test]
fn refusals_of_sheets() {
    assert_eq!(refused(&Sheet::new().tensor("t", 0, &[1; 5])), (31, Place::Sheet(1)));
    assert_eq!(refused(&Sheet::new().tensor("t", 0, &[1; 300])), (31, Place::Sheet(1)));
    let aligned = Sheet::new().entry("general.alignment", Value::I64(64));
    assert_eq!(refused(&aligned), (34, Place::Nowhere));
    assert!(WriteOptions::new().alignment(64).to_vec(&aligned).is_ok());
    for kind in [4, 5, 31, 32, 33, 36, 37, 38, 40, 41, u32::MAX] {
        assert_eq!(refused(&two_tensors().tensor("c", kind, &[])), (35, Place::Tensor(2)));
    }
    let product = Sheet::new().tensor("t", 0, &[1 << 32, 1 << 32, 0]);
    assert_eq!(refused(&product), (13, Place::Tensor(0)));
    let size = two_tensors().tensor("t", 0, &[1 << 62]);
    assert_eq!(refused(&size), (14, Place::Tensor(2)));
    let total = Sheet::new().tensor("t", Kind::I8, &[1 << 63]).tensor("u", Kind::I8, &[1 << 63]);
    assert_eq!(refused(&total), (15, Place::Tensor(1)));
    let offset = Sheet::new().tensor("t", 0, &[(1 << 62) - 1]);
    assert_eq!(refused(&offset), (36, Place::Tensor(0)));
    let Err(error) = size.to_vec() else { panic!("not refused") };
    assert_eq!(error.to_string(), "the header was not written");
    let words = "refused 14 at tensor 2: the tensor's size is above 2^64 - 1 before its division";
    assert_eq!(error.source().unwrap().to_string(), words);
}

#[test]
fn partial_blocks() {
    let second = Sheet::new().tensor("a", Kind::Q4_0, &[32]).tensor("b", Kind::Q4_0, &[33]);
    assert_eq!(refused(&second), (17, Place::Tensor(1)));
    let Err(error) = second.to_vec() else { panic!("not refused") };
    let words = "refused 17 at tensor 1: the tensor's first length is not whole blocks of its kind";
    assert_eq!(error.source().unwrap().to_string(), words);
    for (kind, numbers, _) in BLOCKS.into_iter().filter(|(_, numbers, _)| *numbers > 1) {
        for lengths in [&[numbers + 1][..], &[numbers / 2, 2], &[1, 0], &[]] {
            let sheet = two_tensors().tensor("t", kind as u32, lengths);
            assert_eq!(refused(&sheet), (17, Place::Tensor(2)), "kind {kind}, lengths {lengths:?}");
        }
    }
}

#[test]
fn a_partial_block_beside_other_reasons() {
    let tensor = |kind: u32, lengths: &[u64]| refused(&Sheet::new().tensor("t", kind, lengths));
    // After 35.
    for kind in NO_BYTES {
        assert_eq!(tensor(kind as u32, &[33]), (35, Place::Tensor(0)));
    }
    // Before 13, 14 and 15.
    assert_eq!(tensor(2, &[33, 1 << 32, 1 << 32]), (17, Place::Tensor(0)));
    assert_eq!(tensor(2, &[32, 1 << 32, 1 << 32]), (13, Place::Tensor(0)));
    assert_eq!(tensor(2, &[(1 << 63) + 1]), (17, Place::Tensor(0)));
    assert_eq!(tensor(2, &[1 << 63]), (14, Place::Tensor(0)));
    for (length, wanted) in [(33, 17), (32, 15)] {
        let full = Sheet::new().tensor("s", Kind::I8, &[u64::MAX - 31]);
        assert_eq!(refused(&full.tensor("t", 2, &[length])), (wanted, Place::Tensor(1)));
    }
    // The first tensor that is refused decides.
    let sheet = Sheet::new().tensor("s", 0, &[1 << 62]).tensor("t", 2, &[33]);
    assert_eq!(refused(&sheet), (14, Place::Tensor(0)));
    // After 31 and 32.
    let sheet = Sheet::new().tensor("s", 2, &[33]).bytes().unwrap();
    assert_eq!(refused_bytes(&[&sheet[..], &[0]].concat(), 3, 32), (31, Place::Sheet(24)));
    assert_eq!(refused_bytes(&sheet, 3, 12), (32, Place::Nowhere));
}

/// The offsets and sizes of the tensors of a sheet, written and read back.
fn laid_out(sheet: &Sheet, alignment: u64) -> Vec<(u64, u64)> {
    let file = WriteOptions::new().alignment(alignment).to_vec(sheet).unwrap();
    read(&file).unwrap().tensors().map(|tensor| (tensor.offset(), tensor.size())).collect()
}

#[test]
fn tensors_of_whole_blocks() {
    let sheet = Sheet::new()
        .tensor("a", Kind::BF16, &[256])
        .tensor("b", Kind::MXFP4, &[32])
        .tensor("c", Kind::Q8_1, &[32])
        .tensor("d", Kind::Q4_0, &[0])
        .tensor("e", Kind::IQ4_NL, &[32]);
    assert_eq!(laid_out(&sheet, 32), [(0, 512), (512, 17), (544, 36), (608, 0), (608, 18)]);
    assert_eq!(laid_out(&sheet, 8), [(0, 512), (512, 17), (536, 36), (576, 0), (576, 18)]);
    let each = BLOCKS.into_iter().fold(Sheet::new(), |sheet, (kind, numbers, _)| {
        sheet.tensor("t", kind as u32, &[2 * numbers, 3])
    });
    let sizes = laid_out(&each, 32).into_iter().map(|(_, size)| size);
    assert!(sizes.eq(BLOCKS.map(|(_, _, bytes)| 6 * bytes)));
}

#[test]
fn what_is_written_is_aligned() {
    // Sizes of every remainder, and of no bytes.
    let sheet = [5, 0, 31, 0, 1, 64, 33, 7, 4097, 2, 0]
        .into_iter()
        .fold(Sheet::new(), |sheet, length| sheet.tensor("t", Kind::I8, &[length]));
    for alignment in [8, 16, 24, 32, 40, 64, 4096, 1 << 16] {
        let own = sheet.clone().entry("general.alignment", Value::U64(alignment));
        for (version, order) in DIALECTS {
            let options = WriteOptions::new().version(version).byte_order(order);
            for sheet in [&sheet, &own] {
                let mut file = options.alignment(alignment).to_vec(sheet).unwrap();
                let header = read(&file).unwrap();
                assert_eq!((header.alignment(), header.tensors().len()), (alignment, 11));
                for tensor in header.tensors() {
                    assert_eq!(tensor.offset() % alignment, 0);
                    assert_eq!(tensor.range().unwrap().start % alignment, 0);
                }
                // One byte further on, the last one would not be.
                let offset = header.header_end() - 8;
                let lowest = offset as usize + if order.is_big() { 7 } else { 0 };
                file[lowest] += 1;
                let refusal = read(&file).unwrap_err();
                assert_eq!(refusal.reason(), Reason::Misaligned);
                assert_eq!(refusal.place(), Place::Prefix(offset));
            }
        }
    }
}

#[test]
fn sheets_that_cannot_be_made() {
    let mixed = Sheet::new().array("m", Type::U8, [Value::U8(1), Value::I8(1)]);
    let other_type =
        SheetError::ItemType { key: b"m".to_vec(), expected: Type::U8, found: Type::I8 };
    assert_eq!(mixed.bytes(), Err(other_type.clone()));
    assert_eq!(other_type.to_string(), "under \"m\", an array of u8 has an item of type i8");
    let mut out = [7; 256];
    assert_eq!(mixed.write(&mut out), Err(WriteError::Sheet(other_type.clone())));
    assert_eq!(out, [7; 256]);
    assert_eq!(mixed.to_vec(), Err(WriteError::Sheet(other_type.clone())));

    // The first error stays, whatever comes after it.
    let later =
        mixed.array("n", Type::U8, [bytes(&[5])]).entry("m", Value::U8(1)).tensor("t", 0, &[]);
    assert_eq!(later.bytes(), Err(other_type.clone()));
    let error = WriteError::from(other_type);
    assert_eq!(error.to_string(), "the sheet can't be made");
    assert!(error.source().unwrap().to_string().contains("item of type i8"));
}

/// The error of an entry of this value under the key n.
fn error_of(value: Value) -> SheetError {
    let sheet = Sheet::new().entry("a", Value::U8(1)).entry("n", value);
    let error = sheet.bytes().unwrap_err();
    let mut out = [7; 256];
    assert_eq!(sheet.write(&mut out), Err(WriteError::Sheet(error.clone())));
    assert_eq!(out, [7; 256]);
    error
}

#[test]
fn items_of_another_type_at_each_depth() {
    let file = made(3, Little, 0, 1).array("k", 0, 1).number(1, 5).bytes.clone();
    let found = read(&file).unwrap().get("k").unwrap();
    let wrong = |expected, found| SheetError::ItemType { key: b"n".to_vec(), expected, found };
    // An array where a number is expected, read or lent, and the other way.
    for array in [found, bytes(&[5])] {
        let sheet = Sheet::new().array("n", Type::U8, [array]);
        assert_eq!(sheet.bytes(), Err(wrong(Type::U8, Type::Array)));
        assert!(Sheet::new().array("n", Type::Array, [array]).bytes().is_ok());
    }
    let sheet = Sheet::new().array("n", Type::Array, [found, Value::U8(1)]);
    assert_eq!(sheet.bytes(), Err(wrong(Type::Array, Type::U8)));
    let mut array = list(Type::U8, vec![Value::U8(1), bytes(&[5])]);
    let mut number = lists(vec![bytes(&[5]), Value::U8(1)]);
    let mut text = list(Type::I8, vec![Value::I8(1), Value::String(b"")]);
    for depth in 1..=4 {
        assert_eq!(error_of(array), wrong(Type::U8, Type::Array), "depth {depth}");
        assert_eq!(error_of(text), wrong(Type::I8, Type::String), "depth {depth}");
        // The items of a fourth array of arrays are not looked at, because the writer refuses it.
        if depth < 4 {
            assert_eq!(error_of(number), wrong(Type::Array, Type::U8), "depth {depth}");
        } else {
            assert_eq!(refused(&Sheet::new().entry("n", number)), (31, Place::Sheet(1)));
        }
        // An item before it that is good changes nothing.
        [array, number, text] = [array, number, text].map(|inner| lists(vec![bytes(&[]), inner]));
    }
    let words = "under \"n\", an array of u8 has an item of type array";
    assert_eq!(wrong(Type::U8, Type::Array).to_string(), words);
}

/// An array of one byte inside others, so many arrays in all.
fn deep(arrays: usize) -> Value<'static> {
    (1..arrays).fold(bytes(&[5]), |inner, _| lists(vec![inner]))
}

/// An array of no arrays inside others, so many arrays in all.
fn deep_and_empty(arrays: usize) -> Value<'static> {
    (1..arrays).fold(lists(vec![]), |inner, _| lists(vec![inner]))
}

/// Panics where an entry of this value is not refused for it, at the place where the entry starts.
fn too_deep(value: Value) {
    assert_eq!(refused(&Sheet::new().entry("k", value)), (31, Place::Sheet(1)));
    assert_eq!(refused(&Sheet::new().array("k", Type::Array, [value])), (31, Place::Sheet(1)));
    // The entry before it takes 4 + 8 bytes.
    let second = Sheet::new().entry("a", Value::U8(1)).entry("k", value).entry("z", Value::U8(1));
    assert_eq!(refused(&second), (31, Place::Sheet(13)));
    let Err(WriteError::Refused(refusal)) = second.to_vec() else { panic!("not refused") };
    assert_eq!(refusal.reason(), Reason::BadSheet);
}

#[test]
fn arrays_too_deep_31() {
    too_deep(deep(5));
    too_deep(deep(6));
    too_deep(lists(vec![bytes(&[]), deep(4), strings(&["a"])]));
    too_deep(deep_and_empty(4));
    too_deep(deep_and_empty(5));
    // So deep that calls as deep would be more than the stack holds.
    too_deep(deep(100_000));
    too_deep(deep_and_empty(100_000));
    // The reader takes an array of no arrays inside three others, and the writer does not.
    let file =
        made(3, Little, 0, 1).array("k", 9, 1).inner(9, 1).inner(9, 1).inner(9, 0).bytes.clone();
    let found = read(&file).unwrap().get("k").unwrap();
    assert_eq!(found, deep_and_empty(4));
    too_deep(found);
}

#[test]
fn arrays_of_no_arrays() {
    for (version, order) in DIALECTS {
        let options = WriteOptions::new().version(version).byte_order(order);
        for (arrays, words) in [(1, "[]"), (2, "[[]]"), (3, "[[[]]]")] {
            let value = deep_and_empty(arrays);
            let file = options.to_vec(&Sheet::new().entry("k", value)).unwrap();
            let found = read(&file).unwrap().get("k").unwrap();
            assert_eq!((found, shown(found).as_str()), (value, words));
        }
    }
    let empty = Sheet::new().array("k", Type::Array, []);
    assert_eq!(empty, Sheet::new().entry("k", deep_and_empty(1)));
}

#[test]
fn the_bytes_of_arrays_in_arrays() {
    let value = lists(vec![bytes(&[1, 2]), strings(&["ab"]), lists(vec![])]);
    #[rustfmt::skip]
    let wanted = [
        1,   0, 0, 0, 35,   1,   0, 0, 0, 1, b'k',   9,   9,   0, 0, 0, 3,
        0,   0, 0, 0, 2,   1,   2,
        8,   0, 0, 0, 1,   0, 0, 0, 2, b'a', b'b',
        9,   0, 0, 0, 0,
    ];
    assert_eq!(Sheet::new().entry("k", value).bytes().unwrap(), wanted);
    // Of the fourth, a count of 0 and no items.
    #[rustfmt::skip]
    let wanted = [
        1,   0, 0, 0, 27,   1,   0, 0, 0, 1, b'k',   9,   9,   0, 0, 0, 1,
        9,   0, 0, 0, 1,
        9,   0, 0, 0, 1,
        9,   0, 0, 0, 0,
    ];
    assert_eq!(Sheet::new().entry("k", deep(5)).bytes().unwrap(), wanted);
    assert_eq!(Sheet::new().entry("k", deep(100_000)).bytes().unwrap(), wanted);
}

/// Lists of lists: of numbers, of strings, of both, and four deep.
fn nested() -> [(&'static str, Value<'static>, &'static str); 4] {
    let texts = lists(vec![strings(&["a", "", "strut"]), strings(&[]), strings(&["pebble"])]);
    let wide = list(Type::I64, vec![Value::I64(-1), Value::I64(1 << 40)]);
    let inner = lists(vec![lists(vec![wide, bytes(&[])]), lists(vec![strings(&["x"])])]);
    [
        ("bytes", lists(vec![bytes(&[1, 2]), bytes(&[3])]), "[[1, 2], [3]]"),
        (
            "four",
            lists(vec![inner, lists(vec![])]),
            r#"[[[[-1, 1099511627776], []], [["x"]]], []]"#,
        ),
        (
            "mixed",
            lists(vec![bytes(&[9]), strings(&["b"]), texts]),
            r#"[[9], ["b"], [["a", "", "strut"], [], ["pebble"]]]"#,
        ),
        ("texts", texts, r#"[["a", "", "strut"], [], ["pebble"]]"#),
    ]
}

/// The header of the same lists, field by field.
fn nested_file(version: u32, order: ByteOrder) -> Vec<u8> {
    let mut file = made(version, order, 0, 4);
    let texts = |file: &mut Made| {
        file.inner(8, 3).text("a").text("").text("strut").inner(8, 0).inner(8, 1).text("pebble");
    };
    file.array("bytes", 9, 2).inner(0, 2).number(1, 1).number(1, 2).inner(0, 1).number(1, 3);
    file.array("four", 9, 2).inner(9, 2).inner(9, 2);
    file.inner(11, 2).number(8, u64::MAX).number(8, 1 << 40).inner(0, 0);
    file.inner(9, 1).inner(8, 1).text("x").inner(9, 0);
    file.array("mixed", 9, 3).inner(0, 1).number(1, 9).inner(8, 1).text("b");
    texts(file.inner(9, 3));
    texts(file.array("texts", 9, 3));
    file.bytes
}

#[test]
fn arrays_in_arrays_read_back() {
    let sheet =
        nested().into_iter().fold(Sheet::new(), |sheet, (key, value, _)| sheet.entry(key, value));
    let little = sheet.to_vec().unwrap();
    for (version, order) in DIALECTS {
        let options = WriteOptions::new().version(version).byte_order(order);
        let mut out = vec![7; 1000];
        let end = options.write(&sheet, &mut out).unwrap().header_end as usize;
        assert_eq!(out[..end], nested_file(version, order));
        let header = read(&out).unwrap();
        for (key, value, words) in nested() {
            let found = header.get(key).unwrap();
            assert_eq!((found, shown(found).as_str()), (value, words));
            assert_eq!(read(&little).unwrap().get(key), Some(found));
        }
        // What was read, written again, is the same.
        let again = header
            .entries()
            .fold(Sheet::new(), |sheet, entry| sheet.entry(entry.key(), entry.value()));
        assert_eq!(again, sheet);
    }
}

#[test]
fn arrays_in_arrays_of_another_file() {
    let mut file = made(1, BigMagic, 0, 2);
    for key in ["lists", "tokenizer.lists"] {
        file.array(key, 9, 3).inner(2, 2).number(2, 1).number(2, 256);
        file.inner(8, 2).text("ab").text("").inner(9, 1).inner(5, 1).number(4, 0xffff_fff9);
    }
    let header = Options::new().cap(1).read(&file.bytes).unwrap();
    for (key, kept) in [("lists", 3), ("tokenizer.lists", 1)] {
        let value = header.get(key).unwrap();
        assert_eq!((value.as_array().unwrap().len(), value.as_array().unwrap().kept()), (3, kept));
        let sheets = [
            Sheet::new().entry(key, value),
            Sheet::new().array(key, Type::Array, value.as_array().unwrap().iter_all()),
        ];
        assert_eq!(sheets[0], sheets[1]);
        for (version, order) in DIALECTS {
            let options = WriteOptions::new().version(version).byte_order(order);
            let file = options.to_vec(&sheets[0]).unwrap();
            let found = Options::new().cap(3).read(&file).unwrap().get(key).unwrap();
            assert_eq!(shown(found), r#"[[1, 256], ["ab", ""], [[-7]]]"#);
            assert_eq!(Some(found), header.get("lists"));
        }
    }
}

/// Every type, as a value and in an array.
fn every_type() -> Sheet {
    let values = [
        Value::U8(200),
        Value::I8(-3),
        Value::U16(60_000),
        Value::I16(-300),
        Value::U32(4_000_000_000),
        Value::I32(-70_000),
        Value::F32(-0.5),
        Value::Bool(true),
        Value::String(b"text"),
        Value::U64(u64::MAX),
        Value::I64(i64::MIN),
        Value::F64(1e300),
    ];
    values.iter().fold(Sheet::new(), |sheet, value| {
        let (item_type, name) = (value.value_type(), value.value_type().name());
        sheet.entry(name, *value).array(format!("{name}s"), item_type, [*value, *value]).array(
            format!("no {name}"),
            item_type,
            [],
        )
    })
}

#[test]
fn read_back() {
    let sheet = every_type().tensor("t", Kind::Q4_0, &[32, 2]);
    for (version, order) in DIALECTS {
        let options = WriteOptions::new().version(version).byte_order(order).alignment(16);
        let file = options.to_vec(&sheet).unwrap();
        let header = read(&file).unwrap();
        assert_eq!((header.version(), header.byte_order()), (version, order));
        assert_eq!((header.alignment(), header.data_start()), (16, file.len() as u64));
        assert_eq!(header.entries().len(), 37);
        assert_eq!(header.get("i16"), Some(Value::I16(-300)));
        let strings = header.get("strings").unwrap().as_array().unwrap();
        assert_eq!(strings.iter().nth(1), Some(Value::String(b"text")));
        let empty = header.get("no f64").unwrap().as_array().unwrap();
        assert_eq!((empty.item_type(), empty.len()), (Type::F64, 0));
        // What was read, written again as it was read, is the same.
        let again = header
            .entries()
            .fold(Sheet::new(), |sheet, entry| sheet.entry(entry.key(), entry.value()));
        let again = header.tensors().fold(again, |sheet, tensor| {
            sheet.tensor(tensor.name(), tensor.kind(), tensor.lengths())
        });
        let as_read = WriteOptions::new()
            .version(header.version())
            .byte_order(header.byte_order())
            .alignment(header.alignment());
        assert_eq!(as_read.to_vec(&again), Ok(file));
    }
}

#[test]
fn an_array_that_was_cut_is_written_whole() {
    let items = ["a", "", "bc", "d", "e"].map(|item| Value::String(item.as_bytes()));
    let sheet = Sheet::new().array("tokenizer.ggml.tokens", Type::String, items);
    let file = sheet.to_vec().unwrap();
    let header = read(&file).unwrap();
    let array = header.get("tokenizer.ggml.tokens").unwrap();
    assert_eq!(array.as_array().unwrap().kept(), 3);
    assert_eq!(Sheet::new().entry("tokenizer.ggml.tokens", array), sheet);
}

#[test]
fn an_entry_replaces_one_of_its_key() {
    let once = Sheet::new().entry("k", Value::U8(2));
    assert_eq!(Sheet::new().entry("k", Value::String(b"one")).entry("k", Value::U8(2)), once);
    assert_eq!(Sheet::new().array("k", Type::U8, []).entry("k", Value::U8(2)), once);
}

#[test]
fn a_vector_has_room_for_what_grows_most() {
    // Strings of no bytes and arrays of no items in an array, arrays of no items, entries and
    // tensors of no name: each alone and many times, with every size of padding.
    let none = Value::String(b"");
    let mut sheets = vec![Sheet::new(), two_tensors(), every_type()];
    for count in [1, 2, 50, 999] {
        sheets.push(Sheet::new().array("", Type::String, vec![none; count]));
        sheets.push(Sheet::new().array("", Type::Array, vec![bytes(&[]); count]));
        sheets.push(Sheet::new().array("", Type::Array, vec![deep_and_empty(2); count]));
        sheets.push((0..count).fold(Sheet::new(), |sheet, _| sheet.tensor("", 0, &[])));
        let keys = (0..count).map(|index| format!("{index}"));
        sheets.push(keys.fold(Sheet::new(), |sheet, key| sheet.array(key, Type::U8, [])));
    }
    for sheet in &sheets {
        for (version, alignment) in [(1, 32), (2, 8), (3, 32), (3, 8), (3, 24), (3, 4096)] {
            let options = WriteOptions::new().version(version).alignment(alignment);
            let file = options.to_vec(sheet).unwrap();
            let mut out = vec![7; file.len()];
            let answer = options.write(sheet, &mut out).unwrap();
            assert_eq!((answer.data_start, &out), (file.len() as u64, &file));
            let end = answer.header_end as usize;
            assert!(file.len() - end < alignment as usize && file[end..].iter().all(|b| *b == 0));
        }
    }
}

#[test]
fn a_vector_that_no_memory_holds() {
    // The data would start at 2^63: no vector is that long.
    let sheet = Sheet::new().entry("general.alignment", Value::U64(1 << 63));
    let Err(WriteError::Refused(refusal)) = WriteOptions::new().alignment(1 << 63).to_vec(&sheet)
    else {
        panic!("2^63 bytes were written")
    };
    assert_eq!(refusal.reason(), Reason::OutputTooShort);
    // What is refused anyway asks for no memory.
    for (alignment, number) in [(0, 32), (12, 32), (1 << 40, 33), (u64::MAX - 7, 33)] {
        let answer = WriteOptions::new().alignment(alignment).to_vec(&two_tensors());
        let Err(WriteError::Refused(refusal)) = answer else { panic!("not refused") };
        assert_eq!(refusal.number(), number);
    }
}
