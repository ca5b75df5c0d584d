//! Values of every type, arrays and their items, and the questions by key.

mod made;

use made::{bytes, list, lists, made, number_and_byte, shown, strings, Made, DIALECTS};
use strutpebble::ByteOrder::{self, Little};
use strutpebble::{
    file_type, find, find_string, model_family, read, Array, Options, StringError, Type, Value,
};

/// A file with one entry for each type that is not an array.
fn one_of_each(version: u32, order: ByteOrder) -> Made {
    let mut file = made(version, order, 0, 13);
    file.key("u8", 0).number(1, 200);
    file.key("i8", 1).number(1, 0xfb);
    file.key("u16", 2).number(2, 60000);
    file.key("i16", 3).number(2, 0xfed4);
    file.key("u32", 4).number(4, 4_000_000_000);
    file.key("i32", 5).number(4, 0xffff_fff9);
    file.key("f32", 6).number(4, 0x3fc0_0000);
    file.key("yes", 7).number(1, 2);
    file.key("no", 7).number(1, 0);
    file.key("text", 8).text("strut");
    file.key("u64", 10).number(8, u64::MAX);
    file.key("i64", 11).number(8, 1 << 63);
    file.key("f64", 12).number(8, 0xbfd0_0000_0000_0000);
    file
}

#[test]
fn values_of_every_type() {
    let values = [
        ("u8", Value::U8(200)),
        ("i8", Value::I8(-5)),
        ("u16", Value::U16(60000)),
        ("i16", Value::I16(-300)),
        ("u32", Value::U32(4_000_000_000)),
        ("i32", Value::I32(-7)),
        ("f32", Value::F32(1.5)),
        ("yes", Value::Bool(true)),
        ("no", Value::Bool(false)),
        ("text", Value::String(b"strut")),
        ("u64", Value::U64(u64::MAX)),
        ("i64", Value::I64(i64::MIN)),
        ("f64", Value::F64(-0.25)),
    ];
    for (version, order) in DIALECTS {
        let file = one_of_each(version, order).bytes;
        let header = read(&file).unwrap();
        assert_eq!(header.entries().len(), 13);
        for (entry, (key, value)) in header.entries().zip(values) {
            assert_eq!((entry.key(), entry.value()), (key.as_bytes(), value));
            assert_eq!(header.get(key), Some(value));
            assert_eq!(find(&file, key), Ok(Some(entry)));
        }
    }
}

#[test]
fn a_value_as_another_type() {
    let file = one_of_each(3, Little).bytes;
    let header = read(&file).unwrap();
    let get = |key| header.get(key).unwrap();
    assert_eq!((get("u8").as_u64(), get("u8").as_i64()), (Some(200), Some(200)));
    assert_eq!((get("i8").as_u64(), get("i8").as_i64()), (None, Some(-5)));
    assert_eq!((get("i32").as_u64(), get("i32").as_i64()), (None, Some(-7)));
    assert_eq!((get("u64").as_u64(), get("u64").as_i64()), (Some(u64::MAX), None));
    assert_eq!((get("i64").as_u64(), get("i64").as_i64()), (None, Some(i64::MIN)));
    assert_eq!((get("f32").as_f64(), get("f64").as_f64()), (Some(1.5), Some(-0.25)));
    assert_eq!((get("f32").as_u64(), get("u8").as_f64()), (None, None));
    assert_eq!(
        (get("yes").as_bool(), get("no").as_bool(), get("u8").as_bool()),
        (Some(true), Some(false), None)
    );
    assert_eq!(
        (get("text").as_bytes(), get("text").as_str()),
        (Some(&b"strut"[..]), Some("strut"))
    );
    assert_eq!((get("u8").as_bytes(), get("u8").as_array()), (None, None));
    assert_eq!((get("i64").value_type(), get("i64").value_type().name()), (Type::I64, "i64"));
}

#[test]
fn strings_are_bytes() {
    let file = made(3, Little, 0, 2).key("k", 8).text(b"\xff\0").key("", 8).text("").bytes.clone();
    let header = read(&file).unwrap();
    assert_eq!(header.get("k").unwrap().as_bytes(), Some(&b"\xff\0"[..]));
    assert_eq!(header.get("k").unwrap().as_str(), None);
    assert_eq!(header.get("").unwrap().as_str(), Some(""));
    // A string is a part of the prefix, and no copy.
    let part = find_string(&file, "k").unwrap();
    assert_eq!(part.as_ptr(), file[45..].as_ptr());
}

#[test]
fn arrays_of_scalars() {
    for (version, order) in DIALECTS {
        let mut file = made(version, order, 0, 6);
        file.array("u16", 2, 3).number(2, 1).number(2, 256).number(2, 65535);
        file.array("i8", 1, 2).number(1, 0x80).number(1, 0x7f);
        file.array("bool", 7, 3).number(1, 0).number(1, 1).number(1, 7);
        file.array("f32", 6, 1).number(4, 0x4048_0000);
        file.array("i64", 11, 2).number(8, u64::MAX).number(8, 2);
        file.array("f64", 12, 1).number(8, 0x4008_0000_0000_0000);
        let header = read(&file.bytes).unwrap();
        let items = |key| header.get(key).unwrap().as_array().unwrap().iter().collect::<Vec<_>>();
        assert_eq!(items("u16"), [Value::U16(1), Value::U16(256), Value::U16(65535)]);
        assert_eq!(items("i8"), [Value::I8(-128), Value::I8(127)]);
        assert_eq!(items("bool"), [Value::Bool(false), Value::Bool(true), Value::Bool(true)]);
        assert_eq!(items("f32"), [Value::F32(3.125)]);
        assert_eq!(items("i64"), [Value::I64(-1), Value::I64(2)]);
        assert_eq!(items("f64"), [Value::F64(3.0)]);
        // By the question for one key, the same items.
        let found = find(&file.bytes, "i64").unwrap().unwrap();
        assert_eq!(found.value(), header.get("i64").unwrap());
    }
}

/// Five strings under a tokenizer's key, and five under another.
fn tokens(version: u32, order: ByteOrder) -> Made {
    let mut file = made(version, order, 0, 3);
    for key in ["tokenizer.ggml.tokens", "general.tags"] {
        file.array(key, 8, 5);
        for item in ["<s>", "", "a", "strut", "pebble"] {
            file.text(item);
        }
    }
    file.key("after", 0).number(1, 1);
    file
}

#[test]
fn arrays_of_strings_and_the_cap() {
    let all = ["<s>", "", "a", "strut", "pebble"].map(|item| Value::String(item.as_bytes()));
    for (version, order) in DIALECTS {
        let file = tokens(version, order).bytes;
        for (options, kept) in [
            (Options::new(), 3),
            (Options::new().cap(0), 0),
            (Options::new().cap(4), 4),
            (Options::new().cap(u64::MAX), 5),
        ] {
            let header = options.read(&file).unwrap();
            let array = header.get("tokenizer.ggml.tokens").unwrap().as_array().unwrap();
            assert_eq!(
                (array.item_type(), array.len(), array.kept()),
                (Type::String, 5, kept as u64)
            );
            assert_eq!(array.iter().len(), kept);
            assert!(array.into_iter().eq(all[..kept].iter().copied()));
            assert!(array.iter_all().eq(all));
            let other = header.get("general.tags").unwrap().as_array().unwrap();
            assert_eq!((other.len(), other.kept()), (5, 5));
            assert!(other.iter().eq(all));
            assert_eq!(header.get("after"), Some(Value::U8(1)));
        }
        let found = find(&file, "tokenizer.ggml.tokens").unwrap().unwrap();
        assert_eq!(found.value().as_array().unwrap().kept(), 3);
    }
}

#[test]
fn an_item_after_the_kept_ones_is_checked() {
    // The fourth item's size is above 2^30. The key is at 32, its type at 53, the first item at 69;
    // each item before has 9 bytes.
    let mut file = made(3, Little, 0, 1);
    file.array("tokenizer.ggml.tokens", 8, 4).text("a").text("b").text("c").size(u64::MAX);
    assert_eq!(number_and_byte(read(&file.bytes).unwrap_err()), (7, 96));
}

#[test]
fn an_array_of_no_items() {
    let file = made(3, Little, 0, 1).array("k", 9, 0).bytes.clone();
    let array = read(&file).unwrap().get("k").unwrap().as_array().unwrap();
    assert_eq!(
        (array.item_type(), array.len(), array.is_empty(), array.iter().next()),
        (Type::Array, 0, true, None)
    );
}

#[test]
fn two_lists_of_bytes() {
    for (version, order) in DIALECTS {
        let mut file = made(version, order, 0, 2);
        file.array("k", 9, 2);
        file.inner(0, 2).number(1, 1).number(1, 2);
        file.inner(0, 1).number(1, 3);
        file.key("after", 0).number(1, 7);
        let header = read(&file.bytes).unwrap();
        let value = header.get("k").unwrap();
        assert_eq!(shown(value), "[[1, 2], [3]]");
        assert_eq!(value, lists(vec![bytes(&[1, 2]), bytes(&[3])]));
        let array = value.as_array().unwrap();
        assert_eq!((array.item_type(), array.len(), array.kept()), (Type::Array, 2, 2));
        let inner: Vec<_> = array.iter().map(|item| item.as_array().unwrap()).collect();
        assert_eq!((inner[0].item_type(), inner[0].len(), inner[0].kept()), (Type::U8, 2, 2));
        assert_eq!((inner[1].item_type(), inner[1].len(), inner[1].kept()), (Type::U8, 1, 1));
        assert!(inner[0].iter().eq([Value::U8(1), Value::U8(2)]));
        assert!(inner[1].iter().eq([Value::U8(3)]));
        assert_eq!(find(&file.bytes, "k").unwrap().unwrap().value(), value);
        assert_eq!(header.get("after"), Some(Value::U8(7)));
    }
}

/// Arrays that stand in one another four deep: of numbers of two bytes, of strings, of no items.
fn four_deep(version: u32, order: ByteOrder) -> Vec<u8> {
    let mut file = made(version, order, 0, 4);
    file.array("numbers", 9, 2);
    file.inner(9, 2).inner(9, 2);
    file.inner(2, 2).number(2, 1).number(2, 256);
    file.inner(2, 0).inner(9, 0);
    file.inner(9, 1).inner(9, 1);
    file.inner(2, 1).number(2, 3);
    file.array("strings", 9, 1).inner(9, 1).inner(9, 2);
    file.inner(8, 3).text("a").text("").text("strut");
    file.inner(8, 1).text("pebble");
    file.array("none", 9, 1).inner(9, 1).inner(9, 2).inner(9, 0).inner(9, 0);
    file.key("after", 0).number(1, 7);
    file.bytes
}

#[test]
fn arrays_four_deep() {
    let numbers =
        |items: &[u16]| list(Type::U16, items.iter().map(|item| Value::U16(*item)).collect());
    let front = lists(vec![lists(vec![numbers(&[1, 256]), numbers(&[])]), lists(vec![])]);
    let back = lists(vec![lists(vec![numbers(&[3])])]);
    let texts = lists(vec![strings(&["a", "", "strut"]), strings(&["pebble"])]);
    // The items of the fourth arrays are arrays, and there are none of them.
    let none = lists(vec![lists(vec![]), lists(vec![])]);
    let wanted = [
        ("numbers", lists(vec![front, back]), "[[[[1, 256], []], []], [[[3]]]]"),
        ("strings", lists(vec![lists(vec![texts])]), r#"[[[["a", "", "strut"], ["pebble"]]]]"#),
        ("none", lists(vec![lists(vec![none])]), "[[[[], []]]]"),
    ];
    let little = four_deep(3, Little);
    for (version, order) in DIALECTS {
        let file = four_deep(version, order);
        let header = read(&file).unwrap();
        for (key, value, words) in wanted {
            let found = header.get(key).unwrap();
            assert_eq!((found, shown(found).as_str()), (value, words));
            assert_eq!(find(&file, key).unwrap().unwrap().value(), found);
            // In each version and byte order the same.
            assert_eq!(Some(found), read(&little).unwrap().get(key));
        }
        assert_eq!(header.get("after"), Some(Value::U8(7)));
    }
}

/// Adds the first of three arrays, one of many, and gives what it is.
fn first_of_three(file: &mut Made, which: usize) -> Value<'static> {
    match which {
        0 => {
            file.inner(8, 3).text("a").text("").text("strut");
            strings(&["a", "", "strut"])
        }
        1 => {
            file.inner(0, 3).number(1, 9).number(1, 0).number(1, 1);
            bytes(&[9, 0, 1])
        }
        2 => {
            file.inner(3, 2).number(2, 0xfffe).number(2, 8);
            list(Type::I16, vec![Value::I16(-2), Value::I16(8)])
        }
        3 => {
            file.inner(6, 1).number(4, 0x3fc0_0000);
            list(Type::F32, vec![Value::F32(1.5)])
        }
        4 => {
            file.inner(12, 2).number(8, 0xbfd0_0000_0000_0000).number(8, 0);
            list(Type::F64, vec![Value::F64(-0.25), Value::F64(0.0)])
        }
        5 => {
            file.inner(9, 3).inner(0, 0).inner(8, 0).inner(9, 0);
            lists(vec![bytes(&[]), strings(&[]), lists(vec![])])
        }
        6 => {
            file.inner(9, 0);
            lists(vec![])
        }
        _ => {
            file.inner(9, 2).inner(9, 1).inner(8, 2).text("x").text("").inner(0, 1).number(1, 5);
            lists(vec![lists(vec![strings(&["x", ""])]), bytes(&[5])])
        }
    }
}

#[test]
fn the_array_after_one_of_any_items() {
    for (version, order) in DIALECTS {
        for which in 0..8 {
            let mut file = made(version, order, 0, 1);
            file.array("k", 9, 3);
            let first = first_of_three(&mut file, which);
            file.inner(0, 2).number(1, 100).number(1, 101).inner(8, 1).text("last");
            let array = read(&file.bytes).unwrap().get("k").unwrap().as_array().unwrap();
            let wanted = [first, bytes(&[100, 101]), strings(&["last"])];
            assert_eq!(array.iter().collect::<Vec<_>>(), wanted, "array {which}");
            for (index, item) in wanted.into_iter().enumerate() {
                assert_eq!(array.iter().nth(index), Some(item), "array {which}");
            }
            let mut items = array.iter();
            assert_eq!((items.len(), items.nth(1), items.len()), (3, Some(wanted[1]), 1));
            assert_eq!(
                (items.clone().next(), items.nth(1), items.next()),
                (Some(wanted[2]), None, None)
            );
        }
    }
}

#[test]
fn the_cap_counts_outer_items() {
    let all = [1, 2, 3, 4, 5].map(|n| bytes(&[n, 10 + n, 20 + n, 30 + n]));
    for (version, order) in DIALECTS {
        let mut file = made(version, order, 0, 2);
        file.array("tokenizer.lists", 9, 5);
        for n in 1..=5 {
            file.inner(0, 4).number(1, n).number(1, 10 + n).number(1, 20 + n).number(1, 30 + n);
        }
        file.key("after", 0).number(1, 7);
        for (cap, kept) in [(3, 3), (0, 0), (1, 1), (4, 4), (5, 5), (u64::MAX, 5)] {
            let header = Options::new().cap(cap).read(&file.bytes).unwrap();
            let array = header.get("tokenizer.lists").unwrap().as_array().unwrap();
            assert_eq!((array.len(), array.kept()), (5, kept as u64));
            assert_eq!(array.iter().len(), kept);
            assert!(array.iter().eq(all[..kept].iter().copied()));
            assert!(array.iter_all().eq(all));
            // An inner array keeps all its items, more than the cap too.
            assert!(array.iter_all().all(|item| item.as_array().unwrap().kept() == 4));
            // Only what is kept whole equals what is lent: all items, or as many as are kept.
            assert_eq!(array == Array::new(Type::Array, &all), kept == 5);
            assert_eq!(array == Array::new(Type::Array, &all[..kept]), kept == 5);
            assert_eq!(header.get("after"), Some(Value::U8(7)));
        }
    }
}

#[test]
fn damaged_arrays_that_are_accepted() {
    // Whatever the reader accepts is there to its last item.
    let (mut accepted, mut changed) = (0, 0);
    for (version, order) in DIALECTS {
        let file = four_deep(version, order);
        let words = |file: &[u8]| {
            let header = read(file).ok()?;
            Some(header.entries().map(|entry| shown(entry.value())).collect::<Vec<_>>())
        };
        let whole = words(&file);
        for place in 0..file.len() {
            for byte in [0, 1, 2, 3, 8, 9, 10, 0xff] {
                let mut damaged = file.clone();
                damaged[place] = byte;
                let found = words(&damaged);
                accepted += usize::from(found.is_some());
                changed += usize::from(found.is_some() && found != whole);
            }
        }
    }
    assert!(accepted > changed && changed > 100, "{changed} of {accepted}");
}

#[test]
fn arrays_that_are_lent() {
    let items = [Value::I8(1), Value::I8(-2), Value::I8(3)];
    let array = Array::new(Type::I8, &items);
    assert_eq!((array.item_type(), array.len(), array.kept()), (Type::I8, 3, 3));
    assert!(!array.is_empty() && Array::new(Type::I8, &[]).is_empty());
    assert!(array.iter().eq(items) && array.iter_all().eq(items) && array.into_iter().eq(items));
    assert_eq!(format!("{array:?}"), "[i8; 3 kept of 3]");
    let mut left = array.iter();
    assert_eq!((left.len(), left.next(), left.len()), (3, Some(Value::I8(1)), 2));
    assert!(left.clone().eq(items[1..].iter().copied()));
    assert_eq!((left.nth(1), left.next(), left.next()), (Some(Value::I8(3)), None, None));
    // The items need not be of the type.
    let mixed = [Value::I8(1), Value::U8(2), Value::Array(array)];
    assert!(Array::new(Type::String, &mixed).iter().eq(mixed));
}

#[test]
fn arrays_that_are_not_equal() {
    let file = made(1, ByteOrder::BigMagic, 0, 1)
        .array("k", 9, 2)
        .inner(0, 2)
        .number(1, 1)
        .number(1, 2)
        .inner(1, 0)
        .bytes
        .clone();
    let found = read(&file).unwrap().get("k").unwrap();
    let signed = |items: &[i8]| list(Type::I8, items.iter().map(|n| Value::I8(*n)).collect());
    assert_eq!(found, lists(vec![bytes(&[1, 2]), signed(&[])]));
    for other in [
        lists(vec![bytes(&[1, 2]), bytes(&[])]),
        lists(vec![bytes(&[1, 3]), signed(&[])]),
        lists(vec![bytes(&[1]), signed(&[])]),
        lists(vec![bytes(&[1, 2, 3]), signed(&[])]),
        lists(vec![signed(&[1, 2]), signed(&[])]),
        lists(vec![bytes(&[1, 2])]),
        lists(vec![bytes(&[1, 2]), signed(&[]), signed(&[])]),
        lists(vec![lists(vec![bytes(&[1, 2])]), signed(&[])]),
        list(Type::U8, vec![bytes(&[1, 2]), signed(&[])]),
        lists(vec![]),
        bytes(&[1, 2]),
    ] {
        assert_ne!(found, other, "{}", shown(other));
        assert_ne!(other, found, "{}", shown(other));
    }
}

#[test]
fn of_equal_keys_the_last() {
    let file = made(3, Little, 0, 3)
        .key("k", 4)
        .number(4, 1)
        .key("k", 8)
        .text("two")
        .key("j", 4)
        .number(4, 3)
        .bytes
        .clone();
    let header = read(&file).unwrap();
    assert_eq!(header.entries().filter(|entry| entry.key() == b"k").count(), 2);
    assert_eq!(header.get("k"), Some(Value::String(b"two")));
    assert_eq!(find(&file, "k").unwrap().unwrap().value(), Value::String(b"two"));
    assert_eq!(find_string(&file, "k"), Ok(&b"two"[..]));
}

#[test]
fn keys_that_are_not_there() {
    let file = made(3, Little, 0, 1).key("key", 4).number(4, 1).bytes.clone();
    for key in ["", "k", "ke", "keys", "KEY"] {
        assert_eq!(find(&file, key), Ok(None));
        assert_eq!(find_string(&file, key), Err(StringError::Absent));
        assert_eq!(read(&file).unwrap().get(key), None);
    }
    assert_eq!(find_string(&file, "key"), Err(StringError::OtherType));
}

#[test]
fn the_models_family() {
    let file = made(3, Little, 0, 1).key("general.architecture", 8).text("llama").bytes.clone();
    assert_eq!(model_family(&file), Ok(&b"llama"[..]));
    assert_eq!(read(&file).unwrap().model_family(), Some(&b"llama"[..]));
    let file = made(3, Little, 0, 1).key("general.architecture", 4).number(4, 1).bytes.clone();
    assert_eq!(model_family(&file), Err(StringError::OtherType));
    assert_eq!(read(&file).unwrap().model_family(), None);
    assert_eq!(model_family(&made(3, Little, 0, 0).bytes), Err(StringError::Absent));
}

#[test]
fn the_files_type() {
    let cases = [
        (4, 4, 0, Some(0)),
        (4, 4, 15, Some(15)),
        (0, 1, 24, Some(24)),
        (11, 8, 7, Some(7)),
        (4, 4, 25, None),
        (5, 4, 0xffff_ffff, None),
        (6, 4, 1, None),
        (7, 1, 1, None),
    ];
    for (value_type, width, value, wanted) in cases {
        let file = made(3, Little, 0, 1)
            .key("general.file_type", value_type)
            .number(width, value)
            .bytes
            .clone();
        assert_eq!(file_type(&file), Ok(wanted), "type {value_type}, value {value}");
        assert_eq!(read(&file).unwrap().file_type(), wanted);
    }
    let file = made(3, Little, 0, 1).key("general.file_type", 8).text("1").bytes.clone();
    assert_eq!(file_type(&file), Ok(None));
    assert_eq!(file_type(&made(3, Little, 0, 0).bytes), Ok(None));
}
