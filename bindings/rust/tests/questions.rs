//! `Header::model_family` and `Header::file_type`, which look at the rows at hand, held against the
//! archive's own answers on the same bytes.

mod made;

use made::{made, Made, DIALECTS};
use strutpebble::ByteOrder::Little;
use strutpebble::{file_type, find, model_family, read, StringError};

const FAMILY: &str = "general.architecture";
const FILE_TYPE: &str = "general.file_type";

/// The bytes of a scalar of each type, 0 of a string and an array.
const WIDTHS: [usize; 13] = [1, 1, 2, 2, 4, 4, 4, 1, 0, 0, 8, 8, 8];

/// Numbers at the boundaries of the table and of every width, and float bits of 1.
const NUMBERS: [u64; 22] = [
    0,
    1,
    7,
    23,
    24,
    25,
    127,
    128,
    255,
    256 + 7,
    32768,
    65535,
    65536 + 24,
    1 << 31,
    0x3f80_0000,
    (1 << 32) - 24,
    (1 << 32) - 1,
    (1 << 32) + 5,
    1 << 63,
    0x3ff0_0000_0000_0000,
    u64::MAX - 23,
    u64::MAX,
];

/// Adds an entry of a type: this number, this text, or an array of one such number.
fn entry(file: &mut Made, key: &str, value_type: u64, number: u64, text: &str) {
    match value_type {
        8 => file.key(key, 8).text(text),
        9 => file.array(key, 4, 1).number(4, number),
        scalar => file.key(key, scalar).number(WIDTHS[scalar as usize], number),
    };
}

/// Panics where the header and the archive differ. Gives the two answers.
fn compare(file: &[u8]) -> (Option<Vec<u8>>, Option<u64>) {
    let header = read(file).unwrap();
    let family = match model_family(file) {
        Ok(text) => Some(text),
        Err(StringError::Absent | StringError::OtherType) => None,
        Err(error) => panic!("{error}"),
    };
    assert_eq!(header.model_family(), family, "{file:?}");
    // The same part of the prefix, and no copy.
    assert_eq!(header.model_family().map(<[u8]>::as_ptr), family.map(<[u8]>::as_ptr));
    assert_eq!(header.file_type(), file_type(file).unwrap(), "{file:?}");
    for key in [FAMILY, FILE_TYPE, "k"] {
        // In words, because a float that is not a number is not equal to itself.
        let found = find(file, key).unwrap().map(|entry| entry.value());
        assert_eq!(format!("{found:?}"), format!("{:?}", header.get(key)));
    }
    (family.map(<[u8]>::to_vec), header.file_type())
}

#[test]
fn every_type_and_boundary() {
    let mut seen = [false; 25];
    for (version, order) in DIALECTS {
        for value_type in 0..13 {
            for number in NUMBERS.into_iter().chain(0..=24) {
                let mut file = made(version, order, 0, 2);
                entry(&mut file, FILE_TYPE, value_type, number, "7");
                entry(&mut file, FAMILY, value_type, number, "llama");
                let (family, answer) = compare(&file.bytes);
                assert_eq!(family.is_some(), value_type == 8);
                // A bool, a float, a string and an array are no integers.
                assert!(answer.is_none() || !matches!(value_type, 6..=9 | 12));
                if let Some(answer) = answer {
                    seen[answer as usize] = true;
                }
            }
        }
    }
    assert_eq!(seen, [true; 25]);
}

#[test]
fn of_equal_keys_the_last() {
    for (version, order) in DIALECTS {
        for first in 0..13 {
            for last in 0..13 {
                let mut file = made(version, order, 1, 5);
                entry(&mut file, FILE_TYPE, first, 3, "3");
                entry(&mut file, FAMILY, first, 3, "first");
                entry(&mut file, "k", first, 1, "k");
                entry(&mut file, FAMILY, last, 5, "last");
                entry(&mut file, FILE_TYPE, last, 5, "5");
                file.tensor(FAMILY, &[], 0, 0);
                let (family, answer) = compare(&file.bytes);
                assert_eq!(family, (last == 8).then(|| b"last".to_vec()));
                let is_integer = !matches!(last, 6..=9 | 12);
                assert_eq!(answer, is_integer.then_some(5));
            }
        }
    }
}

#[test]
fn almost_the_key() {
    let keys = ["", "general", "general.architectur", "general.architecture2", "general.file_typE"];
    let mut file = made(3, Little, 0, 2 * keys.len() as u64);
    for key in keys {
        entry(&mut file, key, 8, 0, "llama");
        entry(&mut file, key, 4, 7, "");
    }
    assert_eq!(compare(&file.bytes), (None, None));
    assert_eq!(compare(&made(3, Little, 0, 0).bytes), (None, None));
    let mut empty = made(3, Little, 0, 1);
    entry(&mut empty, FAMILY, 8, 0, "");
    assert_eq!(compare(&empty.bytes), (Some(vec![]), None));
}
