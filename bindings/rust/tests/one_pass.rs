//! `read` calls the archive's reader once. What it answers is held against the way of two passes,
//! measuring and then reading into as many rows, on headers, on every prefix of them, and on
//! damaged copies.

mod made;

use made::{a_and_b, made, shortest, Made, DIALECTS};
use strutpebble::{
    measure, read, ByteOrder, EntryRow, Header, Options, Reason, Refusal, Summary, TensorRow,
};

/// A header's summary and its rows.
type Rows = (Summary, Vec<EntryRow>, Vec<TensorRow>);

fn two_passes(options: Options, prefix: &[u8]) -> Result<Rows, Refusal> {
    let measured = options.measure(prefix)?;
    let mut entries = vec![[9; 7]; measured.entries];
    let mut tensors = vec![[9; 10]; measured.tensors];
    let summary = options.read_rows(prefix, &mut entries, &mut tensors)?;
    Ok((summary, entries, tensors))
}

/// Panics where a header is not the one of these rows. The header's own form in words has its rows.
fn same_rows(header: &Header, (summary, entries, tensors): &Rows) {
    assert_eq!(header.summary(), *summary);
    let words = format!("{header:?}");
    let rows = format!("entries: {entries:?}, tensors: {tensors:?} }}");
    assert!(words.ends_with(&rows), "{words} has not the rows {rows}");
    assert_eq!((header.entries().len(), header.tensors().len()), (entries.len(), tensors.len()));
}

/// Panics where the two ways differ.
fn compare(options: Options, prefix: &[u8]) {
    match (options.read(prefix), two_passes(options, prefix)) {
        (Ok(header), Ok(rows)) => same_rows(&header, &rows),
        (Err(one), Err(two)) => {
            assert_eq!(one, two, "{prefix:?}");
            assert_ne!(one.reason(), Reason::TooFewRows);
        }
        (one, two) => panic!("{one:?} and {two:?}: {prefix:?}"),
    }
}

/// A header with an entry of every type, arrays, and tensors of 0 to 4 dimensions.
fn rich(version: u32, order: ByteOrder) -> Made {
    let mut file = made(version, order, 5, 9);
    file.key("general.alignment", 4).number(4, 64);
    file.key("", 0).number(1, 1);
    file.key("text", 8).text("strut");
    file.key("wide", 10).number(8, u64::MAX);
    file.array("tokenizer.tokens", 8, 4).text("a").text("").text("bc").text("d");
    file.array("none", 9, 0);
    file.array("halves", 2, 3).number(2, 1).number(2, 2).number(2, 3);
    file.array("lists", 9, 2).inner(8, 2).text("a").text("").inner(9, 1).inner(2, 1).number(2, 5);
    file.key("yes", 7).number(1, 1);
    for dimensions in 0..5 {
        file.tensor("t", &[3; 4][..dimensions], 0, 64 * dimensions as u64);
    }
    file
}

/// Headers of all versions and byte orders, also of the shortest records.
fn headers() -> Vec<Vec<u8>> {
    let mut all = vec![];
    for (version, order) in DIALECTS {
        all.push(made(version, order, 0, 0).bytes);
        all.push(a_and_b(version, order));
        all.push(rich(version, order).bytes);
        all.push(shortest(version, order, 3, 70));
    }
    all
}

#[test]
fn every_prefix_and_bytes_after_it() {
    for file in headers() {
        assert!(read(&file).is_ok());
        for end in 0..=file.len() {
            compare(Options::new(), &file[..end]);
        }
        let longer = [&file[..], &[0xff; 300]].concat();
        compare(Options::new(), &longer);
        assert_eq!(read(&longer).unwrap().summary(), measure(&file).unwrap());
    }
}

#[test]
fn other_options() {
    for file in headers() {
        for version in 0..=4 {
            compare(Options::new().highest_version(version), &file);
        }
        for cap in [0, 1, u64::MAX] {
            compare(Options::new().cap(cap), &file);
        }
        let longer = [&file[..], &[0; 64]].concat();
        compare(Options::new().highest_kind(0), &longer);
    }
}

#[test]
fn each_byte_changed() {
    for file in headers() {
        for place in 0..file.len() {
            for byte in [0, 1, 2, 3, 4, 9, 13, 40, 0x7f, 0xff, file[place] ^ 1, file[place] ^ 0x80]
            {
                let mut damaged = file.clone();
                damaged[place] = byte;
                compare(Options::new(), &damaged);
            }
        }
    }
}

#[test]
fn counts_of_every_size() {
    for (version, order) in DIALECTS {
        let width = if version == 1 { 4 } else { 8 };
        for bits in 0..8 * width {
            for count in [(1u64 << bits) - 1, 1 << bits, u64::MAX >> (63 - bits)] {
                compare(Options::new(), &made(version, order, count, 0).bytes);
                compare(Options::new(), &made(version, order, 0, count).bytes);
                let mut file = made(version, order, count, count);
                file.key("", 0).number(1, 5).tensor("", &[], 0, 0);
                compare(Options::new(), &file.bytes);
            }
        }
    }
}

#[test]
fn the_front_of_another_form() {
    for file in headers() {
        for magic in [b"GGUF", b"FUGG"] {
            for version in 0..=4u32 {
                for version in [version.to_le_bytes(), version.to_be_bytes()] {
                    compare(Options::new(), &[&magic[..], &version, &file[8..]].concat());
                }
            }
        }
    }
}
