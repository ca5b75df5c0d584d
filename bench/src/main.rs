//! `bench HOW INPUT`: all is set up, and then, for a count of instructions, the input is not read
//! (`none`), read by this project into tables that are lent (`ours`) or by the Rust crate's own
//! `read`, which allocates its tables (`crate`: they are dropped too), or read by the original
//! (`original`: what it made is dropped too, `kept`: it is not). `agree` compares what the readers
//! say, and `time` times the first of them and the original.

use bench::{inputs::Plan, original, Tables};
use std::hint::black_box;
use std::time::Instant;
use strutpebble::Summary;

fn main() {
    let mut args = std::env::args().skip(1);
    let how = args.next().expect("how to read");
    let bytes: &'static [u8] = Plan::named(&args.next().expect("an input")).bytes().leak();
    let mut tables = Tables::new();
    match how.as_str() {
        "none" => {}
        "ours" => {
            let _ = black_box(tables.read(black_box(bytes)));
        }
        "crate" => drop(black_box(strutpebble::read(black_box(bytes)))),
        "original" => drop(black_box(original(black_box(bytes)))),
        "kept" => std::mem::forget(black_box(original(black_box(bytes)))),
        "agree" => agree(bytes, &mut tables),
        "time" => time(bytes, &mut tables),
        _ => panic!("no such way to read: {how}"),
    }
}

/// Panics where the readers differ in whether they accept, in a count, in where the data starts, or
/// in a tensor.
fn agree(bytes: &'static [u8], tables: &mut Tables) {
    let answer = tables.read(bytes);
    let own = strutpebble::read(bytes);
    assert_eq!(own.as_ref().map(|header| header.summary()), answer.as_ref().copied());
    let (model, header) = match (original(bytes), own) {
        (Ok(model), Ok(header)) => (model, header),
        (Err(error), Err(refusal)) => {
            assert!(refusal.wants_more());
            assert!(error.to_string().contains("failed to fill whole buffer"));
            let (number, place) = (refusal.number(), refusal.place());
            println!("{} bytes, refused {number} at {place}", bytes.len());
            return;
        }
        (theirs, ours) => panic!("{} and {}", theirs.is_ok(), ours.is_ok()),
    };
    let Summary { entries, tensors, data_start, .. } = header.summary();
    let counts = (entries as u64, tensors as u64);
    assert_eq!((counts, data_start), ((model.num_kv(), model.num_tensor()), model.data_offset()));
    assert_eq!((entries, tensors), (model.metadata().len(), model.tensors().len()));
    for (index, theirs) in model.tensors().iter().enumerate() {
        let row = tables.tensors[index];
        assert_eq!(&bytes[row[0] as usize..(row[0] + row[1]) as usize], theirs.name.as_bytes());
        assert_eq!((row[2], row[8], row[9]), (theirs.kind.into(), theirs.offset, theirs.size));
        let own = header.tensor(index).unwrap();
        assert_eq!(own.name(), theirs.name.as_bytes());
        assert_eq!((own.kind().number(), own.offset()), (theirs.kind, theirs.offset));
        assert_eq!(own.size(), theirs.size);
    }
    println!("{} bytes, {entries} entries, {tensors} tensors", bytes.len());
}

/// The shortest run of each reader, in microseconds. They take turns, so that what else the machine
/// does meets both.
fn time(bytes: &'static [u8], tables: &mut Tables) {
    fn once(run: impl FnOnce()) -> f64 {
        let start = Instant::now();
        run();
        start.elapsed().as_secs_f64() * 1e6
    }
    let (mut ours, mut theirs) = (f64::MAX, f64::MAX);
    let start = Instant::now();
    while start.elapsed().as_secs() < 1 {
        ours = ours.min(once(|| {
            let _ = black_box(tables.read(black_box(bytes)));
        }));
        theirs = theirs.min(once(|| drop(black_box(original(black_box(bytes))))));
    }
    println!("{ours:.1} {theirs:.1}");
}
