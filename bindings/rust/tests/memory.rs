//! What is asked of the allocator: nothing for counts that are made up, and for a header that is
//! read, its rows and no more. And whatever stood in that memory, the rows are written whole.

mod made;

use made::{made, shortest, DIALECTS};
use std::alloc::{GlobalAlloc, Layout, System};
use std::cell::Cell;
use strutpebble::ByteOrder::{Big, BigMagic, Little};
use strutpebble::{
    file_type, find, find_string, measure, model_family, read, Options, Reason, Value,
};

thread_local! {
    /// How many bytes this thread asked for. Each test has its own thread.
    static ASKED: Cell<usize> = const { Cell::new(0) };
}

/// What fresh memory is filled with, so that nothing can be taken for zeros.
const STALE: u8 = 0xa5;

/// The system's allocator, with a count of what is asked of it.
struct Counted;

// SAFETY: every call is handed on to the system's allocator, and only new memory is filled.
unsafe impl GlobalAlloc for Counted {
    unsafe fn alloc(&self, layout: Layout) -> *mut u8 {
        ASKED.with(|asked| asked.set(asked.get() + layout.size()));
        // SAFETY: the caller keeps to what `alloc` asks; memory that is there has that size.
        unsafe {
            let at = System.alloc(layout);
            if !at.is_null() {
                at.write_bytes(STALE, layout.size());
            }
            at
        }
    }

    unsafe fn dealloc(&self, at: *mut u8, layout: Layout) {
        // SAFETY: the caller keeps to what `dealloc` asks.
        unsafe { System.dealloc(at, layout) }
    }
}

#[global_allocator]
static HEAP: Counted = Counted;

/// The bytes that are asked for while something runs.
fn asked<T>(run: impl FnOnce() -> T) -> usize {
    let before = ASKED.with(Cell::get);
    drop(run());
    ASKED.with(Cell::get) - before
}

#[test]
fn the_count_counts() {
    assert!(asked(|| vec![1u8; 1000]) >= 1000);
    assert_eq!(asked(|| 1), 0);
}

#[test]
fn rows_and_nothing_else() {
    for (version, order) in DIALECTS {
        for (tensors, entries) in [(0, 0), (1, 0), (0, 1), (40, 100)] {
            let file = shortest(version, order, tensors, entries);
            assert!(read(&file).is_ok());
            let rows = 80 * tensors as usize + 56 * entries as usize;
            assert_eq!(asked(|| read(&file)), rows);
            // The bound that `Options::read` promises, in tenths.
            let tenths = if version == 1 { 63 } else { 44 };
            assert!(10 * rows < tenths * file.len());
        }
    }
}

#[test]
fn the_header_is_not_measured_first() {
    // A header that is refused at its last tensor, the kind of which is 12 bytes before its end:
    // measured first, it would ask for no rows.
    for order in [Little, Big, BigMagic] {
        let mut file = shortest(3, order, 10, 10);
        let kind = file.len() - 12;
        file[kind + if order.is_big() { 3 } else { 0 }] = 40;
        assert_eq!(read(&file).unwrap_err().reason(), Reason::UnknownKind);
        assert_eq!(asked(|| read(&file)), 10 * (56 + 80));
    }
}

#[test]
fn rows_are_written_whole() {
    for (version, order) in DIALECTS {
        let mut file = made(version, order, 3, 5);
        file.key("number", 4).number(4, 7);
        file.key("minus", 1).number(1, 0xff);
        file.key("text", 8).text("strut");
        file.array("none", 9, 0);
        file.array("tokenizer.tokens", 8, 4).text("a").text("b").text("").text("c");
        file.tensor("a", &[], 0, 0).tensor("b", &[3], 1, 32).tensor("c", &[1, 2, 3, 4], 0, 64);
        let mut entries = vec![[0; 7]; 5];
        let mut tensors = vec![[0; 10]; 3];
        Options::new().read_rows(&file.bytes, &mut entries, &mut tensors).unwrap();
        // The header's form in words has its rows.
        let words = format!("{:?}", read(&file.bytes).unwrap());
        assert!(words.ends_with(&format!("entries: {entries:?}, tensors: {tensors:?} }}")));
    }
    // More entries than the reader keeps the rows of while it tests.
    let file = shortest(3, Little, 100, 100);
    let header = read(&file).unwrap();
    assert!(header.entries().all(|entry| entry.value() == Value::U8(5)));
    assert!(header.tensors().all(|tensor| tensor.shape() == [1; 4] && tensor.size() == 4));
}

#[test]
fn made_up_counts_cost_nothing() {
    for (version, order) in DIALECTS {
        let most = if version == 1 { u32::MAX.into() } else { u64::MAX };
        for (tensors, entries) in [(most, 0), (0, most), (most, most), (1 << 24, 1 << 24)] {
            let mut file = made(version, order, tensors, entries);
            file.bytes.resize(100_000, 0);
            assert!(read(&file.bytes).is_err());
            assert_eq!(asked(|| read(&file.bytes)), 0);
        }
    }
}

#[test]
fn one_record_too_many_costs_nothing() {
    for (version, order) in DIALECTS {
        for (tensors, entries) in [(10, 0), (0, 10), (10, 10)] {
            // The claim is of one record more than the bytes have: just above what they can hold.
            let whole = shortest(version, order, tensors, entries);
            let cut = &whole[..whole.len() - 1];
            assert!(read(cut).unwrap_err().wants_more());
            assert_eq!(asked(|| read(cut)), 0);
        }
    }
}

#[test]
fn questions_allocate_nothing() {
    let mut file = made(3, Little, 0, 3);
    file.key("general.architecture", 8).text("llama");
    file.key("general.file_type", 4).number(4, 7);
    file.array("tokenizer.tokens", 8, 2).text("a").text("b");
    let file = file.bytes;
    assert_eq!(asked(|| measure(&file)), 0);
    assert_eq!(asked(|| find(&file, "tokenizer.tokens")), 0);
    assert_eq!(asked(|| find_string(&file, "general.architecture")), 0);
    assert_eq!(asked(|| model_family(&file)), 0);
    assert_eq!(asked(|| file_type(&file)), 0);
    let header = read(&file).unwrap();
    assert_eq!(asked(|| (header.model_family(), header.file_type(), header.get("k"))), 0);
}
