//! The archive's functions, each behind a safe one. All `unsafe` of this crate is here.
//!
//! A slice is passed as its pointer and its count. Rust's pointer of an empty slice is not null,
//! which the archive asks for.

use alloc::vec::Vec;

/// The words of an entry's row; the constants `SP_ENTRY_*` of the C header name them.
pub type EntryRow = [u64; 7];

/// The words of a tensor's row; the constants `SP_TENSOR_*` of the C header name them.
pub type TensorRow = [u64; 10];

/// What every function writes beside the number that it returns: the answer's words, or the place
/// of a refusal and zeros.
pub type Words = [u64; 8];

extern "C" {
    fn sp_measure(
        prefix: *const u8,
        prefix_len: usize,
        versions: u32,
        kinds: u32,
        answer: *mut Words,
    ) -> u64;
    fn sp_read(
        prefix: *const u8,
        prefix_len: usize,
        versions: u32,
        kinds: u32,
        cap: u64,
        entries: *mut EntryRow,
        entry_rows: usize,
        tensors: *mut TensorRow,
        tensor_rows: usize,
        answer: *mut Words,
    ) -> u64;
    fn sp_find(
        prefix: *const u8,
        prefix_len: usize,
        key: *const u8,
        key_len: usize,
        answer: *mut Words,
    ) -> u64;
    fn sp_find_string(
        prefix: *const u8,
        prefix_len: usize,
        key: *const u8,
        key_len: usize,
        answer: *mut Words,
    ) -> u64;
    fn sp_model_family(prefix: *const u8, prefix_len: usize, answer: *mut Words) -> u64;
    fn sp_file_type(prefix: *const u8, prefix_len: usize, answer: *mut Words) -> u64;
    fn sp_check_ranges(
        tensors: *const TensorRow,
        tensor_rows: usize,
        start: u64,
        length: u64,
        answer: *mut Words,
    ) -> u64;
    fn sp_replay_fetches(
        tensors: *const TensorRow,
        tensor_rows: usize,
        start: u64,
        length: u64,
        trace: *const u8,
        trace_len: usize,
        answers: *mut u64,
        answer_rows: usize,
        answer: *mut Words,
    ) -> u64;
    fn sp_write(
        sheet: *const u8,
        sheet_len: usize,
        version: u32,
        order: u32,
        alignment: u64,
        out: *mut u8,
        out_len: usize,
        answer: *mut Words,
    ) -> u64;
}

/// The number that a function returns, and the words that it wrote.
pub type Answer = (u64, Words);

pub fn measure(prefix: &[u8], versions: u32, kinds: u32) -> Answer {
    let mut words = [0; 8];
    // SAFETY: the pointer and the length are those of one slice, which is only read; the words are
    // this function's own.
    let number = unsafe { sp_measure(prefix.as_ptr(), prefix.len(), versions, kinds, &mut words) };
    (number, words)
}

pub fn read(
    prefix: &[u8],
    versions: u32,
    kinds: u32,
    cap: u64,
    entries: &mut [EntryRow],
    tensors: &mut [TensorRow],
) -> Answer {
    let mut words = [0; 8];
    // SAFETY: each pointer goes with its own slice's length; the tables are borrowed mutably, so
    // that they overlap neither each other nor the prefix, which is only read; the words are this
    // function's own.
    let number = unsafe {
        sp_read(
            prefix.as_ptr(),
            prefix.len(),
            versions,
            kinds,
            cap,
            entries.as_mut_ptr(),
            entries.len(),
            tensors.as_mut_ptr(),
            tensors.len(),
            &mut words,
        )
    };
    (number, words)
}

/// Reads into new tables of so many rows, and gives them with as many rows as the header has. On a
/// refusal they have none.
///
/// Their memory is not cleared first: the archive writes every word of the rows that are given out.
pub fn read_new(
    prefix: &[u8],
    versions: u32,
    kinds: u32,
    cap: u64,
    (entry_rows, tensor_rows): (usize, usize),
) -> (Answer, Vec<EntryRow>, Vec<TensorRow>) {
    let mut words = [0; 8];
    let mut entries: Vec<EntryRow> = Vec::with_capacity(entry_rows);
    let mut tensors: Vec<TensorRow> = Vec::with_capacity(tensor_rows);
    // SAFETY: the prefix's pointer goes with its length, and it is only read. The tables are this
    // function's own, each with memory for as many rows as are named; the archive writes to them
    // and never reads from them. The words are this function's own.
    let number = unsafe {
        sp_read(
            prefix.as_ptr(),
            prefix.len(),
            versions,
            kinds,
            cap,
            entries.as_mut_ptr(),
            entry_rows,
            tensors.as_mut_ptr(),
            tensor_rows,
            &mut words,
        )
    };
    if number == 0 {
        // SAFETY: the header was accepted. So the archive wrote every word of a row for each of its
        // words[2] entries and words[3] tensors, of which there are no more than rows: otherwise
        // the header is refused.
        unsafe {
            entries.set_len((words[2] as usize).min(entry_rows));
            tensors.set_len((words[3] as usize).min(tensor_rows));
        }
    }
    ((number, words), entries, tensors)
}

pub fn find(prefix: &[u8], key: &[u8]) -> Answer {
    let mut words = [0; 8];
    // SAFETY: each pointer goes with its own slice's length, and both slices are only read; the
    // words are this function's own.
    let number =
        unsafe { sp_find(prefix.as_ptr(), prefix.len(), key.as_ptr(), key.len(), &mut words) };
    (number, words)
}

pub fn find_string(prefix: &[u8], key: &[u8]) -> Answer {
    let mut words = [0; 8];
    // SAFETY: each pointer goes with its own slice's length, and both slices are only read; the
    // words are this function's own.
    let number = unsafe {
        sp_find_string(prefix.as_ptr(), prefix.len(), key.as_ptr(), key.len(), &mut words)
    };
    (number, words)
}

pub fn model_family(prefix: &[u8]) -> Answer {
    let mut words = [0; 8];
    // SAFETY: the pointer and the length are those of one slice, which is only read; the words are
    // this function's own.
    let number = unsafe { sp_model_family(prefix.as_ptr(), prefix.len(), &mut words) };
    (number, words)
}

pub fn file_type(prefix: &[u8]) -> Answer {
    let mut words = [0; 8];
    // SAFETY: the pointer and the length are those of one slice, which is only read; the words are
    // this function's own.
    let number = unsafe { sp_file_type(prefix.as_ptr(), prefix.len(), &mut words) };
    (number, words)
}

pub fn check_ranges(tensors: &[TensorRow], start: u64, length: u64) -> Answer {
    let mut words = [0; 8];
    // SAFETY: the pointer and the length are those of one slice, which is only read; the words are
    // this function's own.
    let number =
        unsafe { sp_check_ranges(tensors.as_ptr(), tensors.len(), start, length, &mut words) };
    (number, words)
}

/// The answer for a tensor that a trace never completes.
pub const NEVER: u64 = u64::MAX;

pub fn replay_fetches(
    tensors: &[TensorRow],
    start: u64,
    length: u64,
    trace: &[u8],
    answers: &mut [u64],
) -> Answer {
    let mut words = [0; 8];
    // SAFETY: each pointer goes with its own slice's length; the answers are borrowed mutably, so
    // that they overlap neither the tensors nor the trace, which are only read; the words are this
    // function's own.
    let number = unsafe {
        sp_replay_fetches(
            tensors.as_ptr(),
            tensors.len(),
            start,
            length,
            trace.as_ptr(),
            trace.len(),
            answers.as_mut_ptr(),
            answers.len(),
            &mut words,
        )
    };
    (number, words)
}

/// Writes in the byte order of a number, `ByteOrder::to_number`.
pub fn write(sheet: &[u8], version: u32, order: u32, alignment: u64, out: &mut [u8]) -> Answer {
    let mut words = [0; 8];
    // SAFETY: each pointer goes with its own slice's length; the output is borrowed mutably, so
    // that it does not overlap the sheet, which is only read; the words are this function's own.
    let number = unsafe {
        sp_write(
            sheet.as_ptr(),
            sheet.len(),
            version,
            order,
            alignment,
            out.as_mut_ptr(),
            out.len(),
            &mut words,
        )
    };
    (number, words)
}

#[cfg(test)]
mod tests {
    use super::*;

    /// The tensors a and b, five f32 and three f16, in version 3.
    const A_AND_B: &[u8; 90] = b"GGUF\x03\0\0\0\x02\0\0\0\0\0\0\0\0\0\0\0\0\0\0\0\
        \x01\0\0\0\0\0\0\0a\x01\0\0\0\x05\0\0\0\0\0\0\0\0\0\0\0\0\0\0\0\0\0\0\0\
        \x01\0\0\0\0\0\0\0b\x01\0\0\0\x03\0\0\0\0\0\0\0\x01\0\0\0\x20\0\0\0\0\0\0\0";

    /// An answer of this number with these words in front and zeros after them.
    fn answer<const N: usize>(number: u64, front: [u64; N]) -> Answer {
        let mut words = [0; 8];
        words[..N].copy_from_slice(&front);
        (number, words)
    }

    #[test]
    fn words_of_an_accepted_header() {
        let said = answer(0, [3, 0, 0, 2, 32, 90, 96]);
        assert_eq!(measure(A_AND_B, 3, 39), said);
        let mut tensors = [[9; 10]; 3];
        assert_eq!(read(A_AND_B, 3, 39, 3, &mut [], &mut tensors), said);
        let a = [32, 1, 0, 1, 5, 1, 1, 1, 0, 20];
        let b = [65, 1, 1, 1, 3, 1, 1, 1, 32, 6];
        assert_eq!(tensors, [a, b, [9; 10]]);
        assert_eq!(check_ranges(&tensors[..2], 96, 134), answer(0, []));
        assert_eq!(check_ranges(&tensors[..2], 96, 133), answer(20, [1]));
    }

    #[test]
    fn new_tables() {
        let (answer, entries, tensors) = read_new(A_AND_B, 3, 39, 3, (5, 2));
        assert_eq!(answer, measure(A_AND_B, 3, 39));
        let mut lent = [[9; 10]; 2];
        read(A_AND_B, 3, 39, 3, &mut [], &mut lent);
        assert_eq!((entries.len(), &tensors[..]), (0, &lent[..]));
        // Rows that the header does not need stay out, and a refusal gives none.
        let (_, _, tensors) = read_new(A_AND_B, 3, 39, 3, (0, 9));
        assert_eq!(tensors, lent);
        let (refused, entries, tensors) = read_new(A_AND_B, 3, 39, 3, (9, 1));
        assert_eq!((refused.0, entries.len(), tensors.len()), (6, 0, 0));
    }

    #[test]
    fn words_of_refusals_and_of_questions() {
        for end in 78..82 {
            let said = answer(1, [78]);
            assert_eq!(measure(&A_AND_B[..end], 3, 39), said);
            assert_eq!(read(&A_AND_B[..end], 3, 39, 3, &mut [], &mut [[0; 10]; 2]), said);
            assert_eq!(find(&A_AND_B[..end], b"k"), said);
            assert_eq!(find_string(&A_AND_B[..end], b"k"), said);
            assert_eq!(model_family(&A_AND_B[..end]), said);
            assert_eq!(file_type(&A_AND_B[..end]), said);
        }
        assert_eq!(find(A_AND_B, b"k"), answer(100, []));
        assert_eq!(find_string(A_AND_B, b"k"), answer(100, []));
        assert_eq!(model_family(A_AND_B), answer(100, []));
        assert_eq!(file_type(A_AND_B), answer(102, []));
    }

    #[test]
    fn words_of_the_replay() {
        let mut tensors = [[9; 10]; 2];
        read(A_AND_B, 3, 39, 3, &mut [], &mut tensors);
        // The tensor a, then the header, then b.
        let mut trace = *b"\x01\
            \0\0\0\x10\0\0\0\0\0\0\0\x60\0\0\0\0\0\0\0\x14\
            \0\0\0\x10\0\0\0\0\0\0\0\x00\0\0\0\0\0\0\0\x60\
            \0\0\0\x10\0\0\0\0\0\0\0\x80\0\0\0\0\0\0\0\x06";
        for (length, wanted) in [(134, [1, 3, 9]), (133, [1, NEVER, 9])] {
            // What is lent beyond the tensors stays as it is.
            let mut answers = [9; 3];
            let said = replay_fetches(&tensors, 96, length, &trace, &mut answers);
            assert_eq!((said, answers), (answer(0, []), wanted));
        }
        // Too few answers are refused before a bad trace.
        let mut answers = [9; 3];
        assert_eq!(replay_fetches(&tensors, 96, 134, &[], &mut answers[..1]), answer(45, []));
        assert_eq!(replay_fetches(&tensors, 96, 134, &[], &mut answers), answer(43, []));
        assert_eq!(replay_fetches(&tensors, 96, 134, &trace[..60], &mut answers), answer(43, [41]));
        // The end of the second fetch is 2^64 - 1, and then 2^64.
        trace[25..33].fill(0xff);
        trace[40] = 0;
        let said = replay_fetches(&tensors, 96, 134, &trace, &mut [0; 2]);
        assert_eq!(said, answer(0, []));
        trace[40] = 1;
        assert_eq!(replay_fetches(&tensors, 96, 134, &trace, &mut answers), answer(44, [21]));
        assert_eq!(answers, [9; 3]);
    }

    #[test]
    fn words_of_the_writer() {
        let mut out = [7; 40];
        assert_eq!(write(&[1], 3, 0, 32, &mut out), answer(0, [24, 32]));
        assert_eq!(out[32..], [7; 8]);
        assert_eq!(write(&[1, 0], 3, 0, 32, &mut out), answer(31, [1]));
        assert_eq!(write(&[1], 3, 0, 32, &mut out[..31]), answer(38, []));
    }

    #[test]
    fn words_of_byte_orders() {
        for (order, front) in
            [(0, b"GGUF\x03\0\0\0"), (1, b"GGUF\0\0\0\x03"), (2, b"FUGG\0\0\0\x03")]
        {
            let mut out = [7; 32];
            assert_eq!(write(&[1], 3, order, 32, &mut out), answer(0, [24, 32]));
            assert_eq!(out[..8], *front);
            // It is read as the number by which it was asked for.
            let said = answer(0, [3, order.into(), 0, 0, 32, 24, 32]);
            assert_eq!(measure(&out, 3, 39), said);
            assert_eq!(read(&out, 3, 39, 3, &mut [], &mut []), said);
        }
        // Number 1 is written in version 3 alone.
        let mut out = [7; 32];
        for version in [1, 2] {
            assert_eq!(write(&[1], version, 1, 32, &mut out), answer(30, []));
            assert_eq!(out, [7; 32]);
            let end = if version == 1 { 16 } else { 24 };
            assert_eq!(write(&[1], version, 2, 32, &mut [7; 32]), answer(0, [end, 32]));
        }
    }
}
