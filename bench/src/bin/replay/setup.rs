//! A replay of a trace of fetches, set up: the header of a language model's file, and a trace of
//! fetches of that file.

use crate::traces::{piece_length, traced, Order, FETCHED};
use bench::{inputs::Plan, Tables};
use strutpebble::{Header, Refusal, Sheet, TensorRow};

// The archive's own function: of the Rust crate's functions none takes a table for the answers.
extern "C" {
    fn sp_replay_fetches(
        tensors: *const TensorRow,
        tensor_rows: usize,
        data_start: u64,
        file_length: u64,
        trace: *const u8,
        trace_len: usize,
        answers: *mut u64,
        answer_rows: usize,
        answer: *mut [u64; 8],
    ) -> u64;
}

/// The header of a file with so many tensors, of which nearly all that a trace fetches is data: one
/// of the inputs of the readers, its matrices with more rows.
fn header_bytes(tensors: u64) -> Vec<u8> {
    let bytes = Plan { tensors, ..Plan::default() }.bytes();
    let model = strutpebble::read(&bytes).expect("a header");
    let bytes_with = |dimensions: usize| -> u64 {
        let chosen = model.tensors().filter(|tensor| tensor.lengths().len() == dimensions);
        chosen.map(|tensor| tensor.size()).sum()
    };
    // The header has less than 1 MiB.
    let (more, before) = (FETCHED - (1 << 20) - bytes_with(1), bytes_with(2));
    let mut sheet = Sheet::new();
    for entry in model.entries() {
        sheet = sheet.entry(entry.key(), entry.value());
    }
    for tensor in model.tensors() {
        let mut lengths = tensor.lengths().to_vec();
        if let [_, rows] = &mut lengths[..] {
            *rows = *rows * more / before;
        }
        sheet = sheet.tensor(tensor.name(), tensor.kind(), &lengths);
    }
    sheet.to_vec().expect("a header")
}

/// A header that was read, a trace of fetches of its file, and a table for the answers, to be lent.
pub struct Replay {
    header: Header<'static>,
    rows: Vec<TensorRow>,
    file_length: u64,
    /// The numbers of the file's pieces, in the order in which they are fetched.
    pieces: Vec<u64>,
    trace: Vec<u8>,
    answers: Vec<u64>,
}

impl Replay {
    /// A replay by its parts, as in `tensors=300,records=100000,streams=8`.
    pub fn named(name: &str) -> Replay {
        let (mut tensors, mut records, mut order) = (0, 0, Order::Rising);
        for part in name.split(',') {
            let (word, count) = part.split_once('=').unwrap_or((part, "0"));
            let count: u64 = count.parse().expect("a count");
            match word {
                "tensors" => tensors = count,
                "records" => records = count,
                "streams" => order = Order::Streams(count),
                "falling" => order = Order::Falling,
                "shuffled" => order = Order::Shuffled,
                "holes" => order = Order::Holes,
                _ => panic!("no such part of a replay: {word}"),
            }
        }
        Replay::new(tensors, order.of_pieces(records))
    }

    /// A replay of the pieces of a file with so many tensors. The file ends with the last of them.
    fn new(tensors: u64, pieces: Vec<u64>) -> Replay {
        let bytes: &'static [u8] = header_bytes(tensors).leak();
        let header = strutpebble::read(bytes).expect("a header");
        let mut tables = Tables::new();
        tables.read(bytes).expect("a header");
        let rows = tables.tensors[..tensors as usize].to_vec();
        let last = rows.last().expect("a tensor");
        let file_length = header.data_start() + last[8] + last[9];
        let (trace, answers) = (traced(&pieces), vec![0; rows.len()]);
        Replay { header, rows, file_length, pieces, trace, answers }
    }

    /// The archive's function, which fills the lent table. The number that it returns is given.
    pub fn lent(&mut self) -> u64 {
        let mut words = [0; 8];
        // SAFETY: each pointer goes with its own table's length; the answers and the words are
        // apart from the rows and the trace, which are only read.
        unsafe {
            sp_replay_fetches(
                self.rows.as_ptr(),
                self.rows.len(),
                self.header.data_start(),
                self.file_length,
                self.trace.as_ptr(),
                self.trace.len(),
                self.answers.as_mut_ptr(),
                self.answers.len(),
                &mut words,
            )
        }
    }

    /// The Rust crate's function, which allocates its answers.
    pub fn by_crate(&self) -> Result<Vec<Option<u64>>, Refusal> {
        self.header.replay_fetches(self.file_length, &self.trace)
    }

    /// The answers that are due: each piece is fetched once, so that a tensor is complete with the
    /// last of the records that fetch a piece of it.
    fn due(&self) -> Vec<u64> {
        let length = piece_length(self.pieces.len() as u64);
        let mut records = vec![0; self.pieces.len()];
        for (index, piece) in self.pieces.iter().enumerate() {
            records[*piece as usize] = index as u64 + 1;
        }
        let last_of = |row: &TensorRow| {
            let start = self.header.data_start() + row[8];
            let (first, last) = (start / length, (start + row[9] - 1) / length);
            *records[first as usize..=last as usize].iter().max().expect("a piece")
        };
        self.rows.iter().map(last_of).collect()
    }

    /// Panics where an answer is not the one that is due; else says how much was replayed.
    pub fn agree(&mut self) -> String {
        let due = self.due();
        assert_eq!(self.lent(), 0);
        assert_eq!(self.answers, due);
        let own = self.by_crate().expect("answers");
        assert_eq!(own, due.into_iter().map(Some).collect::<Vec<_>>());
        let (trace, file) = (self.trace.len(), self.file_length);
        format!("a trace of {trace} bytes, a file of {file} bytes")
    }
}
