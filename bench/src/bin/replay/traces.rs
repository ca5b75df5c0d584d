//! The traces of fetches that are replayed: made up, and the same bytes each time. The records of a
//! trace fetch a whole file in pieces of one length, each piece once.

/// How many bytes the records of a trace fetch in all: 100,000 MiB.
pub const FETCHED: u64 = 100_000 << 20;

/// The order in which pieces are fetched.
#[derive(Clone, Copy)]
pub enum Order {
    Rising,
    /// So many streams divide the file, and each of them fetches a piece in turn, in rising order.
    Streams(u64),
    Falling,
    /// Any order, as by lot.
    Shuffled,
    /// Every second piece, in falling order, and then the holes between them, in rising order. A
    /// sweep through a tensor goes back after each hole, and always to the first record: no other
    /// order of pieces takes more looks.
    Holes,
}

impl Order {
    /// The numbers of so many pieces in this order, counted from 0.
    pub fn of_pieces(self, count: u64) -> Vec<u64> {
        match self {
            Order::Rising => (0..count).collect(),
            Order::Streams(streams) => in_streams(streams, count),
            Order::Falling => (0..count).rev().collect(),
            Order::Shuffled => shuffled(count),
            Order::Holes => {
                let (holes, others): (Vec<_>, Vec<_>) = (0..count).partition(|n| n % 2 == 0);
                others.into_iter().rev().chain(holes).collect()
            }
        }
    }
}

/// The numbers of pieces that streams fetch in turn.
fn in_streams(streams: u64, count: u64) -> Vec<u64> {
    let length = count.div_ceil(streams);
    let turn = |step| (0..streams).map(move |stream| stream * length + step);
    (0..length).flat_map(turn).filter(|piece| *piece < count).collect()
}

/// The numbers of pieces in an order by xorshift, the same each time.
fn shuffled(count: u64) -> Vec<u64> {
    let mut seed: u64 = 0x9E37_79B9_7F4A_7C15;
    let mut pieces: Vec<_> = (0..count).collect();
    for last in (1..pieces.len()).rev() {
        seed ^= seed << 13;
        seed ^= seed >> 7;
        seed ^= seed << 17;
        pieces.swap(last, (seed >> 33) as usize % (last + 1));
    }
    pieces
}

/// How long a piece is, where there are so many.
pub fn piece_length(count: u64) -> u64 {
    FETCHED.div_ceil(count)
}

/// The trace of these pieces.
pub fn traced(pieces: &[u64]) -> Vec<u8> {
    let length = piece_length(pieces.len() as u64);
    let mut trace = vec![1];
    for piece in pieces {
        trace.extend(16u32.to_be_bytes());
        trace.extend((piece * length).to_be_bytes());
        trace.extend(length.to_be_bytes());
    }
    trace
}
