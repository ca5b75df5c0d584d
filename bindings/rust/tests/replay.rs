//! `Header::replay_fetches`: known answers, every refusal with its place, and thousands of traces
//! that are held against a definition written here, byte by byte.

mod made;

use made::{a_and_b, made, DIALECTS};
use strutpebble::ByteOrder::Little;
use strutpebble::{read, Header, Place, Reason};

/// What a record fetched: a place in the file, and how many bytes from there on.
type Fetch = (u64, u64);

/// The trace of these fetches.
fn traced(fetches: &[Fetch]) -> Vec<u8> {
    let mut trace = vec![1];
    for (place, count) in fetches {
        trace.extend(16u32.to_be_bytes());
        trace.extend(place.to_be_bytes());
        trace.extend(count.to_be_bytes());
    }
    trace
}

/// The answers for the tensors a, of 20 bytes from 96 on, and b, of 6 bytes from 128 on, in a file
/// of so many bytes. They are the same in every version and byte order.
fn replayed(file_length: u64, fetches: &[Fetch]) -> [Option<u64>; 2] {
    let answers = DIALECTS.map(|(version, order)| {
        let file = a_and_b(version, order);
        let header = read(&file).unwrap();
        assert_eq!((header.range_of(0), header.range_of(1)), (Ok(96..116), Ok(128..134)));
        header.replay_fetches(file_length, &traced(fetches)).unwrap()
    });
    assert_eq!(answers, [&answers[0][..]; DIALECTS.len()]);
    [answers[0][0], answers[0][1]]
}

#[test]
fn the_bytes_of_a_trace() {
    #[rustfmt::skip]
    let trace = [
        1,
        0, 0, 0, 16,   0, 0, 0, 0, 0, 0, 0, 96,   0, 0, 0, 0, 0, 0, 0, 20,
        0, 0, 0, 16,   0, 0, 0, 0, 0, 0, 0, 128,  0, 0, 0, 0, 0, 0, 1, 0,
    ];
    assert_eq!(traced(&[(96, 20), (128, 256)]), trace);
    let file = a_and_b(3, Little);
    let header = read(&file).unwrap();
    assert_eq!(header.replay_fetches(134, &trace), Ok(vec![Some(1), Some(2)]));
    assert_eq!(header.replay_fetches(134, &trace[..21]), Ok(vec![Some(1), None]));
    assert_eq!(header.replay_fetches(134, &trace[..1]), Ok(vec![None, None]));
}

#[test]
fn one_range() {
    assert_eq!(replayed(134, &[(96, 38)]), [Some(1), Some(1)]);
    assert_eq!(replayed(134, &[(0, 134)]), [Some(1), Some(1)]);
    assert_eq!(replayed(134, &[(96, 20)]), [Some(1), None]);
    assert_eq!(replayed(134, &[(128, 6)]), [None, Some(1)]);
    assert_eq!(replayed(134, &[(97, 37)]), [None, Some(1)]);
    assert_eq!(replayed(134, &[(96, 19)]), [None, None]);
    assert_eq!(replayed(134, &[(116, 12)]), [None, None]);
    assert_eq!(replayed(134, &[(96, 0)]), [None, None]);
    assert_eq!(replayed(134, &[]), [None, None]);
}

#[test]
fn byte_by_byte() {
    // Record k fetches the byte at 95 + k; and, backwards, the byte at 134 - k.
    let in_order: Vec<Fetch> = (96..134).map(|byte| (byte, 1)).collect();
    assert_eq!(replayed(134, &in_order), [Some(20), Some(38)]);
    let backwards: Vec<Fetch> = in_order.into_iter().rev().collect();
    assert_eq!(replayed(134, &backwards), [Some(38), Some(6)]);
    assert_eq!(replayed(134, &backwards[..37]), [None, Some(6)]);
    assert_eq!(replayed(134, &backwards[..5]), [None, None]);
}

#[test]
fn a_hole_that_is_filled_later() {
    let fetches = [(96, 10), (107, 9), (128, 6), (116, 12), (106, 1)];
    assert_eq!(replayed(134, &fetches[..3]), [None, Some(3)]);
    assert_eq!(replayed(134, &fetches[..4]), [None, Some(3)]);
    assert_eq!(replayed(134, &fetches), [Some(5), Some(3)]);
    // Two holes, the second filled first.
    let fetches = [(112, 4), (96, 4), (104, 4), (108, 4), (100, 4)];
    assert_eq!(replayed(134, &fetches[..4]), [None, None]);
    assert_eq!(replayed(134, &fetches), [Some(5), None]);
}

#[test]
fn past_the_end_of_the_file() {
    let all = [(96, u64::MAX - 96)];
    for (file_length, wanted) in [
        (u64::MAX, [Some(1), Some(1)]),
        (134, [Some(1), Some(1)]),
        (133, [Some(1), None]),
        (116, [Some(1), None]),
        (115, [None, None]),
        (96, [None, None]),
        (0, [None, None]),
    ] {
        assert_eq!(replayed(file_length, &all), wanted, "{file_length} bytes");
        assert_eq!(replayed(file_length, &[(96, 38)]), wanted, "{file_length} bytes");
    }
    // What starts at the end of the file, or after it, delivers nothing, and counts as a record.
    let fetches = [(134, 1000), (135, 1), (u64::MAX, 0), (128, 7), (96, 20)];
    assert_eq!(replayed(134, &fetches), [Some(5), Some(4)]);
}

#[test]
fn twice() {
    assert_eq!(replayed(134, &[(96, 20), (96, 20), (128, 6), (128, 6)]), [Some(1), Some(3)]);
    // As many bytes as a has, but not all of them.
    assert_eq!(replayed(134, &[(96, 10), (96, 10)]), [None, None]);
    assert_eq!(replayed(134, &[(96, 10), (101, 10), (96, 19)]), [None, None]);
    assert_eq!(replayed(134, &[(96, 10), (96, 10), (105, 11)]), [Some(3), None]);
}

#[test]
fn tensors_of_no_bytes() {
    // Of a kind that takes none, of a length of 0, and after the end of any file.
    let file = made(3, Little, 4, 0)
        .tensor("a", &[64], 31, 0)
        .tensor("b", &[0], 0, 32)
        .tensor("c", &[0], 0, u64::MAX - 31)
        .tensor("d", &[1], 24, 0)
        .bytes
        .clone();
    let header = read(&file).unwrap();
    let start = header.data_start();
    for file_length in [0, start, start + 1, u64::MAX] {
        let none = header.replay_fetches(file_length, &[1]);
        assert_eq!(none, Ok(vec![Some(0), Some(0), Some(0), None]));
        let d = (file_length > start).then_some(2);
        let some = header.replay_fetches(file_length, &traced(&[(0, 9), (start, 1)]));
        assert_eq!(some, Ok(vec![Some(0), Some(0), Some(0), d]));
    }
}

#[test]
fn no_tensors() {
    let file = made(3, Little, 0, 0).bytes;
    let header = read(&file).unwrap();
    assert_eq!(header.replay_fetches(32, &[1]), Ok(vec![]));
    assert_eq!(header.replay_fetches(32, &traced(&[(0, 32)])), Ok(vec![]));
}

#[test]
fn the_last_byte_that_a_file_can_have() {
    // 31 bytes from 2^64 - 32 on, and one byte more, which no file has.
    for (length, wanted) in [(31, Some(2)), (32, None)] {
        let file = made(3, Little, 1, 0).tensor("a", &[length], 24, u64::MAX - 95).bytes.clone();
        let header = read(&file).unwrap();
        assert_eq!(header.data_start(), 64);
        let trace = traced(&[(0, u64::MAX - 1), (u64::MAX - 31, 31), (0, u64::MAX)]);
        assert_eq!(header.replay_fetches(u64::MAX, &trace), Ok(vec![wanted]));
        assert_eq!(header.replay_fetches(u64::MAX - 1, &trace), Ok(vec![None]));
    }
    // A tensor that would start above 2^64 - 1 is not that of the bytes at the front.
    let file = made(3, Little, 1, 0).tensor("a", &[], 0, u64::MAX - 31).bytes.clone();
    let trace = traced(&[(0, u64::MAX)]);
    assert_eq!(read(&file).unwrap().replay_fetches(u64::MAX, &trace), Ok(vec![None]));
}

#[test]
fn more_records_than_two_bytes_count() {
    let file = made(3, Little, 1, 0).tensor("a", &[70_000], 24, 0).bytes.clone();
    let header = read(&file).unwrap();
    assert_eq!(header.range_of(0), Ok(64..70_064));
    let mut fetches: Vec<Fetch> = (64..70_064).map(|byte| (byte, 1)).collect();
    assert_eq!(header.replay_fetches(70_064, &traced(&fetches)), Ok(vec![Some(70_000)]));
    assert_eq!(header.replay_fetches(70_064, &traced(&fetches[1..])), Ok(vec![None]));
    fetches.reverse();
    assert_eq!(header.replay_fetches(70_064, &traced(&fetches)), Ok(vec![Some(70_000)]));
}

/// The number of a refusal, and its place.
type Fault = (u64, Place);

/// The answers of a header, or its refusal.
fn answered(header: &Header, file_length: u64, trace: &[u8]) -> Result<Vec<Option<u64>>, Fault> {
    header.replay_fetches(file_length, trace).map_err(|refusal| {
        let reason = if refusal.number() == 44 { Reason::TraceOverflow } else { Reason::BadTrace };
        assert_eq!((refusal.reason(), refusal.wants_more()), (reason, false));
        (refusal.number(), refusal.place())
    })
}

/// The refusal of a trace, whatever the file's length and whatever tensors there are.
fn refused(trace: &[u8]) -> Fault {
    let (two, none) = (a_and_b(3, Little), made(3, Little, 0, 0).bytes);
    let refusals = [(&two, 134), (&two, 0), (&two, u64::MAX), (&none, 134), (&none, 0)]
        .map(|(file, length)| answered(&read(file).unwrap(), length, trace).unwrap_err());
    assert_eq!(refusals, [refusals[0]; 5], "{trace:?}");
    refusals[0]
}

#[test]
fn versions_43() {
    assert_eq!(refused(&[]), (43, Place::Trace(0)));
    let mut trace = traced(&[(96, 38), (0, 1)]);
    for version in (0..=255).filter(|version| *version != 1) {
        trace[0] = version;
        assert_eq!(refused(&trace), (43, Place::Trace(0)));
        assert_eq!(refused(&[version]), (43, Place::Trace(0)));
    }
    let file = a_and_b(3, Little);
    let refusal = read(&file).unwrap().replay_fetches(134, &[2]).unwrap_err();
    let words = "refused 43 at byte 0 of the trace: the trace is not well formed";
    assert_eq!((refusal.reason(), refusal.to_string().as_str()), (Reason::BadTrace, words));
}

#[test]
fn lengths_of_records_43() {
    for length in [0, 1, 15, 17, 20, 32, 16 << 8, 16 << 24, (1 << 24) + 16, u32::MAX] {
        for (record, place) in [(0, 1), (1, 21), (2, 41)] {
            let mut trace = traced(&[(96, 38), (0, 1), (128, 6)]);
            trace[1 + 20 * record..][..4].copy_from_slice(&length.to_be_bytes());
            assert_eq!(refused(&trace), (43, Place::Trace(place)), "length {length}");
        }
    }
}

#[test]
fn cut_records_43() {
    let trace = traced(&[(96, 38), (0, 1)]);
    for (start, end) in [(1, 21), (21, 41)] {
        for cut in start + 1..end {
            assert_eq!(refused(&trace[..cut]), (43, Place::Trace(start as u64)), "{cut} bytes");
        }
    }
    // Bytes after the last record are a record that is cut.
    for byte in [0, 1, 16, 255] {
        assert_eq!(refused(&[&trace[..], &[byte]].concat()), (43, Place::Trace(41)));
    }
}

#[test]
fn fetches_that_end_too_high_44() {
    // What ends at 2^64 - 1 is fetched.
    for last in [(u64::MAX, 0), (u64::MAX - 1, 1), (1 << 63, (1 << 63) - 1)] {
        assert_eq!(replayed(134, &[(96, 20), last]), [Some(1), None]);
    }
    for last in [(96, u64::MAX - 96), (1, u64::MAX - 1), (0, u64::MAX)] {
        assert_eq!(replayed(134, &[(96, 1), last]), [Some(2), Some(2)]);
    }
    // What ends at 2^64 is not.
    for high in [(u64::MAX, 1), (u64::MAX - 1, 2), (1 << 63, 1 << 63), (1, u64::MAX)] {
        assert_eq!(refused(&traced(&[high, (96, 38)])), (44, Place::Trace(1)));
        assert_eq!(refused(&traced(&[(96, 38), high])), (44, Place::Trace(21)));
    }
    assert_eq!(refused(&traced(&[(u64::MAX, u64::MAX)])), (44, Place::Trace(1)));
    let file = a_and_b(3, Little);
    let answer = read(&file).unwrap().replay_fetches(134, &traced(&[(0, 1), (u64::MAX, 1)]));
    let words = "refused 44 at byte 21 of the trace: a fetch of the trace ends above 2^64 - 1";
    assert_eq!(answer.unwrap_err().to_string(), words);
}

#[test]
fn of_two_faults_the_first() {
    let (good, high) = ((96, 38), (u64::MAX, 1));
    // A fetch that ends too high, and then a length of 17, a cut, or another such fetch.
    let mut trace = traced(&[good, high, good]);
    trace[44] = 17;
    assert_eq!(refused(&trace), (44, Place::Trace(21)));
    assert_eq!(refused(&trace[..60]), (44, Place::Trace(21)));
    assert_eq!(refused(&traced(&[good, high, high])), (44, Place::Trace(21)));
    // A length of 17, and then a fetch that ends too high, or a cut.
    let mut trace = traced(&[good, good, high]);
    trace[24] = 17;
    assert_eq!(refused(&trace), (43, Place::Trace(21)));
    assert_eq!(refused(&trace[..60]), (43, Place::Trace(21)));
    // Both in one record: its length comes first. And the version before all.
    let mut trace = traced(&[good, high]);
    trace[24] = 17;
    assert_eq!(refused(&trace), (43, Place::Trace(21)));
    trace[0] = 2;
    assert_eq!(refused(&trace), (43, Place::Trace(0)));
    // A fetch that completes all tensors hides no fault after it.
    assert_eq!(refused(&traced(&[good, good, high])), (44, Place::Trace(41)));
}

// From here on: the definition, and traces to hold it against.

/// Whether one of the fetches delivers a byte of a file of so many bytes.
fn delivered(fetches: &[Fetch], file_length: u64, byte: u64) -> bool {
    let has = |(place, count): &Fetch| *place <= byte && byte - place < *count;
    byte < file_length && fetches.iter().any(has)
}

/// The least number of fetches, from the first on, by which each byte of a tensor is delivered.
fn least(fetches: &[Fetch], file_length: u64, (place, size): (u64, u64)) -> Option<u64> {
    let complete = |number: &usize| {
        let first = &fetches[..*number];
        (place..place + size).all(|byte| delivered(first, file_length, byte))
    };
    (0..=fetches.len()).find(complete).map(|number| number as u64)
}

/// The fetches of a trace, or its first fault.
fn parsed(trace: &[u8]) -> Result<Vec<Fetch>, Fault> {
    let Some((1, records)) = trace.split_first() else {
        return Err((43, Place::Trace(0)));
    };
    let number = |bytes: &[u8]| bytes.iter().fold(0, |sum, byte| 256 * sum + u128::from(*byte));
    let fetch = |(index, record): (usize, &[u8])| {
        let at = Place::Trace(1 + 20 * index as u64);
        if record.len() < 20 || number(&record[..4]) != 16 {
            return Err((43, at));
        }
        let (place, count) = (number(&record[4..12]), number(&record[12..]));
        match u64::try_from(place + count) {
            Ok(_) => Ok((place as u64, count as u64)),
            Err(_) => Err((44, at)),
        }
    };
    records.chunks(20).enumerate().map(fetch).collect()
}

/// Numbers that look random, the same in every run.
struct Numbers(u64);

impl Numbers {
    fn below(&mut self, limit: u64) -> u64 {
        self.0 ^= self.0 << 13;
        self.0 ^= self.0 >> 7;
        self.0 ^= self.0 << 17;
        (self.0 >> 20) % limit
    }

    fn one_in(&mut self, count: u64) -> bool {
        self.below(count) == 0
    }

    /// One of the places of a list that is not empty.
    fn index(&mut self, length: usize) -> usize {
        self.below(length as u64) as usize
    }
}

/// The kind and the length of a small tensor, and how many bytes it has: none, some, or a multiple
/// of 8, so that the next one may follow with no bytes between.
fn kind_and_length(numbers: &mut Numbers) -> (u64, u64, u64) {
    let size = numbers.below(25);
    match numbers.below(8) {
        0 => (31, size, 0),
        1 => (0, size / 4, size / 4 * 4),
        2 | 3 => (24, size / 8 * 8, size / 8 * 8),
        _ => (24, size, size),
    }
}

/// A header with up to five small tensors, and what the definition asks of them.
struct Small {
    header: Vec<u8>,
    /// Where each tensor starts in the file, and how many bytes it has.
    tensors: Vec<(u64, u64)>,
    data_start: u64,
    /// The place after the last byte of the tensor that ends last.
    data_end: u64,
    file_length: u64,
}

impl Small {
    fn new(numbers: &mut Numbers) -> Small {
        let (version, order) = DIALECTS[numbers.index(DIALECTS.len())];
        let count = 1 + numbers.below(5);
        let mut header = made(version, order, count, 1);
        header.key("general.alignment", 4).number(4, 8);
        let mut offsets = vec![];
        let mut end: u64 = 0;
        for _ in 0..count {
            let (kind, length, size) = kind_and_length(numbers);
            // Anywhere, also over others; or behind the one before.
            let offset =
                if numbers.one_in(3) { 8 * numbers.below(8) } else { end.next_multiple_of(8) };
            header.tensor("t", &[length], kind, offset);
            offsets.push((offset, size));
            end = offset + size;
        }
        let data_start = header.bytes.len().next_multiple_of(8) as u64;
        let tensors: Vec<_> =
            offsets.iter().map(|(offset, size)| (data_start + offset, *size)).collect();
        let data_end = tensors.iter().map(|(place, size)| place + size).max().unwrap();
        let file_length = match numbers.below(6) {
            0 => data_end - numbers.below(data_end - data_start + 1),
            1 => data_end + numbers.below(9),
            2 => u64::MAX - numbers.below(2),
            _ => data_end,
        };
        Small { header: header.bytes, tensors, data_start, data_end, file_length }
    }

    /// What the definition says.
    fn wanted(&self, fetches: &[Fetch]) -> Vec<Option<u64>> {
        self.tensors.iter().map(|tensor| least(fetches, self.file_length, *tensor)).collect()
    }
}

/// Fetches of all bytes from one place to another, in order. Some of them overlap.
fn in_order(numbers: &mut Numbers, mut from: u64, to: u64) -> Vec<Fetch> {
    let longest = 1 + numbers.below(16);
    let mut fetches = vec![];
    while from < to {
        let count = 1 + numbers.below(longest);
        let more = if numbers.one_in(4) { numbers.below(9) } else { 0 };
        fetches.push((from, count + more));
        from += count;
    }
    fetches
}

/// Fetches of the same bytes that go on in several places at once, in each of them in order or
/// backwards.
fn interleaved(numbers: &mut Numbers, from: u64, to: u64) -> Vec<Fetch> {
    let mut edges: Vec<_> =
        (0..1 + numbers.below(4)).map(|_| from + numbers.below(to - from + 1)).collect();
    edges.extend([from, to]);
    edges.sort();
    let mut parts = vec![];
    for pair in edges.windows(2) {
        let mut part = in_order(numbers, pair[0], pair[1]);
        if numbers.one_in(2) {
            part.reverse();
        }
        parts.push(part.into_iter());
    }
    let mut fetches = vec![];
    while parts.iter().any(|part| part.len() > 0) {
        let part = numbers.index(parts.len());
        fetches.extend(parts[part].next());
    }
    fetches
}

/// Fetches of the same bytes in any order.
fn shuffled(numbers: &mut Numbers, from: u64, to: u64) -> Vec<Fetch> {
    let mut fetches = in_order(numbers, from, to);
    for last in (1..fetches.len()).rev() {
        fetches.swap(last, numbers.index(last + 1));
    }
    fetches
}

/// A fetch of anything: bytes of the data, nothing, all that there is, or what is past the file.
fn anything(numbers: &mut Numbers, small: &Small) -> Fetch {
    let place = small.data_start + numbers.below(small.data_end - small.data_start + 9);
    match numbers.below(8) {
        0 => (place, 0),
        1 => (small.file_length, numbers.below(2).min(u64::MAX - small.file_length)),
        2 => (u64::MAX - numbers.below(9), 0),
        3 if numbers.one_in(4) => (place, u64::MAX - place),
        _ => (place, 1 + numbers.below(12)),
    }
}

/// Fetches of a file, in one of these ways; of some traces a part is left out, and some fetches
/// stand there again or among others.
fn fetched(numbers: &mut Numbers, small: &Small) -> Vec<Fetch> {
    let (from, to) = (small.data_start - numbers.below(9), small.data_end + numbers.below(9));
    let mut fetches = match numbers.below(6) {
        0 => in_order(numbers, from, to),
        1 => in_order(numbers, from, to).into_iter().rev().collect(),
        2 => shuffled(numbers, from, to),
        3 | 4 => interleaved(numbers, from, to),
        _ => (0..numbers.below(30)).map(|_| anything(numbers, small)).collect(),
    };
    if numbers.one_in(2) {
        let share = 2 + numbers.below(12);
        fetches.retain(|_| !numbers.one_in(share));
    }
    if numbers.one_in(2) {
        for _ in 0..numbers.below(4) {
            let again = fetches.get(numbers.index(fetches.len() + 1)).copied();
            let fetch = again.unwrap_or_else(|| anything(numbers, small));
            fetches.insert(numbers.index(fetches.len() + 1), fetch);
        }
    }
    fetches
}

#[test]
fn as_the_definition_says() {
    let mut numbers = Numbers(0x5eed_0001);
    let (mut never, mut no_bytes, mut at_once, mut later) = (0, 0, 0, 0);
    for _ in 0..30_000 {
        let small = Small::new(&mut numbers);
        let fetches = fetched(&mut numbers, &small);
        let header = read(&small.header).unwrap();
        assert_eq!(header.data_start(), small.data_start);
        let wanted = small.wanted(&fetches);
        let answers = header.replay_fetches(small.file_length, &traced(&fetches)).unwrap();
        let Small { tensors, file_length, .. } = &small;
        assert_eq!(answers, wanted, "{fetches:?} of {tensors:?}, {file_length} bytes");
        for answer in answers {
            match answer {
                None => never += 1,
                Some(0) => no_bytes += 1,
                Some(1) => at_once += 1,
                Some(_) => later += 1,
            }
        }
    }
    // There were enough of each.
    let seen = [never, no_bytes, at_once, later];
    assert!(seen.iter().all(|answers| *answers > 1_000), "{seen:?}");
}

#[test]
fn what_further_records_change() {
    let mut numbers = Numbers(0x5eed_0002);
    for _ in 0..5_000 {
        let small = Small::new(&mut numbers);
        let mut fetches = fetched(&mut numbers, &small);
        let header = read(&small.header).unwrap();
        let mut trace = traced(&fetches);
        let whole = header.replay_fetches(small.file_length, &trace).unwrap();
        // An answer stays from its record on, and before it there is none.
        for number in 0..=fetches.len() {
            let part = &trace[..1 + 20 * number];
            let answers = header.replay_fetches(small.file_length, part).unwrap();
            let kept = |answer: &Option<u64>| answer.filter(|record| *record <= number as u64);
            assert_eq!(answers, whole.iter().map(kept).collect::<Vec<_>>(), "{fetches:?}");
        }
        // A record that stands there already, once more at the end, changes nothing.
        if !fetches.is_empty() {
            fetches.push(fetches[fetches.len() - 1]);
            trace = traced(&fetches);
            assert_eq!(header.replay_fetches(small.file_length, &trace), Ok(whole.clone()));
            fetches.push(fetches[numbers.index(fetches.len())]);
            trace = traced(&fetches);
            assert_eq!(header.replay_fetches(small.file_length, &trace), Ok(whole));
        }
    }
}

#[test]
fn damaged_traces() {
    let mut numbers = Numbers(0x5eed_0003);
    let (mut good, mut bad, mut high) = (0, 0, 0);
    for _ in 0..20_000 {
        let small = Small::new(&mut numbers);
        let mut fetches = fetched(&mut numbers, &small);
        if numbers.one_in(4) {
            let last = u64::MAX - numbers.below(3);
            fetches.insert(numbers.index(fetches.len() + 1), (last, numbers.below(4)));
        }
        let mut trace = traced(&fetches);
        for _ in 0..numbers.below(3) {
            let place = numbers.index(trace.len());
            trace[place] = [0, 1, 16, 0x80, 0xff, trace[place] ^ 1][numbers.index(6)];
        }
        if numbers.one_in(4) {
            trace.truncate(numbers.index(trace.len() + 1));
        }
        let answer = answered(&read(&small.header).unwrap(), small.file_length, &trace);
        let wanted = parsed(&trace).map(|fetches| small.wanted(&fetches));
        assert_eq!(answer, wanted, "{trace:?}");
        match answer {
            Ok(_) => good += 1,
            Err((43, _)) => bad += 1,
            Err(_) => high += 1,
        }
    }
    let seen = [good, bad, high];
    assert!(seen.iter().all(|traces| *traces > 1_000), "{seen:?}");
}
