//! `replay HOW INPUT`: all is set up, and then, for a count of instructions, the trace is not
//! replayed (`none`), replayed by the archive's function into a table that is lent (`lent`), or by
//! the Rust crate's, which allocates its answers (`crate`: they are dropped too). `agree` compares
//! their answers with those that are due, and `time` times the first of them.
//!
//! It is apart from the library that holds the original: what else is in there changes what the
//! compiler makes of the original.

mod setup;
mod traces;

use setup::Replay;
use std::hint::black_box;
use std::time::Instant;

fn main() {
    let mut args = std::env::args().skip(1);
    let how = args.next().expect("how to replay");
    let mut replay = Replay::named(&args.next().expect("an input"));
    match how.as_str() {
        "none" => {}
        "lent" => {
            black_box(black_box(&mut replay).lent());
        }
        "crate" => drop(black_box(black_box(&replay).by_crate())),
        "agree" => println!("{}", replay.agree()),
        "time" => println!("{:.2}", shortest(&mut replay)),
        _ => panic!("no such way to replay: {how}"),
    }
}

/// The shortest run of the archive's function, in milliseconds.
fn shortest(replay: &mut Replay) -> f64 {
    let mut shortest = f64::MAX;
    let all = Instant::now();
    while all.elapsed().as_secs() < 1 {
        let start = Instant::now();
        black_box(black_box(&mut *replay).lent());
        shortest = shortest.min(start.elapsed().as_secs_f64() * 1e3);
    }
    shortest
}
