//! Times of two ways of doing the same. A batch has many calls where a call is short, so that reading the clock, which
//! takes some tens of nanoseconds, does not count.

use std::fmt;
use std::time::{Duration, Instant};

/// How many batches each side has in a round, in turns with the other.
pub const TURNS: usize = 17;

pub const ROUNDS: usize = 27;

/// Who makes the calls of a batch.
#[derive(Clone, Copy)]
pub enum Side {
    Library,
    Plain,
}

/// The times of batches of so many calls, of each side.
pub struct Batches {
    calls: usize,
    library: Vec<Duration>,
    plain: Vec<Duration>,
}

/// The median time of a call of each side, in microseconds.
#[derive(Clone, Copy)]
pub struct Times {
    pub library: f64,
    pub plain: f64,
}

/// Times batches of so many calls. The two sides take turns, so that both meet the same machine.
pub fn take_turns(calls: usize, mut batch: impl FnMut(Side) -> Duration) -> Batches {
    let turns = (0..TURNS).map(|_| (batch(Side::Library), batch(Side::Plain)));
    let (library, plain) = turns.unzip();
    Batches { calls, library, plain }
}

/// How long a batch takes, whose calls all have to reply what is due.
pub fn timed(batch: impl FnOnce() -> bool) -> Duration {
    let start = Instant::now();
    let as_due = batch();
    let time = start.elapsed();
    assert!(as_due, "a call replies what is not due");
    time
}

impl Batches {
    /// The medians over several rounds of the same batches.
    pub fn medians(rounds: &[Batches]) -> Times {
        let of = |side: fn(&Batches) -> &[Duration]| median(rounds.iter().flat_map(side)) / rounds[0].calls as f64;
        Times { library: of(|round| &round.library), plain: of(|round| &round.plain) }
    }
}

/// In microseconds.
fn median<'a>(times: impl Iterator<Item = &'a Duration>) -> f64 {
    let mut times: Vec<&Duration> = times.collect();
    times.sort();
    times[times.len() / 2].as_secs_f64() * 1e6
}

impl fmt::Display for Times {
    fn fmt(&self, f: &mut fmt::Formatter) -> fmt::Result {
        let Times { library, plain } = *self;
        let ratio = library / plain;
        let places = if ratio < 10.0 { 2 } else { 0 };
        write!(f, "{} / {} = {ratio:.places$}", digits(library), digits(plain))
    }
}

/// Fewer decimals the longer the time.
fn digits(time: f64) -> String {
    let places = match time {
        ..1.0 => 3,
        ..10.0 => 2,
        ..100.0 => 1,
        _ => 0,
    };
    format!("{time:.places$}")
}
