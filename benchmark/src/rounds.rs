//! Times of library and plain Rust, taken in turns.
use crate::calls;
use crate::library::Library;
use crate::plain::Plain;
use crate::sets::Set;
use std::time::{Duration, Instant};

/// How many rounds, and about how long each takes.
#[derive(Clone, Copy)]
pub struct Rounds {
    pub number: usize,
    pub length: Duration,
}

/// Of some rounds the median, the least and the greatest.
#[derive(Clone, Copy)]
pub struct Spread {
    pub median: f64,
    pub least: f64,
    pub greatest: f64,
}

/// Seconds for a call, and how many times the plain code's the library's are.
pub struct Times {
    pub library: Spread,
    pub plain: Spread,
    pub ratio: f64,
}

fn spread(mut numbers: Vec<f64>) -> Spread {
    numbers.sort_by(f64::total_cmp);
    Spread { median: numbers[numbers.len() / 2], least: numbers[0], greatest: numbers[numbers.len() - 1] }
}

/// How often a program runs in one round, so that the round takes about so long.
fn repeats(program: fn(&Set), set: &Set, round: Duration) -> u32 {
    program(set);
    let start = Instant::now();
    let mut n = 0;
    loop {
        program(set);
        n += 1;
        if start.elapsed() >= round / 4 {
            break;
        }
    }
    let once = start.elapsed().as_secs_f64() / n as f64;
    (round.as_secs_f64() / once).ceil() as u32
}

/// Seconds for one call.
fn seconds(program: fn(&Set), set: &Set, repeats: u32) -> f64 {
    let start = Instant::now();
    for _ in 0..repeats {
        program(set);
    }
    start.elapsed().as_secs_f64() / repeats as f64 / set.cases.len() as f64
}

/// Runs the two in turns. The ratio is taken of each turn, and is the median of these: what slows the machine for a while slows both
/// programs of a turn.
pub fn in_turns(set: &Set, rounds: Rounds) -> Times {
    let (by_library, by_plain): (fn(&Set), fn(&Set)) = (calls::run::<Library>, calls::run::<Plain>);
    let often = |program| repeats(program, set, rounds.length);
    let (often_library, often_plain) = (often(by_library), often(by_plain));
    let (mut library, mut plain) = (vec![], vec![]);
    for _ in 0..rounds.number {
        library.push(seconds(by_library, set, often_library));
        plain.push(seconds(by_plain, set, often_plain));
    }
    let ratios = library.iter().zip(&plain).map(|(library, plain)| library / plain).collect();
    Times { library: spread(library), plain: spread(plain), ratio: spread(ratios).median }
}
