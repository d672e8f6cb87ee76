//! The proved library against plain Rust of the same method, on the same files: instructions and times of a call. Prints short tables.
//! With the word `briefly` it does all of that on few files and in short rounds, for the tests.
mod calls;
mod counts;
mod library;
mod plain;
mod rounds;
mod same;
mod sets;
mod tables;

use model::random::{seed, Random};
use rounds::Rounds;
use sets::{Amount, Set};
use std::process::ExitCode;
use std::time::Duration;

/// Bytes of the largest plan file.
const ROOM: usize = 133;

/// How much is done.
struct Extent {
    faulty: usize,
    amount: Amount,
    rounds: Rounds,
}

const WHOLE: Extent = Extent {
    faulty: 1_800,
    amount: Amount { mixed: 300, common: 100, full: 50, of_shape: 10 },
    rounds: Rounds { number: 31, length: Duration::from_millis(20) },
};

const BRIEF: Extent = Extent {
    faulty: 90,
    amount: Amount { mixed: 20, common: 2, full: 1, of_shape: 1 },
    rounds: Rounds { number: 1, length: Duration::from_micros(200) },
};

fn benchmark(extent: Extent) -> Result<(), String> {
    let mut r = Random::new(seed("benchmark", 21));
    same::assert_same_refusals(&mut r, extent.faulty);
    let tables = sets::tables(&mut r, extent.amount);
    let sets: Vec<&Set> = tables.iter().flat_map(|table| &table.sets).collect();
    sets.iter().for_each(|set| same::assert_stated(set));
    let mut counts = counts::of_sets(&sets)?.into_iter();
    println!("Instructions for a call, by callgrind, and microseconds for a call: the median of {} rounds in turns, in", extent.rounds.number);
    println!("brackets the least and the greatest.");
    for table in &tables {
        tables::print_head(&table.head);
        for (set, count) in table.sets.iter().zip(&mut counts) {
            tables::print_row(set, count, rounds::in_turns(set, extent.rounds));
        }
    }
    Ok(())
}

fn main() -> ExitCode {
    let words: Vec<String> = std::env::args().skip(1).collect();
    let done = match words.iter().map(String::as_str).collect::<Vec<&str>>()[..] {
        [] => benchmark(WHOLE),
        ["briefly"] => benchmark(BRIEF),
        ["counting", file] => counts::run(file),
        _ => Err("no words, or `briefly`".to_string()),
    };
    match done {
        Ok(()) => ExitCode::SUCCESS,
        Err(reason) => {
            eprintln!("benchmark: {reason}");
            ExitCode::FAILURE
        }
    }
}
