//! What is printed: a table in Markdown for each table of sets.
use crate::counts::Count;
use crate::rounds::{Spread, Times};
use crate::sets::Set;

pub fn print_head(head: &str) {
    println!("\n| {head} | files | library, instructions | plain, instructions | library/plain | library, µs | plain, µs | library/plain |");
    println!("|---|---|---|---|---|---|---|---|");
}

/// Instructions and microseconds for one call.
pub fn print_row(set: &Set, count: Count, times: Times) {
    let calls = set.cases.len() as u64;
    let each = |instructions: u64| (instructions + calls / 2) / calls;
    let counts = format!("{} | {} | {:.2}", each(count.library), each(count.plain), count.library as f64 / count.plain as f64);
    let time = |s: Spread| format!("{:.2} ({:.2} to {:.2})", s.median * 1e6, s.least * 1e6, s.greatest * 1e6);
    let times = format!("{} | {} | {:.2}", time(times.library), time(times.plain), times.ratio);
    println!("| {} | {calls} | {counts} | {times} |", set.row);
}
