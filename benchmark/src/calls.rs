//! One call for each case of a set: what is counted and timed.
use crate::plain::{Held, Refusal};
use crate::sets::{Set, Task};
use crate::ROOM;
use std::hint::black_box;

/// The library or plain Rust.
pub trait Program {
    fn read(junction: &[u8]) -> Result<Held, Refusal>;
    /// The cycle and how many lengths were tried.
    fn work_out(junction: &[u8], buffer: &mut [u8]) -> Result<(u16, u16), Refusal>;
    fn judge(junction: &[u8], plan: &[u8]) -> Result<(), Refusal>;
}

pub fn run<P: Program>(set: &Set) {
    let mut room = [0; ROOM];
    for case in &set.cases {
        match set.task {
            Task::Read => black_box(P::read(black_box(&case.junction)).is_ok()),
            Task::WorkOut => black_box(P::work_out(black_box(&case.junction), black_box(&mut room)).is_ok()),
            Task::Judge => black_box(P::judge(black_box(&case.junction), black_box(&case.plan)).is_ok()),
        };
    }
}
