//! Plain Rust of the library's method, without proofs: fixed arrays, no heap, one pass over the file.
mod figures;
mod judging;
mod reading;
mod working_out;

use crate::calls::Program;

/// A refusal's number and place.
#[derive(Clone, Copy, PartialEq, Eq, Debug)]
pub struct Refusal {
    pub number: u8,
    pub place: usize,
}

/// What a junction file holds.
#[derive(Clone, Copy, PartialEq, Eq, Debug)]
pub struct Held {
    pub design_day: u16,
    pub period: u8,
    pub streams: usize,
    pub zones: usize,
    pub counts: usize,
}

fn refuse<T>(number: u8, place: usize) -> Result<T, Refusal> {
    Err(Refusal { number, place })
}

pub struct Plain;

impl Program for Plain {
    fn read(junction: &[u8]) -> Result<Held, Refusal> {
        reading::read(junction)
    }

    fn work_out(junction: &[u8], buffer: &mut [u8]) -> Result<(u16, u16), Refusal> {
        working_out::work_out(junction, buffer)
    }

    fn judge(junction: &[u8], plan: &[u8]) -> Result<(), Refusal> {
        judging::judge(junction, plan)
    }
}
