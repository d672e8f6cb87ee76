//! A second implementation of document 01 ("Junction timing by the annex of RD-02-21-2"), with requests 2026-01 (crossings with
//! an island), 2026-02 (trams past forty metres), 2026-03 (no answer changed), 2026-04 (periods), 2026-05 (delay and level
//! of service), 2026-06 (offsets along a street) and 2026-07 (portable signals for road works) of document 02, written apart from
//! the first.
//!
//! It is written by the most direct reading and not for speed, so that it can be read beside the paper:
//! - `exact`:    seconds as fractions and roots, compared exactly;
//! - `junction`: the junction file, questions 1 to 9, and the choice of a car's count;
//! - `times`:    "Times at a zone": leaving, reaching, entry;
//! - `annex`:    "Needs and flows": Tables 1 and 3, needs, base flow, S and y;
//! - `plan`:     the plan file, questions 11 to 13;
//! - `judge`:    "Judging a plan": the rules 15, 16, 17;
//! - `meaning`:  the same by brute force over three cycles, with neither `off` nor an entry;
//! - `delay`:    the delay of a car in an accepted plan, and its level of service, in f64;
//! - `shift`:    one offset for every start of a plan file, question 24;
//! - `work_out`: "Working out a plan", questions 21, 22, 23;
//! - `portable`: portable signals for one narrowed stretch with two approaches, questions 25, 26, 21, 22, 27;
//! - `random`, `generate`, `faults`: random junction and plan files for the tests, taken and refused, and random road works;
//! - `cases`:    the text form of the stored test cases.

pub mod annex;
pub mod cases;
pub mod delay;
pub mod exact;
pub mod faults;
pub mod generate;
pub mod judge;
pub mod junction;
pub mod meaning;
pub mod plan;
pub mod portable;
pub mod random;
pub mod shift;
pub mod times;
pub mod work_out;

pub use delay::{delay, Delay};
pub use judge::judge;
pub use junction::{read_junction, Junction};
pub use meaning::meaning;
pub use plan::{read_plan, Plan};
pub use portable::portable;
pub use shift::shift;
pub use work_out::{work_out, Worked};

/// A refusal is the number of the question and a place: mostly the offset of a field's tag.
#[derive(Clone, Copy, PartialEq, Eq, Debug)]
pub struct Refusal {
    pub number: u8,
    pub place: usize,
}

/// Short for writing a refusal.
pub fn refuse<T>(number: u8, place: usize) -> Result<T, Refusal> {
    Err(Refusal { number, place })
}
