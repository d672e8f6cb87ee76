//! "Portable signals for road works" (request 2026-07): one narrowed stretch with two approaches, each a phase of cars, by part B of
//! the annex. Questions 25, 26, 21, 22, 27, place 0.

use crate::exact::{fraction, whole, Fraction};
use crate::plan::Green;
use crate::work_out::{enough_by_32, first_length_by, greens_at, lost_time_at, PhaseAt};
use crate::{refuse, Refusal};

/// The speeds of the annex's table, in km/h.
pub const SPEEDS: [usize; 4] = [25, 30, 35, 40];

/// The stretches of the annex's table, in m.
pub fn stretches() -> impl Iterator<Item = usize> {
    (1..=30).map(|tens| 10 * tens)
}

/// What the user gives of an approach: flow and S in E/h, available waiting length in m.
#[derive(Clone, Copy, PartialEq, Eq, Debug)]
pub struct Approach {
    pub flow: usize,
    pub s: usize,
    pub waiting: usize,
}

/// What the user gives: stretch in m, speed in km/h, and approaches 1 and 2.
#[derive(Clone, Copy, PartialEq, Eq, Debug)]
pub struct Works {
    pub stretch: usize,
    pub speed: usize,
    pub approaches: [Approach; 2],
}

/// How many numbers the user gives.
pub const NUMBERS: usize = 8;

/// The numbers in the order of the stored cases, from 0: stretch, speed, then flow, S and waiting length of approach 1 and of approach 2.
impl Works {
    pub fn numbers(&self) -> [usize; NUMBERS] {
        let [one, two] = self.approaches;
        [self.stretch, self.speed, one.flow, one.s, one.waiting, two.flow, two.s, two.waiting]
    }

    pub fn of(numbers: [usize; NUMBERS]) -> Works {
        let [stretch, speed, flow_1, s_1, waiting_1, flow_2, s_2, waiting_2] = numbers;
        let approaches = [
            Approach { flow: flow_1, s: s_1, waiting: waiting_1 },
            Approach { flow: flow_2, s: s_2, waiting: waiting_2 },
        ];
        Works { stretch, speed, approaches }
    }
}

/// The answer: the table's t and L in tenths of a second, the cycle, and the greens of approaches 1 and 2.
#[derive(Clone, Copy, PartialEq, Eq, Debug)]
pub struct Portable {
    pub clearing_time: i64,
    pub lost_time: i64,
    pub cycle: i64,
    pub greens: [Green; 2],
}

/// The cycle before question 27, and what it was found by.
#[derive(Clone, Debug)]
pub struct Cycle {
    pub first_length: i64,
    pub cycle: i64,
    pub greens: [Green; 2],
}

pub fn portable(works: &Works) -> Result<Portable, Refusal> {
    let cycle = cycle_of(works)?;
    // 27: is each available waiting length above the needed one?
    for approach in &works.approaches {
        if whole(approach.waiting as i128) <= needed_waiting(approach, cycle.cycle) {
            return refuse(27, 0);
        }
    }
    let (clearing_time, lost_time) = table(works.stretch, works.speed);
    Ok(Portable { clearing_time, lost_time, cycle: cycle.cycle, greens: cycle.greens })
}

/// Questions 25, 26, 21 and 22.
pub fn cycle_of(works: &Works) -> Result<Cycle, Refusal> {
    // 25: are stretch and speed listed?
    if !stretches().any(|s| s == works.stretch) || !SPEEDS.contains(&works.speed) {
        return refuse(25, 0);
    }
    // 26: is each flow and each S from 1 to 9,999?
    for approach in &works.approaches {
        if !(1..=9_999).contains(&approach.flow) || !(1..=9_999).contains(&approach.s) {
            return refuse(26, 0);
        }
    }
    let phases = phases(works);
    let y: i64 = phases.iter().map(|p| p.y).sum();
    // 21: is Y below 10,000?
    if y >= 10_000 {
        return refuse(21, 0);
    }
    // 22: is there a cycle? The least T from T0 by (32) to 180 that does not fail; every length is tried.
    let m = intergreen(works.stretch, works.speed);
    let l = lost_time_at(&phases);
    assert_eq!(l, 2 * (m - 1));
    let t0 = first_length_by(enough_by_32, y, l);
    for t in t0..=180 {
        if let Some(greens) = greens_at(&phases, t) {
            let greens = [greens[0], greens[1]];
            if accepted(works, m, t, greens) {
                return Ok(Cycle { first_length: t0, cycle: t, greens });
            }
        }
    }
    refuse(22, 0)
}

/// t as it is: 3.6 x clearing length/speed, in s.
pub fn exact_clearing_time(stretch: usize, speed: usize) -> Fraction {
    let clearing_length = stretch as i128 + 20;
    fraction(36, 10) * fraction(clearing_length, speed as i128)
}

/// The table's t and L in tenths: t, and 2t + 4 from the unrounded t, each to the nearest tenth.
pub fn table(stretch: usize, speed: usize) -> (i64, i64) {
    let (clearing_length, speed) = (stretch as i64 + 20, speed as i64);
    // ten times 3.6 x clearing length/speed, and of this twice, with ten times 4
    (nearest(36 * clearing_length, speed), nearest(2 * 36 * clearing_length + 40 * speed, speed))
}

/// The whole number nearest to upper/lower, which is not halfway between two: the greatest that is at most upper/lower + 1/2.
fn nearest(upper: i64, lower: i64) -> i64 {
    let (upper, lower) = (2 * upper + lower, 2 * lower);
    assert!(upper % lower != 0, "halfway between two whole numbers");
    upper / lower
}

/// M for both directions: 3 + t, unrounded, rounded up; counted up from 0.
pub fn intergreen(stretch: usize, speed: usize) -> i64 {
    let seconds = whole(3) + exact_clearing_time(stretch, speed);
    let mut m = 0;
    while whole(m) < seconds {
        m += 1;
    }
    m as i64
}

/// The needed green of cars.
pub const NEED: i64 = 8;

/// The phases of approaches 1 and 2. y is 10,000 x flow/S rounded up.
pub fn phases(works: &Works) -> [PhaseAt; 2] {
    let m = intergreen(works.stretch, works.speed);
    works.approaches.map(|a| {
        let y = fraction(10_000 * a.flow as i128, a.s as i128).up() as i64;
        PhaseAt { has_cars: true, y, m, need: NEED }
    })
}

/// The need, capacity and zone rules, with M as both entries of the zone that the approaches share.
pub fn accepted(works: &Works, m: i64, cycle: i64, greens: [Green; 2]) -> bool {
    needs_met(greens) && capacities_met(works, cycle, greens) && zone_clear(m, cycle, greens)
}

pub fn needs_met(greens: [Green; 2]) -> bool {
    greens.iter().all(|g| g.length as i64 >= NEED)
}

/// flow x C at most S x (length + 1)
pub fn capacities_met(works: &Works, cycle: i64, greens: [Green; 2]) -> bool {
    works.approaches.iter().zip(greens).all(|(a, g)| a.flow as i64 * cycle <= a.s as i64 * (g.length as i64 + 1))
}

fn zone_clear(m: i64, cycle: i64, greens: [Green; 2]) -> bool {
    let [one, two] = greens.map(|g| g.length as i64);
    let off = (greens[1].start as i64 - greens[0].start as i64).rem_euclid(cycle);
    off >= one + m && off + two + m <= cycle
}

/// (71): flow x C/600, in m.
pub fn needed_waiting(approach: &Approach, cycle: i64) -> Fraction {
    fraction(approach.flow as i128 * cycle as i128, 600)
}
