//! "Working out a plan": the first length T0, the lengths tried, the cycle, and the plan file. Questions 21, 22, 23.

use crate::annex::{need, y_of};
use crate::judge::rules;
use crate::junction::{read_junction, Junction, Kind};
use crate::plan::{Green, Plan};
use crate::times::Entries;
use crate::{refuse, Refusal};

#[derive(Clone, PartialEq, Eq, Debug)]
pub struct Worked {
    pub first_length: i64,
    pub cycle: i64,
    /// Every length from T0 to the cycle is tried here: the upper bound.
    pub tried: i64,
    /// The lengths from T0 to the cycle that are not below their L: the lower bound of the tried count.
    pub tried_at_least: i64,
    pub plan: Plan,
}

/// What is said of a phase.
pub struct Phase {
    pub has_cars: bool,
    /// The largest of its cars' y; 0 without cars.
    pub y: i64,
    /// M: the largest entry from its streams to those of the next phase, at least 1.
    pub m: i64,
    /// Its streams, counted from 1.
    pub streams: Vec<usize>,
}

pub fn phases(junction: &Junction, entries: &Entries) -> Vec<Phase> {
    let f = junction.phases();
    let members = |phase: u8| -> Vec<usize> {
        (1..=junction.streams.len()).filter(|&s| junction.stream(s).phase == phase).collect()
    };
    (1..=f)
        .map(|phase| {
            let streams = members(phase);
            let next = members(if phase == f { 1 } else { phase + 1 });
            let mut y = 0;
            let mut m = 1;
            for &i in &streams {
                if let Kind::Car(car) = &junction.stream(i).kind {
                    y = y.max(y_of(car, junction.flow(i).expect("question 9")));
                }
                for &j in &next {
                    m = m.max(entries.from_to(i, j) as i64);
                }
            }
            Phase { has_cars: streams.iter().any(|&s| junction.stream(s).is_car()), y, m, streams }
        })
        .collect()
}

/// The phase's largest need where the cycle is `cycle`.
fn phase_need(junction: &Junction, phase: &Phase, cycle: i64) -> i64 {
    phase.streams.iter().map(|&s| need(&junction.stream(s).kind, cycle)).max().expect("a phase has streams")
}

/// What the lost time and the greens of a length go by: a phase with its largest need at that length.
#[derive(Clone, Copy, PartialEq, Eq, Debug)]
pub struct PhaseAt {
    pub has_cars: bool,
    pub y: i64,
    pub m: i64,
    pub need: i64,
}

fn phases_at(junction: &Junction, phases: &[Phase], cycle: i64) -> Vec<PhaseAt> {
    let at = |p: &Phase| PhaseAt { has_cars: p.has_cars, y: p.y, m: p.m, need: phase_need(junction, p, cycle) };
    phases.iter().map(at).collect()
}

/// L at a cycle: M - 1 for phases with cars, need + M for others (30, 31).
pub fn lost_time(junction: &Junction, phases: &[Phase], cycle: i64) -> i64 {
    lost_time_at(&phases_at(junction, phases, cycle))
}

pub fn lost_time_at(phases: &[PhaseAt]) -> i64 {
    phases.iter().map(|p| if p.has_cars { p.m - 1 } else { p.need + p.m }).sum()
}

/// T0. Trams are taken at 10 s, which is their need at cycle 1.
pub fn first_length(junction: &Junction, phases: &[Phase]) -> i64 {
    let y: i64 = phases.iter().map(|p| p.y).sum();
    let l = lost_time(junction, phases, 1);
    let by_33 = junction.streams.iter().any(|s| s.is_pedestrian_or_tram());
    first_length_by(if by_33 { enough_by_33 } else { enough_by_32 }, y, l)
}

/// The least length, counted up from 1, that is enough.
pub fn first_length_by(enough: fn(i64, i64, i64) -> bool, y: i64, l: i64) -> i64 {
    let mut t = 1;
    while !enough(t, y, l) {
        t += 1;
    }
    t
}

/// (32)
pub fn enough_by_32(t: i64, y: i64, l: i64) -> bool {
    t * (10_000 - y) >= 15_000 * l + 50_000
}

/// (33)
pub fn enough_by_33(t: i64, y: i64, l: i64) -> bool {
    t * t * (10_000 - y) >= 1_200_000 * l
}

/// The plan for a length T, if T is not below L and no green is below 1. It is not judged yet.
pub fn plan_for(junction: &Junction, phases: &[Phase], t: i64) -> Option<Plan> {
    let of_phases = greens_at(&phases_at(junction, phases, t), t)?;
    let mut greens = vec![Green { start: 0, length: 0 }; junction.streams.len()];
    for (p, green) in phases.iter().zip(of_phases) {
        for &s in &p.streams {
            greens[s - 1] = green;
        }
    }
    Some(Plan { cycle: t as u16, greens })
}

/// The green of each phase for a length T, if T is not below L and no green is below 1.
pub fn greens_at(phases: &[PhaseAt], t: i64) -> Option<Vec<Green>> {
    let l = lost_time_at(phases);
    if t < l {
        return None;
    }
    let y: i64 = phases.iter().map(|p| p.y).sum();
    let mut effective: Vec<i64> = phases.iter().map(|p| p.y * (t - l) / y).collect();
    let mut left_over = t - l - effective.iter().sum::<i64>();
    for (e, p) in effective.iter_mut().zip(phases) {
        if p.has_cars && left_over > 0 {
            *e += 1;
            left_over -= 1;
        }
    }
    assert_eq!(left_over, 0);
    let mut greens = vec![];
    let mut start = 0;
    for (p, e) in phases.iter().zip(&effective) {
        let length = if p.has_cars { e - 1 } else { p.need }; // (36)
        if length < 1 {
            return None;
        }
        greens.push(Green { start: start as u16, length: length as u16 });
        start += length + p.m;
    }
    assert_eq!(start, t, "greens and M fill the cycle (37)");
    Some(greens)
}

/// Works out a plan and writes the plan file into the lent buffer. A refusal alters none of its bytes.
pub fn work_out(junction_file: &[u8], buffer: &mut [u8]) -> Result<Worked, Refusal> {
    let junction = read_junction(junction_file)?;
    let worked = search(&junction, &Entries::of(&junction))?;
    write(&worked, buffer)?;
    Ok(worked)
}

/// Questions 21 and 22.
pub fn search(junction: &Junction, entries: &Entries) -> Result<Worked, Refusal> {
    let phases = phases(junction, entries);
    // 21: is Y below 10,000?
    if phases.iter().map(|p| p.y).sum::<i64>() >= 10_000 {
        return refuse(21, 0);
    }
    // 22: is there a cycle? The least T from T0 to 180 that does not fail; every length is tried.
    let t0 = first_length(junction, &phases);
    let mut not_below = 0;
    for t in t0..=180 {
        if t >= lost_time(junction, &phases, t) {
            not_below += 1;
        }
        if let Some(plan) = plan_for(junction, &phases, t) {
            if rules(junction, &plan, entries).is_ok() {
                return Ok(Worked { first_length: t0, cycle: t, tried: t - t0 + 1, tried_at_least: not_below, plan });
            }
        }
    }
    refuse(22, 0)
}

/// Question 23: does the lent buffer hold 5 + 8 x streams bytes? Then the plan file is written from its first byte.
pub fn write(worked: &Worked, buffer: &mut [u8]) -> Result<(), Refusal> {
    let file = worked.plan.to_file();
    assert_eq!(file.len(), 5 + 8 * worked.plan.greens.len());
    if buffer.len() < file.len() {
        return refuse(23, 0);
    }
    buffer[..file.len()].copy_from_slice(&file);
    Ok(())
}
