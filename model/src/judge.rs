//! "Judging a plan": the three rules, each over all streams or zones before the next.

use crate::annex::{need, saturation};
use crate::junction::{read_junction, Junction, Kind};
use crate::plan::{read_plan, Plan};
use crate::times::Entries;
use crate::{refuse, Refusal};

/// Judges a plan file with a junction file: questions 1 to 9, 11 to 13, then the rules 15, 16, 17.
pub fn judge(junction_file: &[u8], plan_file: &[u8]) -> Result<(), Refusal> {
    let junction = read_junction(junction_file)?;
    let plan = read_plan(plan_file, &junction)?;
    rules(&junction, &plan, &Entries::of(&junction))
}

pub fn rules(junction: &Junction, plan: &Plan, entries: &Entries) -> Result<(), Refusal> {
    let cycle = plan.cycle as i128;
    // 15: length at least need at C
    for s in 1..=junction.streams.len() {
        if (plan.green(s).length as i64) < need(&junction.stream(s).kind, plan.cycle as i64) {
            return refuse(15, s);
        }
    }
    // 16: for cars, flow x C at most S x (length + 1)
    for s in 1..=junction.streams.len() {
        if !has_capacity(junction, plan, s) {
            return refuse(16, s);
        }
    }
    // 17: for each zone, both ways round the cycle
    for (i, zone) in junction.zones.iter().enumerate() {
        let (a, b) = (zone.a as usize, zone.b as usize);
        let (green_a, green_b) = (plan.green(a), plan.green(b));
        let (length_a, length_b) = (green_a.length as i128, green_b.length as i128);
        let off = (green_b.start as i128 - green_a.start as i128).rem_euclid(cycle);
        let first = off >= length_a + entries.from_to(a, b);
        let second = off + length_b + entries.from_to(b, a) <= cycle;
        if !first || !second {
            return refuse(17, i + 1);
        }
    }
    Ok(())
}

/// Does the green of this stream carry its flow? Only cars have one.
pub fn has_capacity(junction: &Junction, plan: &Plan, stream: usize) -> bool {
    match &junction.stream(stream).kind {
        Kind::Car(car) => {
            let flow = junction.flow(stream).expect("question 9") as i64;
            flow * plan.cycle as i64 <= saturation(car) * (plan.green(stream).length as i64 + 1)
        }
        Kind::Tram(_) | Kind::Pedestrian(_) | Kind::Cyclist(_) | Kind::Island(_) => true,
    }
}
