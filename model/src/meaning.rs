//! What an accepted plan means on the street (demand 3), by brute force. Neither `off` nor an entry stands here.

use crate::annex::need;
use crate::judge::has_capacity;
use crate::junction::{Junction, Zone};
use crate::plan::Plan;
use crate::times::{leaving, reaching};

/// The plan repeated for three cycles. Two would show every case: a green, and the first of the other stream after it,
/// begin less than one cycle apart. One would not: it does not see what happens over the cycle's end.
pub fn meaning(junction: &Junction, plan: &Plan) -> bool {
    meaning_over(junction, plan, 3)
}

/// Needs, capacities, and at each zone every two greens of so many cycles are far enough apart.
pub fn meaning_over(junction: &Junction, plan: &Plan, cycles: i128) -> bool {
    let streams = 1..=junction.streams.len();
    let needs = streams.clone().all(|s| plan.green(s).length as i64 >= need(&junction.stream(s).kind, plan.cycle as i64));
    let capacities = streams.clone().all(|s| has_capacity(junction, plan, s));
    let apart = junction.zones.iter().all(|zone| {
        (0..cycles).all(|k| (0..cycles).all(|m| greens_apart(junction, plan, zone, k, m)))
    });
    needs && capacities && apart
}

/// The green of the zone's stream a in cycle k, and that of its stream b in cycle m: one ends no later than the other
/// begins, and the last of the earlier leaves the zone no later than the first of the later reaches it.
fn greens_apart(junction: &Junction, plan: &Plan, zone: &Zone, k: i128, m: i128) -> bool {
    let cycle = plan.cycle as i128;
    let (green_a, green_b) = (plan.green(zone.a as usize), plan.green(zone.b as usize));
    let kind_a = &junction.stream(zone.a as usize).kind;
    let kind_b = &junction.stream(zone.b as usize).kind;
    let begin_a = green_a.start as i128 + k * cycle;
    let begin_b = green_b.start as i128 + m * cycle;
    let end_a = begin_a + green_a.length as i128;
    let end_b = begin_b + green_b.length as i128;
    if end_a <= begin_b {
        let last = leaving(kind_a, zone.clearing_a).later(end_a);
        let first = reaching(kind_b, zone.reaching_b).later(begin_b);
        last.no_later_than(first)
    } else if end_b <= begin_a {
        let last = leaving(kind_b, zone.clearing_b).later(end_b);
        let first = reaching(kind_a, zone.reaching_a).later(begin_a);
        last.no_later_than(first)
    } else {
        false // the greens overlap
    }
}
