//! Random junctions that are taken, and random plans for them that are well-formed; random road works.

use crate::annex::{crossing_quotient, need, saturation};
use crate::delay::{figures, Delay, LEVELS};
use crate::exact::whole;
use crate::junction::*;
use crate::plan::{Green, Plan};
use crate::portable::{cycle_of, intergreen, Approach, Works, NUMBERS, SPEEDS};
use crate::random::Random;
use crate::times::{accelerating, Entries};
use crate::work_out::work_out;
use std::cmp::Ordering;

// ---- junctions

/// A junction that is taken: 2 to 6 phases, up to 16 streams of all kinds, 0 to 64 zones, several zones for a pair.
pub fn rich_junction(r: &mut Random) -> Junction {
    let phases = r.pick(&[2, 2, 2, 3, 3, 3, 4, 4, 5, 6]);
    let most = r.pick(&[phases + 1, phases + 3, phases + 5, 16]).min(16);
    let streams = r.from_to(phases, most);
    let pairs = streams * (streams - 1) / 2;
    let zones = r.pick(&[0, 1, phases, streams, pairs, 2 * pairs, 64]).min(64);
    let zones = r.from_to(zones / 2, zones);
    let counts = r.pick(&[1, 1, 2, 4]);
    make_junction(r, phases, streams, zones, counts)
}

/// A junction with as many of everything as the file may hold, or as few.
pub fn limit_junction(r: &mut Random) -> Junction {
    let (phases, streams) = r.pick(&[(2, 2), (2, 16), (3, 16), (4, 16), (6, 6), (6, 16)]);
    let zones = r.pick(&[0, 1, 63, 64, 64]);
    let counts = r.pick(&[1, 8, 128]);
    make_junction(r, phases, streams, zones, counts)
}

/// A junction of so many phases, streams and zones, with at most so many counts for each car, and mostly some of other periods.
pub fn make_junction(r: &mut Random, phases: i64, streams: i64, zones: i64, counts_for_each: i64) -> Junction {
    let design_day = r.pick(&[0, 1, 255, 256, 9000, 9000, 65534, 65535]);
    let roots = r.one_in(3); // stop trams against standing cars
    let scale = r.pick(&[20, 60, 150, 400, 999]);

    // every phase used, at least one car
    let mut list: Vec<Stream> = (0..streams)
        .map(|i| {
            let phase = if i < phases { i + 1 } else { r.from_to(1, phases) } as u8;
            Stream { phase, kind: random_kind(r, roots, i == 0) }
        })
        .collect();
    shuffle(r, &mut list);

    let (number, period) = (r.from_to(0, 65535) as u16, r.from_to(1, 4) as u8);
    let mut junction = Junction { number, design_day, period, streams: list, zones: vec![], counts: vec![] };
    while (junction.zones.len() as i64) < zones {
        let a = r.from_to(1, streams - 1) as usize;
        let b = r.from_to(a as i64 + 1, streams) as usize;
        // now and then the pair of the zone before again
        let (a, b) = match junction.zones.last() {
            Some(z) if r.one_in(4) => (z.a as usize, z.b as usize),
            _ => (a, b),
        };
        if junction.stream(a).phase != junction.stream(b).phase {
            let (kind_a, kind_b) = (junction.stream(a).kind, junction.stream(b).kind);
            let (clearing_a, reaching_b) = distances(r, &kind_a, &kind_b, scale);
            let (clearing_b, reaching_a) = distances(r, &kind_b, &kind_a, scale);
            junction.zones.push(Zone { a: a as u8, b: b as u8, clearing_a, reaching_a, clearing_b, reaching_b });
        }
    }

    let load = r.from_to(10, 100); // how much of the junction is used, in percent
    let cars: Vec<usize> = (1..=streams as usize).filter(|&s| junction.stream(s).is_car()).collect();
    let each = counts_for_each.min(COUNT_LIMIT as i64 / cars.len() as i64);
    for &s in &cars {
        let fair = fair_flow(&junction, s, load);
        let usable = r.from_to(0, each - 1);
        for k in 0..each {
            if k != usable && r.one_in(3) {
                junction.counts.push(of_another_period(r, s, design_day, period, fair));
                continue;
            }
            let back = r.pick(&[0, 0, 1, 2, 300]);
            let count_day = if k == usable || r.one_in(2) {
                design_day.saturating_sub(back)
            } else {
                design_day.saturating_add(r.pick(&[0, 1, 2, 300]))
            };
            let flow = if r.one_in(30) { r.from_to(1, 9_999) } else { r.from_to(fair / 2 + 1, fair + 1).min(9_999) };
            let (file_day, flow) = (r.from_to(0, 65535) as u16, flow as u16);
            junction.counts.push(Count { stream: s as u8, count_day, file_day, flow, period });
        }
    }
    // counts of other periods as well, as far as there is room
    if !r.one_in(5) {
        for &s in &cars {
            let fair = fair_flow(&junction, s, load);
            for _ in 0..r.pick(&[0, 1, 1, 2]) {
                if junction.counts.len() < COUNT_LIMIT {
                    junction.counts.push(of_another_period(r, s, design_day, period, fair));
                }
            }
        }
    }
    shuffle(r, &mut junction.counts);
    junction
}

/// In any order.
fn shuffle<T>(r: &mut Random, list: &mut [T]) {
    for i in (1..list.len()).rev() {
        let other = r.from_to(0, i as i64) as usize;
        list.swap(i, other);
    }
}

/// What a car can carry where each phase has its share of the cycle, and so much of the junction is used, in percent.
fn fair_flow(junction: &Junction, stream: usize, load: i64) -> i64 {
    let Kind::Car(car) = junction.stream(stream).kind else { panic!("no car: {stream}") };
    saturation(&car) * load / 100 / junction.phases() as i64
}

// ---- periods

/// Any period but this one.
pub fn other_period(r: &mut Random, period: u8) -> u8 {
    (period - 1 + r.from_to(1, 3) as u8) % 4 + 1
}

/// A count of another period than the one planned: mostly on the design day, so that it is often newer than the car's own
/// count, and mostly larger.
fn of_another_period(r: &mut Random, stream: usize, design_day: u16, planned: u8, fair: i64) -> Count {
    let count_day = match r.from_to(1, 6) {
        1..=4 => design_day,
        5 => design_day.saturating_sub(r.pick(&[1, 2, 300])),
        _ => design_day.saturating_add(r.pick(&[1, 300])),
    };
    let flow = match r.from_to(1, 6) {
        1..=3 => r.from_to(fair + 2, 2 * fair + 2).min(9_999),
        4 => r.from_to(1, 9_999),
        _ => r.from_to(1, fair / 2 + 1),
    };
    let (file_day, period) = (r.from_to(0, 65535) as u16, other_period(r, planned));
    Count { stream: stream as u8, count_day, file_day, flow: flow as u16, period }
}

/// Counts of other periods than the one planned with other days, other flows and another of the other periods.
pub fn others_changed(r: &mut Random, junction: &Junction) -> Junction {
    let mut other = junction.clone();
    for c in other.counts.iter_mut().filter(|c| c.period != junction.period) {
        let flow = r.from_to(1, 9_999);
        *c = of_another_period(r, c.stream as usize, junction.design_day, junction.period, flow / 2);
    }
    other
}

/// Up to five counts more of other periods than the one planned, anywhere among the counts, as far as there is room.
pub fn others_added(r: &mut Random, junction: &Junction) -> Junction {
    let mut other = junction.clone();
    let cars: Vec<usize> = (1..=junction.streams.len()).filter(|&s| junction.stream(s).is_car()).collect();
    for _ in 0..r.from_to(1, 5).min((COUNT_LIMIT - junction.counts.len()) as i64) {
        let (car, flow) = (r.pick(&cars), r.from_to(1, 9_999));
        let count = of_another_period(r, car, junction.design_day, junction.period, flow / 2);
        other.counts.insert(r.from_to(0, other.counts.len() as i64) as usize, count);
    }
    other
}

/// All counts of other periods than the one planned left out, or some of them.
pub fn others_removed(r: &mut Random, junction: &Junction) -> Junction {
    let mut other = junction.clone();
    let all = r.one_in(2);
    other.counts.retain(|c| c.period == junction.period || !(all || r.one_in(2)));
    other
}

/// The junction as it would be if no count had a period: every count is of the one planned.
pub fn without_periods(junction: &Junction) -> Junction {
    let mut other = junction.clone();
    other.counts.iter_mut().for_each(|c| c.period = junction.period);
    other
}

// ---- figures

/// Figures of any kind, or, where `roots` says so, of a standing car or a stop tram.
pub fn random_kind(r: &mut Random, roots: bool, must_be_car: bool) -> Kind {
    let which = if must_be_car { 1 } else if roots { r.pick(&[1, 2, 2]) } else { r.pick(&[1, 1, 1, 2, 3, 3, 4, 5, 5]) };
    match which {
        1 => {
            let radius = if r.one_in(3) { r.pick(&[30, 60, 61, 100, 149, 150, 151, 152, 400, 9999]) } else { 0 };
            let (left, right) = if radius != 0 || r.one_in(2) {
                (0, 0)
            } else {
                let left = r.pick(&[0, 4, 5, 9, 10, 30, 100]);
                (left, r.pick(&[0, 1, 5, 10, 40, 100]).min(100 - left))
            };
            let widest = r.pick(&[350, 560, 560, 1500]);
            let width = if r.one_in(2) { 350 } else { r.from_to(300, widest) as u16 };
            Kind::Car(Car {
                amber: r.pick(&[3, 3, 4, 5]),
                flying: !roots && r.one_in(3),
                radius,
                width,
                rows: r.pick(&[1, 2]),
                gradient: if r.one_in(2) { 0 } else { r.from_to(-10, 10) as i16 },
                conditions: r.pick(&[1, 2, 2, 3]),
                left,
                right,
            })
        }
        2 => Kind::Tram(Tram {
            from_stop: roots || r.one_in(2),
            length: if r.one_in(2) { r.pick(&[100, 217, 218, 300, 320, 325, 445, 580, 600]) } else { r.from_to(100, 600) as u16 },
            trams_an_hour: r.from_to(1, 34) as u8,
        }),
        3 => Kind::Pedestrian(random_pedestrian(r)),
        4 => Kind::Cyclist(Cyclist { reach_counted: r.one_in(2) }),
        5 => Kind::Island(random_island(r)),
        other => unreachable!("kind {other}"),
    }
}

fn random_pedestrian(r: &mut Random) -> Pedestrian {
    Pedestrian {
        speed: r.from_to(12, 15) as u8,
        crossing: if r.one_in(3) { r.pick(&[10, 119, 120, 121, 600]) } else { r.from_to(10, 250) as u16 },
        people: r.pick(&[0, 119, 120, 121, 200, 9999]),
        reach_counted: r.one_in(2),
        disturbed: r.one_in(3),
    }
}

/// Often such that (B + u + P)/12 is a whole second or as long as the crossing's quotient, or one decimetre beside that.
pub fn random_island(r: &mut Random) -> IslandCrossing {
    let walk = random_pedestrian(r);
    let packet = 5 * if r.one_in(10) { r.pick(&[4, 5, 39, 40]) } else { r.from_to(4, 10) };
    let island = if r.one_in(10) { r.pick(&[10, 11, 599, 600]) } else { r.from_to(10, 30) };
    let beside = r.pick(&[0, 0, -1, 1]);
    let wider_carriageway = match r.from_to(1, 10) {
        1 => r.pick(&[10, 11, 599, 600]),
        2..=4 => 12 * r.from_to(4, 16) + beside - island - packet,
        5 | 6 => (whole(12) * crossing_quotient(&walk)).up() as i64 + beside - island - packet,
        _ => r.from_to(10, 90),
    };
    let wider_carriageway = wider_carriageway.clamp(10, 600) as u16;
    IslandCrossing { walk, wider_carriageway, island: island as u16, packet: packet as u16 }
}

/// Clearing distance of the one that leaves, reaching distance of the one that comes: often such that a time is a
/// whole second, or that two roots are equal, or one decimetre beside that.
fn distances(r: &mut Random, leaves: &Kind, comes: &Kind, scale: i64) -> (u16, u16) {
    let l = clearing_distance(r, leaves, scale).clamp(0, 999);
    let d = reaching_distance(r, leaves, l, comes, scale).clamp(0, 999);
    (l as u16, d as u16)
}

fn clearing_distance(r: &mut Random, leaves: &Kind, scale: i64) -> i64 {
    let k = r.from_to(0, 14);
    let beside = r.pick(&[0, 0, -1, 1]);
    beside + match leaves {
        Kind::Tram(t) if t.from_stop && r.one_in(3) => beyond_400(r, t),
        _ if r.one_in(2) => r.from_to(0, scale),
        Kind::Car(c) if c.radius == 0 => 100 * (k % 10) + 40,
        Kind::Car(c) if c.radius > 150 => 70 * k + 10,
        Kind::Car(_) => 50 * k + 40,
        Kind::Tram(t) if t.from_stop => 5 * k * k - t.length as i64,
        Kind::Tram(_) => r.from_to(0, scale),
        Kind::Pedestrian(p) | Kind::Island(IslandCrossing { walk: p, .. }) => p.speed as i64 * k,
        Kind::Cyclist(_) => 40 * k,
    }
}

/// Clearing distance of a stop tram beyond 400 dm: often where the floor begins, decides or ends, or where (11') is about a
/// whole second or 0.1 s more.
fn beyond_400(r: &mut Random, tram: &Tram) -> i64 {
    let floor_ends = floor_ends(tram).max(401);
    match r.from_to(1, 7) {
        1 => 401,
        2 => floor_ends,
        3 | 4 => r.from_to(401, floor_ends),
        5 => r.pick(&[499, 610, 721]),
        6 => r.pick(&[511, 622, 733]),
        _ => r.from_to(401, 740),
    }
}

/// The greatest clearing distance at which (11') is below the floor: for tests, so that a rounded root is enough.
fn floor_ends(tram: &Tram) -> i64 {
    400 + (111.0 * (accelerating(tram, 400).about() - 11.1)).floor() as i64
}

fn reaching_distance(r: &mut Random, leaves: &Kind, l: i64, comes: &Kind, scale: i64) -> i64 {
    let k = r.from_to(1, 14);
    let beside = r.pick(&[0, 0, -1, 1]);
    beside + match (leaves, comes) {
        _ if r.one_in(2) => r.from_to(0, scale),
        // (l + t)/5 = (r + 15)/10, and (l + t)/5 = (r + 15)/5; beyond 400 with the floor's 400
        (Kind::Tram(t), Kind::Car(_)) if t.from_stop && r.one_in(3) => 2 * (l.min(400) + t.length as i64) - 15,
        (Kind::Tram(t), Kind::Tram(u)) if t.from_stop && u.from_stop && r.one_in(3) => l.min(400) + t.length as i64 - 15,
        (_, Kind::Car(c)) if !c.flying => 10 * k * k - 15,
        (_, Kind::Tram(u)) if u.from_stop => 5 * k * k - 15,
        // 9r/1000 = 8.1, and r/50 with 0.1 s more than whole seconds, as (11') has at 511, 622 and 733
        (Kind::Tram(t), Kind::Car(_) | Kind::Tram(_)) if t.from_stop && l > 400 => 900,
        (Kind::Tram(t), Kind::Cyclist(_)) if t.from_stop && l > 400 && r.one_in(2) => 50 * k + 5,
        (_, Kind::Car(_) | Kind::Tram(_)) => r.from_to(0, scale),
        (_, Kind::Pedestrian(_) | Kind::Island(_)) => 15 * k,
        (_, Kind::Cyclist(_)) => 50 * k,
    }
}

// ---- plans

/// Phase after phase, each stream as soon as the zones allow. Well-formed, and often accepted; the cycle is often as
/// short as it can be, or one second too short.
pub fn packed_plan(r: &mut Random, junction: &Junction, entries: &Entries) -> Plan {
    let n = junction.streams.len();
    let guess = r.from_to(30, 180);
    let mut begin = vec![0i64; n + 1];
    let mut end = vec![0i64; n + 1];
    let mut placed: Vec<usize> = vec![];
    let in_conflict = |i: usize, j: usize| {
        junction.zones.iter().any(|z| (z.a as usize, z.b as usize) == (i.min(j), i.max(j)))
    };
    for phase in 1..=junction.phases() {
        for s in (1..=n).filter(|&s| junction.stream(s).phase == phase) {
            let kind = &junction.stream(s).kind;
            let mut length = need(kind, guess);
            if let Kind::Car(car) = kind {
                let s_flow = saturation(car);
                let enough = (junction.flow(s).unwrap() as i64 * guess + s_flow - 1) / s_flow - 1;
                length = length.max(enough);
            }
            begin[s] = placed
                .iter()
                .filter(|&&e| in_conflict(e, s))
                .map(|&e| end[e] + entries.from_to(e, s) as i64)
                .max()
                .unwrap_or(0);
            end[s] = begin[s] + length + r.pick(&[0, 0, 0, 1, 5]);
        }
        placed.extend((1..=n).filter(|&s| junction.stream(s).phase == phase));
    }
    // the shortest cycle in which each comes back in time
    let mut least = 1;
    for z in &junction.zones {
        let (mut first, mut then) = (z.a as usize, z.b as usize);
        if begin[first] > begin[then] {
            (first, then) = (then, first);
        }
        least = least.max(end[then] + entries.from_to(then, first) as i64 - begin[first]);
    }
    for s in 1..=n {
        least = least.max(end[s] - begin[s]);
    }
    let cycle = match r.from_to(1, 5) {
        1 => guess,
        2 => guess.max(least),
        3 => least - 1,
        _ => least,
    }
    .clamp(1, 180);
    let turn = if r.one_in(2) { r.from_to(0, cycle - 1) } else { 0 };
    let greens = (1..=n)
        .map(|s| Green {
            start: ((begin[s] + turn) % cycle) as u16,
            length: (end[s] - begin[s]).clamp(1, cycle) as u16,
        })
        .collect();
    Plan { cycle: cycle as u16, greens }
}

/// All starts later by the same number of seconds, over the end of the cycle: nothing changes on the street.
pub fn turned(plan: &Plan, by: u16) -> Plan {
    let greens = plan.greens.iter().map(|g| Green { start: (g.start + by) % plan.cycle, ..*g }).collect();
    Plan { greens, ..plan.clone() }
}

/// One start, one length or the cycle moved by a second; it stays well-formed.
pub fn moved(r: &mut Random, plan: &Plan) -> Plan {
    let mut plan = plan.clone();
    let s = r.from_to(0, plan.greens.len() as i64 - 1) as usize;
    let c = plan.cycle;
    match r.from_to(1, 7) {
        1 | 2 => plan.greens[s].start = (plan.greens[s].start + 1) % c,
        3 | 4 => plan.greens[s].start = (plan.greens[s].start + c - 1) % c,
        5 => plan.greens[s].length = (plan.greens[s].length + 1).min(c),
        6 => plan.greens[s].length = (plan.greens[s].length - 1).max(1),
        _ => {
            let cycle = if r.one_in(2) { (c + 1).min(180) } else { (c - 1).max(1) };
            plan.cycle = cycle;
            for g in &mut plan.greens {
                g.start = g.start.min(cycle - 1);
                g.length = g.length.min(cycle);
            }
        }
    }
    plan
}

/// Starts and lengths at random.
pub fn any_plan(r: &mut Random, junction: &Junction) -> Plan {
    let cycle = r.from_to(1, 180);
    let greens = junction
        .streams
        .iter()
        .map(|_| Green { start: r.from_to(0, cycle - 1) as u16, length: r.from_to(1, cycle) as u16 })
        .collect();
    Plan { cycle: cycle as u16, greens }
}

/// The planner's plan, if there is one.
pub fn worked_plan(junction: &Junction) -> Option<Plan> {
    let mut buffer = [0; 5 + 8 * STREAM_LIMIT];
    work_out(&junction.to_file(), &mut buffer).ok().map(|w| w.plan)
}

// ---- accepted plans that are made for a delay

/// A car, the length of its green, the cycle and its flow, which it can carry.
#[derive(Clone, Copy, Debug)]
pub struct Load {
    pub car: Car,
    pub length: u16,
    pub cycle: u16,
    pub flow: u16,
}

impl Load {
    /// The answer about it.
    pub fn delay(&self) -> Delay {
        figures(self.length, self.cycle, self.flow, saturation(&self.car)).delay()
    }

    /// The greatest flow that it can carry, as far as a count can say it.
    fn capacity(&self) -> u16 {
        (saturation(&self.car) * (self.length as i64 + 1) / self.cycle as i64).min(9_999) as u16
    }
}

/// Greens for which the delay by exact fractions is 25, 35, 50, 70 or 100 s: it comes out as that, or a few steps below or above.
/// Length, cycle and flow; width, gradient and conditions of a straight car without shares.
const AT_LIMITS: [(u16, u16, u16, u16, i16, u8); 20] = [
    (17, 60, 642, 540, 0, 2),
    (19, 60, 405, 300, 9, 1),
    (29, 70, 750, 330, -4, 2),
    (22, 69, 378, 300, 9, 1),
    (55, 112, 1296, 540, 0, 1),
    (55, 140, 756, 540, 0, 2),
    (13, 56, 459, 588, 10, 2),
    (74, 125, 1089, 375, 0, 2),
    (20, 35, 1566, 540, 0, 2),
    (29, 108, 810, 540, 0, 1),
    (44, 165, 1080, 959, -6, 2),
    (80, 156, 1000, 543, 9, 2),
    (14, 93, 320, 675, 10, 2),
    (47, 160, 1008, 567, -7, 2),
    (26, 177, 150, 567, 10, 3),
    (15, 176, 108, 679, 0, 2),
    (41, 70, 783, 300, 9, 2),
    (26, 171, 588, 760, 0, 2),
    (31, 60, 702, 300, 9, 2),
    (8, 153, 144, 583, 0, 2),
];

fn random_car(r: &mut Random) -> Car {
    let Kind::Car(car) = random_kind(r, false, true) else { unreachable!("a car is asked for") };
    car
}

/// Any green of any load, now and then as long as the cycle or a second shorter.
fn any_load(r: &mut Random, cycle: u16) -> Load {
    let length = if r.one_in(6) { cycle - r.from_to(0, 1) as u16 } else { r.from_to(8, cycle as i64) as u16 };
    let load = Load { car: random_car(r), length, cycle, flow: 1 };
    let capacity = load.capacity() as i64;
    let flow = if r.one_in(8) { r.pick(&[1, capacity - 1, capacity]) } else { r.from_to(capacity / 3, capacity) };
    Load { flow: flow.max(1) as u16, ..load }
}

/// A green that is used to exact capacity, with some red, whose u comes out below 1, as 1 or above 1.
fn full_load(r: &mut Random, u: Ordering) -> Load {
    loop {
        let cycle = r.from_to(10, 180) as u16;
        let load = Load { car: random_car(r), length: r.from_to(8, cycle as i64 - 2) as u16, cycle, flow: 1 };
        let load = Load { flow: load.capacity(), ..load };
        let s = saturation(&load.car);
        let full = load.flow as i64 * cycle as i64 == s * (load.length as i64 + 1);
        if full && figures(load.length, cycle, load.flow, s).u.partial_cmp(&1.0) == Some(u) {
            return load;
        }
    }
}

/// A green without red that is used to exact capacity: u is 1 too.
fn full_load_without_red(r: &mut Random, cycle: u16) -> Load {
    loop {
        let load = Load { car: random_car(r), length: cycle - 1, cycle, flow: 1 };
        if saturation(&load.car) <= 9_999 {
            return Load { flow: load.capacity(), ..load };
        }
    }
}

/// A green with the greatest flow whose delay is still of a level, or with one unit more.
fn load_near_limit(r: &mut Random, cycle: u16) -> Load {
    loop {
        let load = Load { car: random_car(r), length: r.from_to(8, cycle as i64 - 2) as u16, cycle, flow: 1 };
        let limit = r.pick(&LEVELS).0;
        let within = |flow: u16| matches!(Load { flow, ..load }.delay(), Delay::Seconds(d) if d <= limit);
        // the delay grows with the flow
        let (mut flow, mut beyond) = (0, load.capacity() + 1);
        while flow + 1 < beyond {
            let middle = (flow + beyond) / 2;
            if within(middle) { flow = middle } else { beyond = middle }
        }
        if flow > 0 {
            let flow = (flow + r.from_to(0, 1) as u16).min(load.capacity());
            return Load { flow, ..load };
        }
    }
}

/// One of the greens at a limit.
fn load_at_limit(r: &mut Random) -> Load {
    let (length, cycle, flow, width, gradient, conditions) = r.pick(&AT_LIMITS);
    let straight = Car { radius: 0, left: 0, right: 0, ..random_car(r) };
    Load { car: Car { width, gradient, conditions, ..straight }, length, cycle, flow }
}

/// A junction without zones, in which every car has a load on purpose and every stream its need or more, and its plan: it is
/// accepted. Most cars have other counts as well, which must not give the flow.
pub fn loaded_junction(r: &mut Random) -> (Junction, Plan) {
    let cycle = r.from_to(10, 180) as u16;
    let first = match r.from_to(1, 9) {
        1 => full_load(r, Ordering::Less),
        2 => full_load(r, Ordering::Equal),
        3 => full_load(r, Ordering::Greater),
        4 => load_at_limit(r),
        5 | 6 => load_near_limit(r, cycle),
        7 => full_load_without_red(r, cycle),
        _ => any_load(r, cycle),
    };
    let cycle = first.cycle;
    let mut loads = vec![Some(first)];
    for _ in 0..r.pick(&[0, 1, 2, 3, 7]) {
        loads.push(Some(if r.one_in(2) { any_load(r, cycle) } else { load_near_limit(r, cycle) }));
    }
    // streams that are no cars
    for _ in 0..r.pick(&[1, 1, 2, 3, 8]) {
        loads.push(None);
    }
    shuffle(r, &mut loads);

    let design_day = r.pick(&[0, 1, 9000, 9000, 65535]);
    let (number, period) = (r.from_to(0, 65535) as u16, r.from_to(1, 4) as u8);
    let mut junction = Junction { number, design_day, period, streams: vec![], zones: vec![], counts: vec![] };
    let mut plan = Plan { cycle, greens: vec![] };
    let phases = r.from_to(2, loads.len().min(6) as i64);
    for (i, load) in loads.iter().enumerate() {
        let phase = if (i as i64) < phases { i as i64 + 1 } else { r.from_to(1, phases) } as u8;
        let (kind, length) = match load {
            Some(load) => (Kind::Car(load.car), load.length),
            None => other_green(r, cycle),
        };
        junction.streams.push(Stream { phase, kind });
        plan.greens.push(Green { start: r.from_to(0, cycle as i64 - 1) as u16, length });
        if let Some(load) = load {
            let count_day = design_day.saturating_sub(r.pick(&[0, 0, 1, 300]));
            let (stream, file_day) = (i as u8 + 1, r.from_to(0, 65535) as u16);
            let own = Count { stream, count_day, file_day, flow: load.flow, period };
            junction.counts.push(own);
            for _ in 0..r.pick(&[0, 1, 1, 2]) {
                junction.counts.push(not_chosen(r, &own, design_day));
            }
        }
    }
    shuffle(r, &mut junction.counts);
    (junction, plan)
}

/// A stream that is no car, with its need at this cycle or more.
fn other_green(r: &mut Random, cycle: u16) -> (Kind, u16) {
    loop {
        let kind = random_kind(r, false, false);
        let need = need(&kind, cycle as i64);
        if !matches!(kind, Kind::Car(_)) && need <= cycle as i64 {
            return (kind, r.from_to(need, cycle as i64) as u16);
        }
    }
}

/// A count of the same car that does not give its flow: of another period, after the design day, older, or not larger on the day.
fn not_chosen(r: &mut Random, own: &Count, design_day: u16) -> Count {
    let (file_day, flow) = (r.from_to(0, 65535) as u16, r.from_to(1, 9_999) as u16);
    match r.from_to(1, 6) {
        1..=3 => of_another_period(r, own.stream as usize, design_day, own.period, own.flow as i64),
        4 if design_day < 65535 => Count { count_day: design_day + 1, file_day, flow, ..*own },
        5 if own.count_day > 0 => Count { count_day: own.count_day - 1, file_day, flow, ..*own },
        _ => Count { file_day, flow: r.from_to(1, own.flow as i64) as u16, ..*own },
    }
}

// ---- road works with portable signals

/// Road works of every sort: listed and not, with flows and S in range and not, a cycle and none, waiting lengths at their limits.
pub fn some_works(r: &mut Random) -> Works {
    let mut works = listed_works(r);
    give_waiting(r, &mut works);
    if r.one_in(8) {
        let one = |r: &mut Random| if r.one_in(3) { usize::MAX } else { r.from_to(0, 60) as usize };
        works.approaches[0].waiting = one(r);
        works.approaches[1].waiting = one(r);
    }
    let mut numbers = works.numbers();
    for _ in 0..r.pick(&[0, 0, 0, 1, 2]) {
        let which = r.from_to(0, NUMBERS as i64 - 1) as usize;
        numbers[which] = other_number(r, numbers[which]);
    }
    Works::of(numbers)
}

/// Road works with a listed stretch and speed, and flows and S in range. There is more waiting length than is ever needed.
pub fn listed_works(r: &mut Random) -> Works {
    let short = r.one_in(4);
    let stretch = 10 * r.from_to(1, if short { 4 } else { 30 }) as usize;
    let speed = r.pick(&SPEEDS);
    // (32) gives 180 where 10,000 - Y is a 180th of 15,000 x L + 50,000
    let l = 2 * (intergreen(stretch, speed) - 1);
    let last = 10_000 - (15_000 * l + 50_000) / 180;
    // where each approach has its needed green, but approach 2 at times not its capacity
    let capacity = short && r.one_in(3);
    let y = match r.from_to(1, 10) {
        _ if capacity => last - r.from_to(0, 150),
        1 if r.one_in(3) => r.from_to(9_990, 10_010),
        2 => r.from_to(1, 12_000),
        3 => last + r.from_to(-300, 100),
        _ => r.from_to(last / 8, last),
    };
    let y = y.max(20);
    let share = match r.from_to(1, 5) {
        _ if capacity => r.from_to(9_150, 9_480),
        1 => r.from_to(1, 1_500),
        2 => r.from_to(8_500, 9_999),
        _ => r.from_to(1_500, 8_500),
    };
    let one = (y * share / 10_000).max(1);
    let mut approaches = [one, (y - one).max(1)].map(|y| some_approach(r, y));
    if !capacity && r.one_in(8) {
        approaches = [some_approach(r, y / 2); 2];
    }
    Works { stretch, speed, approaches }
}

/// An approach with this y, as nearly as whole numbers allow.
fn some_approach(r: &mut Random, y: i64) -> Approach {
    let (flow, s) = if r.one_in(4) {
        // so that flow x C/600 is often whole
        let flow = r.pick(&[60, 100, 120, 150, 200, 300, 300, 600, 600, 1_200]);
        (flow, 10_000 * flow / y)
    } else {
        let (from, to) = r.pick(&[(1_200, 2_500), (1_200, 2_500), (1, 9_999), (9_999, 9_999)]);
        let s = r.from_to(from, to);
        (y * s / 10_000, s)
    };
    Approach { flow: flow.clamp(1, 9_999) as usize, s: s.clamp(1, 9_999) as usize, waiting: 1_000_000 }
}

/// Gives waiting lengths beside those that the cycle needs, or others.
fn give_waiting(r: &mut Random, works: &mut Works) {
    let cycle = cycle_of(works).map_or(180, |c| c.cycle as usize);
    for approach in &mut works.approaches {
        let needed = approach.flow * cycle / 600;
        approach.waiting = match r.from_to(1, 12) {
            1 | 2 => needed,
            3 => needed.saturating_sub(1),
            4 => needed + r.from_to(2, 300) as usize,
            5 => (1 << r.pick(&[8, 16, 32, 63])) + r.from_to(0, needed as i64) as usize,
            _ => needed + 1,
        };
    }
}

/// A number beside this one, at the end of a range, with higher bits, or any.
pub fn other_number(r: &mut Random, number: usize) -> usize {
    match r.from_to(1, 12) {
        1 => 0,
        2 => number.saturating_sub(1),
        3 => number.saturating_add(1),
        4 => r.pick(&[1, 9_999, 10_000, 10_001, 310, 20, 45]),
        5 => number ^ (1 << 8),
        6 | 7 => number ^ (1 << 16),
        8 | 9 => number ^ (1 << 32),
        10 => number ^ (1 << 63),
        11 if r.one_in(2) => usize::MAX,
        11 => r.any() as usize,
        _ => r.from_to(0, 400) as usize,
    }
}

/// Road works, and a junction of two cars with the same flows, S and M, which is at most 13: two flying straight cars whose zone has
/// M as both entries. There is more waiting length than is ever needed.
pub fn works_as_junction(r: &mut Random) -> (Works, Junction) {
    let (stretch, speed) = loop {
        let (stretch, speed) = (10 * r.from_to(1, 9) as usize, r.pick(&SPEEDS));
        if intergreen(stretch, speed) <= 13 {
            break (stretch, speed);
        }
    };
    let y = r.from_to(100, 10_500);
    let one = y * r.from_to(1, 99) / 100;
    let mut junction = Junction { number: 7, design_day: 9000, period: 1, streams: vec![], zones: vec![], counts: vec![] };
    let approaches = [(1, one), (2, y - one)].map(|(stream, y)| {
        let car = loop {
            let car = Car { amber: 3, flying: true, radius: 0, ..random_car(r) };
            if saturation(&car) <= 9_999 {
                break car;
            }
        };
        let s = saturation(&car);
        let flow = (y * s / 10_000).clamp(1, 9_999) as u16;
        junction.streams.push(Stream { phase: stream, kind: Kind::Car(car) });
        junction.counts.push(Count { stream, count_day: 9000, file_day: 0, flow, period: 1 });
        Approach { flow: flow as usize, s: s as usize, waiting: 1_000_000 }
    });
    // 3 + (l + 60)/100 is M
    let l = (100 * (intergreen(stretch, speed) - 3) - 60) as u16;
    junction.zones.push(Zone { a: 1, b: 2, clearing_a: l, reaching_a: 0, clearing_b: l, reaching_b: 0 });
    (Works { stretch, speed, approaches }, junction)
}
