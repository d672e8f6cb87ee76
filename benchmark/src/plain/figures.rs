//! Entries, needs and flows (annex, sections 1 and 2), and the tables of them that are worked out once.
use super::reading::{Car, Island, Junction, Kind, Pedestrian, Stream, Tram};

// ---- times

/// n / d, or the root of q / d less whole seconds.
#[derive(Clone, Copy)]
enum Time {
    Ratio { n: u64, d: u64 },
    Root { q: u64, d: u64, less: u64 },
}

fn leaving(kind: &Kind, l: u16) -> Time {
    let l = l as u64;
    match kind {
        Kind::Car(c) => car_leaving(c, l),
        Kind::Tram(t) => tram_leaving(t, l),
        Kind::Pedestrian(p) => walk_leaving(p, l),
        Kind::Cyclist { .. } => Time::Ratio { n: 40 + l, d: 40 },
        Kind::Island(i) => walk_leaving(&i.walk, l),
    }
}

fn car_leaving(c: &Car, l: u64) -> Time {
    let (approach, d) = match c.radius {
        0 => (3, 100),
        151.. => (2, 70),
        _ => (2, 50),
    };
    Time::Ratio { n: (approach * d + l + 60).max((c.amber as u64 + 1) * d), d }
}

fn tram_leaving(t: &Tram, l: u64) -> Time {
    let way = l + t.length as u64;
    if !t.stop {
        Time::Ratio { n: 5_100 + 9 * way, d: 1_000 }
    } else if l <= 400 {
        Time::Root { q: way, d: 5, less: 0 }
    } else {
        longer(400 + t.length as u64, 5, 12_321 + 10 * (l - 400), 1_110)
    }
}

/// The larger of the root of q / d and n / e, compared exactly; n / e where they are equal.
fn longer(q: u64, d: u64, n: u64, e: u64) -> Time {
    let (root, ratio) = (Time::Root { q, d, less: 0 }, Time::Ratio { n, d: e });
    if within(root, ratio, 0) { ratio } else { root }
}

fn walk_leaving(p: &Pedestrian, l: u64) -> Time {
    Time::Ratio { n: l, d: p.speed as u64 }
}

fn reaching(kind: &Kind, r: u16) -> Time {
    let r = r as u64;
    match kind {
        Kind::Car(Car { flying: true, .. }) | Kind::Tram(Tram { stop: false, .. }) => Time::Ratio { n: 9 * r, d: 1_000 },
        Kind::Car(_) => Time::Root { q: r + 15, d: 10, less: 1 },
        Kind::Tram(_) => Time::Root { q: r + 15, d: 5, less: 0 },
        Kind::Pedestrian(p) => counted_reaching(p.counted, r, 15),
        Kind::Cyclist { counted } => counted_reaching(*counted, r, 50),
        Kind::Island(i) => counted_reaching(i.walk.counted, r, 15),
    }
}

fn counted_reaching(counted: bool, r: u64, speed: u64) -> Time {
    if counted { Time::Ratio { n: r, d: speed } } else { Time::Ratio { n: 0, d: 1 } }
}

/// Is the leaving time at most gap + the reaching time? By squares, twice where two roots meet.
fn within(leave: Time, reach: Time, gap: u64) -> bool {
    match (leave, reach) {
        (Time::Ratio { n: m, d: b }, Time::Ratio { n, d }) => m * d <= gap * b * d + n * b,
        (Time::Ratio { n: m, d: b }, Time::Root { q, d, less }) => {
            let side = (m + less * b).saturating_sub(gap * b);
            side * side * d <= q * b * b
        }
        (Time::Root { q, d: e, less }, Time::Ratio { n, d }) => {
            let side = (gap + less) * d + n;
            q * d * d <= side * side * e
        }
        (Time::Root { q, d: e, less: more }, Time::Root { q: p, d: f, less }) => {
            let (a, p, s, gap) = (q * f, p * e, e * f, gap + more);
            if less <= gap {
                let square = (gap - less) * (gap - less);
                let side = a.saturating_sub(square * s + p);
                side * side <= 4 * square * s * p
            } else {
                let square = (less - gap) * (less - gap);
                let low = a + square * s;
                low <= p && 4 * square * s * a <= (p - low) * (p - low)
            }
        }
    }
}

/// The least whole number, from 0 on, that is enough.
fn entry(from: &Stream, to: &Stream, clearing: u16, reach: u16) -> u16 {
    let (leave, reach) = (leaving(&from.kind, clearing), reaching(&to.kind, reach));
    let mut gap = 0;
    while !within(leave, reach, gap) {
        gap += 1;
    }
    gap as u16
}

// ---- needs and flows

/// Table 3: the longest cycle in which 15 to 34 trams an hour need 10 s.
const TABLE_3: [u16; 20] = [120, 113, 106, 100, 95, 91, 87, 82, 79, 75, 72, 69, 67, 65, 63, 60, 58, 56, 54, 53];

pub fn need(kind: &Kind, cycle: u16) -> u16 {
    match kind {
        Kind::Car(_) => 8,
        Kind::Tram(t) => if cycle <= TABLE_3[t.hourly.max(15) as usize - 15] { 10 } else { 20 },
        Kind::Pedestrian(p) => pedestrian_need(p),
        Kind::Cyclist { .. } => 6,
        Kind::Island(i) => island_need(i),
    }
}

fn pedestrian_need(p: &Pedestrian) -> u16 {
    let speed = if p.crossing > 120 || p.hourly <= 120 { 16 } else { 12 };
    (p.crossing.div_ceil(speed) + disturbance(p)).max(6)
}

/// (39'): the larger of two quotients, rounded up, is the larger of both rounded up.
fn island_need(i: &Island) -> u16 {
    let way = i.wider + i.island + i.packet;
    (way.div_ceil(12) + disturbance(&i.walk)).max(pedestrian_need(&i.walk))
}

fn disturbance(p: &Pedestrian) -> u16 {
    if p.disturbed { 3 } else { 0 }
}

fn base_flow(c: &Car) -> u64 {
    let r = c.radius as u64;
    if r != 0 {
        return if c.rows == 2 { 12_000 } else { 7_200 } * r / (4 * r + 61);
    }
    match c.width {
        ..=324 => 1_850,
        325..=329 => 1_870,
        330..=349 => 1_875,
        350..=359 => 1_925,
        360..=374 => 1_950,
        375..=399 => 1_980,
        400..=419 => 2_030,
        420..=449 => 2_075,
        450..=479 => 2_275,
        480..=499 => 2_475,
        500..=539 => 2_585,
        540 => 2_700,
        541.. => 21 * c.width as u64 / 4,
    }
}

fn saturation_flow(c: &Car) -> u32 {
    let gradient = 130 - 3 * c.gradient as u64;
    let conditions = match c.conditions {
        1 => 120,
        2 => 100,
        _ => 85,
    };
    let (left, right) = (c.left as u64, c.right as u64);
    let divisor = if left + right < 10 { 400 } else { 4 * (100 - left - right) + 7 * left + 5 * right };
    (base_flow(c) * gradient * conditions * 400 / (10_000 * divisor)) as u32
}

// ---- tables

/// The entries from one stream to another: the largest over the zones of their pair, 0 where they share none. One pass over the zones.
fn entries(j: &Junction) -> [[u16; 16]; 16] {
    let mut largest = [[0; 16]; 16];
    for z in j.zones() {
        let (a, b) = (&j.streams()[z.a], &j.streams()[z.b]);
        let atob = &mut largest[z.a][z.b];
        *atob = entry(a, b, z.clearing_a, z.reaching_b).max(*atob);
        let btoa = &mut largest[z.b][z.a];
        *btoa = entry(b, a, z.clearing_b, z.reaching_a).max(*btoa);
    }
    largest
}

/// A zone's streams and the entries of the pair.
#[derive(Clone, Copy, Default)]
pub struct Conflict {
    pub a: usize,
    pub b: usize,
    pub atob: u16,
    pub btoa: u16,
}

/// The conflicts of all zones, in their order.
pub struct Conflicts {
    of: [Conflict; 64],
    count: usize,
}

impl Conflicts {
    pub fn new(j: &Junction) -> Conflicts {
        let entries = entries(j);
        let mut all = Conflicts { of: [Conflict::default(); 64], count: j.zones().len() };
        for (c, z) in all.of.iter_mut().zip(j.zones()) {
            *c = Conflict { a: z.a, b: z.b, atob: entries[z.a][z.b], btoa: entries[z.b][z.a] };
        }
        all
    }

    pub fn all(&self) -> &[Conflict] {
        &self.of[..self.count]
    }
}

/// Flow and saturation flow of a car in E/h, and their ratio in ten-thousandths; 0 for other streams.
#[derive(Clone, Copy, Default)]
pub struct Load {
    pub flow: u16,
    pub saturation: u32,
    pub ratio: u32,
}

pub fn load(j: &Junction, stream: usize) -> Load {
    match &j.streams()[stream].kind {
        Kind::Car(car) => {
            let flow = j.flow(stream).unwrap_or(0);
            let saturation = saturation_flow(car);
            Load { flow, saturation, ratio: (10_000 * flow as u32).div_ceil(saturation) }
        }
        Kind::Tram(_) | Kind::Pedestrian(_) | Kind::Cyclist { .. } | Kind::Island(_) => Load::default(),
    }
}

pub fn loads(j: &Junction) -> [Load; 16] {
    let mut all = [Load::default(); 16];
    for s in 0..j.streams().len() {
        all[s] = load(j, s);
    }
    all
}
