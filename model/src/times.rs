//! "Times at a zone": leaving, reaching and the entry from one stream to another.

use crate::exact::{fraction, whole, Time};
use crate::junction::{IslandCrossing, Junction, Kind, Tram};

/// Leaving time after the green's end, with clearing distance l in dm.
pub fn leaving(kind: &Kind, l: u16) -> Time {
    let l = l as i128;
    match kind {
        Kind::Car(car) => {
            let by_formula = if car.radius == 0 {
                whole(3) + fraction(l + 60, 100) // (1) and (7)
            } else if car.radius > 150 {
                whole(2) + fraction(l + 60, 70) // (8)
            } else {
                whole(2) + fraction(l + 60, 50) // (9)
            };
            // (9'): raised to amber + 1 if lower
            Time::plain(by_formula.max(whole(car.amber as i128 + 1)))
        }
        Kind::Tram(tram) if tram.from_stop => {
            if l <= 400 {
                accelerating(tram, l) // (11)
            } else {
                at_full_speed(l).max(accelerating(tram, 400)) // the larger of (11') and (11) taken at 400
            }
        }
        Kind::Tram(tram) => {
            Time::plain(fraction(51, 10) + fraction(9 * (l + tram.length as i128), 1000)) // (3), (10)
        }
        Kind::Pedestrian(p) | Kind::Island(IslandCrossing { walk: p, .. }) => {
            Time::plain(fraction(l, p.speed as i128)) // (12)
        }
        Kind::Cyclist(_) => Time::plain(whole(1) + fraction(l, 40)), // (12')
    }
}

/// (11): a tram from a stop, with acceleration all the way. Taken at 400 it is the floor under (11') (request 2026-02).
pub fn accelerating(tram: &Tram, l: i128) -> Time {
    Time::root(fraction(l + tram.length as i128, 5))
}

/// (11'): a tram from a stop, beyond 400 dm.
pub fn at_full_speed(l: i128) -> Time {
    Time::plain(fraction(111, 10) + fraction(l - 400, 111))
}

/// Reaching time after the green's start, with reaching distance r in dm.
pub fn reaching(kind: &Kind, r: u16) -> Time {
    let r = r as i128;
    let flying = Time::plain(fraction(9 * r, 1000)); // (14), (16)
    match kind {
        Kind::Car(car) if car.flying => flying,
        Kind::Car(_) => Time::root(fraction(r + 15, 10)).later(-1), // (13)
        Kind::Tram(tram) if tram.from_stop => Time::root(fraction(r + 15, 5)), // (15)
        Kind::Tram(_) => flying,
        Kind::Pedestrian(p) | Kind::Island(IslandCrossing { walk: p, .. }) if p.reach_counted => {
            Time::plain(fraction(r, 15)) // (18)
        }
        Kind::Cyclist(c) if c.reach_counted => Time::plain(fraction(r, 50)), // (18')
        Kind::Pedestrian(_) | Kind::Cyclist(_) | Kind::Island(_) => Time::plain(whole(0)), // (17)
    }
}

/// Entry from stream i to stream j (19), streams counted from 1: the least whole number, not below 0, that is at least
/// leaving of i minus reaching of j at each zone of the pair. Found by counting up from 0.
pub fn entry(junction: &Junction, i: usize, j: usize) -> i128 {
    let times: Vec<(Time, Time)> = zone_distances(junction, i, j)
        .map(|(l, r)| (leaving(&junction.stream(i).kind, l), reaching(&junction.stream(j).kind, r)))
        .collect();
    let mut n = 0;
    while !times.iter().all(|(leaves, reaches)| leaves.no_later_than(reaches.later(n))) {
        n += 1;
    }
    n
}

/// Clearing distance of i and reaching distance of j, at each zone of the pair.
pub fn zone_distances(junction: &Junction, i: usize, j: usize) -> impl Iterator<Item = (u16, u16)> + '_ {
    junction.zones.iter().filter_map(move |zone| {
        if (zone.a as usize, zone.b as usize) == (i, j) {
            Some((zone.clearing_a, zone.reaching_b))
        } else if (zone.a as usize, zone.b as usize) == (j, i) {
            Some((zone.clearing_b, zone.reaching_a))
        } else {
            None // a zone of another pair
        }
    })
}

/// All entries at once, so that the rules need not count again: `entries[i][j]`, streams counted from 1.
pub struct Entries(Vec<Vec<i128>>);

impl Entries {
    pub fn of(junction: &Junction) -> Entries {
        let n = junction.streams.len();
        Entries((1..=n).map(|i| (1..=n).map(|j| entry(junction, i, j)).collect()).collect())
    }

    pub fn from_to(&self, i: usize, j: usize) -> i128 {
        self.0[i - 1][j - 1]
    }
}
