//! "Needs and flows": Table 1, Table 3, the needed greens, base flow, S and y.

use crate::exact::{fraction, whole, Fraction};
use crate::junction::{Car, IslandCrossing, Kind, Pedestrian};

/// Table 1 of the annex: width in cm, base flow in E/h.
pub const TABLE_1: [(u16, i64); 12] = [
    (300, 1850),
    (325, 1870),
    (330, 1875),
    (350, 1925),
    (360, 1950),
    (375, 1980),
    (400, 2030),
    (420, 2075),
    (450, 2275),
    (480, 2475),
    (500, 2585),
    (540, 2700),
];

/// Table 3 of the annex: trams an hour from 15 to 34, the cycle up to which 10 s are enough.
pub const TABLE_3: [i64; 20] =
    [120, 113, 106, 100, 95, 91, 87, 82, 79, 75, 72, 69, 67, 65, 63, 60, 58, 56, 54, 53];

/// Table 3's cycle; 14 trams or fewer count as 15.
pub fn table_3(trams_an_hour: u8) -> i64 {
    TABLE_3[trams_an_hour.max(15) as usize - 15]
}

/// a/b rounded up.
fn up(a: i64, b: i64) -> i64 {
    (a + b - 1) / b
}

/// The needed green of a stream where the cycle is `cycle`.
pub fn need(kind: &Kind, cycle: i64) -> i64 {
    match kind {
        Kind::Car(_) => 8,
        Kind::Tram(t) => if cycle <= table_3(t.trams_an_hour) { 10 } else { 20 },
        Kind::Cyclist(_) => 6,
        Kind::Pedestrian(p) => walking_need(crossing_quotient(p), p.disturbed),
        Kind::Island(i) => walking_need(packet_quotient(i).max(crossing_quotient(&i.walk)), i.walk.disturbed),
    }
}

/// Kind 3's quotient, crossing V: V/12, or V/16 if V is above 120 or people an hour are at most 120.
pub fn crossing_quotient(p: &Pedestrian) -> Fraction {
    let v = p.crossing as i128;
    fraction(v, if v > 120 || p.people <= 120 { 16 } else { 12 })
}

/// (39'): (B + u + P)/12.
pub fn packet_quotient(i: &IslandCrossing) -> Fraction {
    fraction(i.wider_carriageway as i128 + i.island as i128 + i.packet as i128, 12)
}

/// The need of people on foot: the quotient, plus 3 if disturbed; rounded up; at least 6.
fn walking_need(quotient: Fraction, disturbed: bool) -> i64 {
    let seconds = quotient + whole(if disturbed { 3 } else { 0 });
    seconds.up().max(6) as i64
}

/// Base flow, rounded down.
pub fn base_flow(car: &Car) -> i64 {
    let (w, r) = (car.width as i64, car.radius as i64);
    if r != 0 {
        let for_rows = if car.rows == 1 { 7_200 } else { 12_000 };
        for_rows * r / (4 * r + 61) // (21), (22)
    } else if w > 540 {
        21 * w / 4 // (20)
    } else {
        // the greatest listed width not above it
        TABLE_1.iter().filter(|row| row.0 as i64 <= w).last().expect("width at least 300").1
    }
}

/// S = base x (100 - 3 x gradient)/100 x conditions x Kturn, rounded down once.
pub fn saturation(car: &Car) -> i64 {
    let hundredths = match car.conditions {
        1 => 120,
        2 => 100,
        _ => 85,
    };
    let (b, c) = (car.left as i64, car.right as i64);
    let a = 100 - b - c;
    let (turn_upper, turn_lower) = if b + c >= 10 { (400, 4 * a + 7 * b + 5 * c) } else { (1, 1) };
    base_flow(car) * (100 - 3 * car.gradient as i64) * hundredths * turn_upper / (100 * 100 * turn_lower)
}

/// y = 10,000 x flow / S, rounded up.
pub fn y_of(car: &Car, flow: u16) -> i64 {
    up(10_000 * flow as i64, saturation(car))
}
