//! The junction file: its parts, questions 1 to 9, and the choice of a car's count.

use crate::{refuse, Refusal};

pub const FILE_LIMIT: usize = 16_384;
pub const STREAM_LIMIT: usize = 16;
pub const ZONE_LIMIT: usize = 64;
pub const COUNT_LIMIT: usize = 128;

#[derive(Clone, PartialEq, Eq, Debug)]
pub struct Junction {
    pub number: u16,
    pub design_day: u16,
    /// The period that is planned, 1 to 4.
    pub period: u8,
    pub streams: Vec<Stream>,
    pub zones: Vec<Zone>,
    pub counts: Vec<Count>,
}

#[derive(Clone, Copy, PartialEq, Eq, Debug)]
pub struct Stream {
    pub phase: u8,
    pub kind: Kind,
}

/// A stream holds one of five kinds, each with figures of its own.
#[derive(Clone, Copy, PartialEq, Eq, Debug)]
pub enum Kind {
    Car(Car),
    Tram(Tram),
    Pedestrian(Pedestrian),
    Cyclist(Cyclist),
    /// Kind 5, of request 2026-01.
    Island(IslandCrossing),
}

#[derive(Clone, Copy, PartialEq, Eq, Debug)]
pub struct Car {
    pub amber: u8,
    pub flying: bool,
    /// dm; 0 is straight
    pub radius: u16,
    /// cm
    pub width: u16,
    pub rows: u8,
    /// percent, -10 to 10
    pub gradient: i16,
    /// 1 good, 2 medium, 3 bad
    pub conditions: u8,
    /// percent
    pub left: u8,
    pub right: u8,
}

#[derive(Clone, Copy, PartialEq, Eq, Debug)]
pub struct Tram {
    pub from_stop: bool,
    pub length: u16,
    pub trams_an_hour: u8,
}

#[derive(Clone, Copy, PartialEq, Eq, Debug)]
pub struct Pedestrian {
    /// dm/s
    pub speed: u8,
    pub crossing: u16,
    pub people: u16,
    pub reach_counted: bool,
    pub disturbed: bool,
}

#[derive(Clone, Copy, PartialEq, Eq, Debug)]
pub struct Cyclist {
    pub reach_counted: bool,
}

/// A crossing with an island, crossed in one go: a pedestrian in all but the need.
#[derive(Clone, Copy, PartialEq, Eq, Debug)]
pub struct IslandCrossing {
    pub walk: Pedestrian,
    /// B, dm
    pub wider_carriageway: u16,
    /// u, dm
    pub island: u16,
    /// P, dm
    pub packet: u16,
}

/// Streams are numbered from 1; the first is `a`, the second `b`.
#[derive(Clone, Copy, PartialEq, Eq, Debug)]
pub struct Zone {
    pub a: u8,
    pub b: u8,
    pub clearing_a: u16,
    pub reaching_a: u16,
    pub clearing_b: u16,
    pub reaching_b: u16,
}

#[derive(Clone, Copy, PartialEq, Eq, Debug)]
pub struct Count {
    pub stream: u8,
    pub count_day: u16,
    pub file_day: u16,
    pub flow: u16,
    /// In a file 1 to 4; in a lent list any number.
    pub period: u8,
}

impl Junction {
    /// The stream of this number, counted from 1.
    pub fn stream(&self, number: usize) -> &Stream {
        &self.streams[number - 1]
    }

    /// The number of phases: the greatest phase used.
    pub fn phases(&self) -> u8 {
        self.streams.iter().map(|s| s.phase).max().unwrap_or(0)
    }

    /// A car's flow, if it has a usable count in the period that is planned.
    pub fn flow(&self, stream: usize) -> Option<u16> {
        choose_flow(&self.counts, stream, self.design_day, self.period as usize)
    }
}

impl Stream {
    pub fn is_car(&self) -> bool {
        matches!(self.kind, Kind::Car(_))
    }

    /// Is it a pedestrian or a tram? An island counts as a pedestrian.
    pub fn is_pedestrian_or_tram(&self) -> bool {
        match self.kind {
            Kind::Tram(_) | Kind::Pedestrian(_) | Kind::Island(_) => true,
            Kind::Car(_) | Kind::Cyclist(_) => false,
        }
    }
}

/// Is it a period?
pub fn is_period(number: usize) -> bool {
    (1..=4).contains(&number)
}

/// Of the counts of this period, the one with the greatest count day not after the design day; of equals, the larger flow.
/// A period outside 1 to 4 matches no count. The file day is not looked at.
pub fn choose_flow(counts: &[Count], stream: usize, design_day: u16, period: usize) -> Option<u16> {
    counts
        .iter()
        .filter(|c| c.stream as usize == stream && c.count_day <= design_day)
        .filter(|c| is_period(period) && c.period as usize == period)
        .filter(|c| (1..=9_999).contains(&c.flow))
        .max_by_key(|c| (c.count_day, c.flow))
        .map(|c| c.flow)
}

/// The same choice over a lent list of count records: refusal 9, place the stream asked for.
pub fn flow_of_list(records: &[Count], stream: usize, design_day: u16, period: usize) -> Result<u16, Refusal> {
    choose_flow(records, stream, design_day, period).ok_or(Refusal { number: 9, place: stream })
}

/// Two bytes, high byte first.
pub fn two(bytes: &[u8], at: usize) -> u16 {
    bytes[at] as u16 * 256 + bytes[at + 1] as u16
}

/// Reads a junction file: questions 1 to 9.
pub fn read_junction(file: &[u8]) -> Result<Junction, Refusal> {
    // 1: is it within 16,384 bytes?
    if file.len() > FILE_LIMIT {
        return refuse(1, 0);
    }
    let mut junction =
        Junction { number: 0, design_day: 0, period: 0, streams: vec![], zones: vec![], counts: vec![] };

    // Field by field; all questions of one field before the next.
    let mut at = 0;
    let mut tag_before = 0; // 0: no field yet
    while at < file.len() {
        // 2: do three bytes and the body fit?
        if file.len() - at < 3 {
            return refuse(2, at);
        }
        let tag = file[at];
        let length = two(file, at + 1) as usize;
        if file.len() - at - 3 < length {
            return refuse(2, at);
        }
        let body = &file[at + 3..at + 3 + length];

        // 3: is the tag known and in its order, the heading first and single?
        let in_order = if tag_before == 0 { tag == 1 } else { (2..=4).contains(&tag) && tag >= tag_before };
        if !in_order {
            return refuse(3, at);
        }

        // 4 to 7, by the sort of field.
        match tag {
            1 => {
                if length != 5 {
                    return refuse(4, at);
                }
                junction.number = two(body, 0);
                junction.design_day = two(body, 2);
                junction.period = body[4];
                if !is_period(junction.period as usize) {
                    return refuse(5, at);
                }
            }
            2 => {
                let stream = read_stream(body).map_err(|number| Refusal { number, place: at })?;
                if junction.streams.len() == STREAM_LIMIT {
                    return refuse(6, at);
                }
                junction.streams.push(stream);
            }
            3 => {
                if length != 10 {
                    return refuse(4, at);
                }
                let zone = Zone {
                    a: body[0],
                    b: body[1],
                    clearing_a: two(body, 2),
                    reaching_a: two(body, 4),
                    clearing_b: two(body, 6),
                    reaching_b: two(body, 8),
                };
                let distances = [zone.clearing_a, zone.reaching_a, zone.clearing_b, zone.reaching_b];
                if distances.iter().any(|&d| d > 999) {
                    return refuse(5, at);
                }
                if junction.zones.len() == ZONE_LIMIT {
                    return refuse(6, at);
                }
                let (a, b) = (zone.a as usize, zone.b as usize);
                let exists = |s: usize| 1 <= s && s <= junction.streams.len();
                if !exists(a) || !exists(b) || a >= b || junction.stream(a).phase == junction.stream(b).phase {
                    return refuse(7, at);
                }
                junction.zones.push(zone);
            }
            _ => {
                if length != 8 {
                    return refuse(4, at);
                }
                let count = Count {
                    stream: body[0],
                    count_day: two(body, 1),
                    file_day: two(body, 3),
                    flow: two(body, 5),
                    period: body[7],
                };
                if !(1..=9_999).contains(&count.flow) || !is_period(count.period as usize) {
                    return refuse(5, at);
                }
                if junction.counts.len() == COUNT_LIMIT {
                    return refuse(6, at);
                }
                let s = count.stream as usize;
                if s < 1 || s > junction.streams.len() || !junction.stream(s).is_car() {
                    return refuse(7, at);
                }
                junction.counts.push(count);
            }
        }
        tag_before = tag;
        at += 3 + length;
    }

    // 8: heading present, phases 1 to some 2 or more all used, a car present?
    let phases = junction.phases();
    let all_used = (1..=phases).all(|p| junction.streams.iter().any(|s| s.phase == p));
    if tag_before == 0 || phases < 2 || !all_used || !junction.streams.iter().any(|s| s.is_car()) {
        return refuse(8, file.len());
    }

    // 9: has each car a usable count in the period?
    for s in 1..=junction.streams.len() {
        if junction.stream(s).is_car() && junction.flow(s).is_none() {
            return refuse(9, s);
        }
    }
    Ok(junction)
}

/// Questions 4 and 5 of a stream's body; the number of the refusal.
fn read_stream(body: &[u8]) -> Result<Stream, u8> {
    // An empty body fails at 4; of an unknown kind the length is not judged.
    if body.is_empty() {
        return Err(4);
    }
    let right_length = match body[0] {
        1 => 13,
        2 => 6,
        3 => 9,
        4 => 3,
        5 => 15,
        0 | 6..=255 => return Err(5),
    };
    if body.len() != right_length {
        return Err(4);
    }
    let phase = body[1];
    let mut good = (1..=6).contains(&phase);
    let mut range = |number: u16, from: u16, to: u16| good = good && from <= number && number <= to;
    let kind = match body[0] {
        1 => {
            let (amber, start, radius, width) = (body[2], body[3], two(body, 4), two(body, 6));
            let (rows, gradient, conditions, left, right) = (body[8], body[9], body[10], body[11], body[12]);
            range(amber as u16, 3, 5);
            range(start as u16, 0, 1);
            if radius != 0 {
                range(radius, 30, 9_999);
                range(left as u16, 0, 0);
                range(right as u16, 0, 0);
            }
            range(width, 300, 1_500);
            range(rows as u16, 1, 2);
            range(gradient as u16, 0, 20);
            range(conditions as u16, 1, 3);
            range(left as u16 + right as u16, 0, 100);
            Kind::Car(Car {
                amber,
                flying: start == 1,
                radius,
                width,
                rows,
                gradient: gradient as i16 - 10,
                conditions,
                left,
                right,
            })
        }
        2 => {
            let (stop, length, trams) = (body[2], two(body, 3), body[5]);
            range(stop as u16, 0, 1);
            range(length, 100, 600);
            range(trams as u16, 1, 34);
            Kind::Tram(Tram { from_stop: stop == 1, length, trams_an_hour: trams })
        }
        3 => Kind::Pedestrian(read_pedestrian(body, &mut range)),
        4 => {
            range(body[2] as u16, 0, 1);
            Kind::Cyclist(Cyclist { reach_counted: body[2] == 1 })
        }
        5 => {
            let walk = read_pedestrian(body, &mut range);
            let (wider_carriageway, island, packet) = (two(body, 9), two(body, 11), two(body, 13));
            range(wider_carriageway, 10, 600);
            range(island, 10, 600);
            range(packet, 20, 200);
            range(packet % 5, 0, 0);
            Kind::Island(IslandCrossing { walk, wider_carriageway, island, packet })
        }
        0 | 6..=255 => unreachable!("an unknown kind has no right length"),
    };
    if good { Ok(Stream { phase, kind }) } else { Err(5) }
}

/// The figures of kind 3, with which the body of kind 5 begins too.
fn read_pedestrian(body: &[u8], range: &mut impl FnMut(u16, u16, u16)) -> Pedestrian {
    let (speed, crossing, people, reach, disturbed) = (body[2], two(body, 3), two(body, 5), body[7], body[8]);
    range(speed as u16, 12, 15);
    range(crossing, 10, 600);
    range(people, 0, 9_999);
    range(reach as u16, 0, 1);
    range(disturbed as u16, 0, 1);
    Pedestrian { speed, crossing, people, reach_counted: reach == 1, disturbed: disturbed == 1 }
}

// Writing, for the tests and the case files.

pub(crate) fn put_field(file: &mut Vec<u8>, tag: u8, body: &[u8]) {
    file.push(tag);
    file.extend_from_slice(&(body.len() as u16).to_be_bytes());
    file.extend_from_slice(body);
}

impl Pedestrian {
    /// The figures after kind and phase, as kinds 3 and 5 have them.
    fn figures(&self) -> Vec<u8> {
        let mut b = vec![self.speed];
        b.extend(self.crossing.to_be_bytes());
        b.extend(self.people.to_be_bytes());
        b.extend([self.reach_counted as u8, self.disturbed as u8]);
        b
    }
}

impl Stream {
    pub fn body(&self) -> Vec<u8> {
        let mut b = vec![0, self.phase];
        match self.kind {
            Kind::Car(c) => {
                b[0] = 1;
                b.extend([c.amber, c.flying as u8]);
                b.extend(c.radius.to_be_bytes());
                b.extend(c.width.to_be_bytes());
                b.extend([c.rows, (c.gradient + 10) as u8, c.conditions, c.left, c.right]);
            }
            Kind::Tram(t) => {
                b[0] = 2;
                b.push(t.from_stop as u8);
                b.extend(t.length.to_be_bytes());
                b.push(t.trams_an_hour);
            }
            Kind::Pedestrian(p) => {
                b[0] = 3;
                b.extend(p.figures());
            }
            Kind::Cyclist(c) => {
                b[0] = 4;
                b.push(c.reach_counted as u8);
            }
            Kind::Island(i) => {
                b[0] = 5;
                b.extend(i.walk.figures());
                for number in [i.wider_carriageway, i.island, i.packet] {
                    b.extend(number.to_be_bytes());
                }
            }
        }
        b
    }
}

impl Junction {
    /// The junction file, fields in tag order.
    pub fn to_file(&self) -> Vec<u8> {
        let mut file = vec![];
        let mut heading = self.number.to_be_bytes().to_vec();
        heading.extend(self.design_day.to_be_bytes());
        heading.push(self.period);
        put_field(&mut file, 1, &heading);
        for s in &self.streams {
            put_field(&mut file, 2, &s.body());
        }
        for z in &self.zones {
            let mut b = vec![z.a, z.b];
            for d in [z.clearing_a, z.reaching_a, z.clearing_b, z.reaching_b] {
                b.extend(d.to_be_bytes());
            }
            put_field(&mut file, 3, &b);
        }
        for c in &self.counts {
            let mut b = vec![c.stream];
            for d in [c.count_day, c.file_day, c.flow] {
                b.extend(d.to_be_bytes());
            }
            b.push(c.period);
            put_field(&mut file, 4, &b);
        }
        file
    }
}
