//! Junction files: questions 1 to 9.
use super::{refuse, Held, Refusal};

#[derive(Clone, Copy)]
pub struct Car {
    pub amber: u8,
    pub flying: bool,
    pub radius: u16,
    pub width: u16,
    pub rows: u8,
    pub gradient: u8,
    pub conditions: u8,
    pub left: u8,
    pub right: u8,
}

#[derive(Clone, Copy)]
pub struct Tram {
    pub stop: bool,
    pub length: u16,
    pub hourly: u8,
}

#[derive(Clone, Copy)]
pub struct Pedestrian {
    pub speed: u8,
    pub crossing: u16,
    pub hourly: u16,
    pub counted: bool,
    pub disturbed: bool,
}

/// A crossing with an island, which people cross in one go: a pedestrian's figures and three lengths.
#[derive(Clone, Copy)]
pub struct Island {
    pub walk: Pedestrian,
    pub wider: u16,
    pub island: u16,
    pub packet: u16,
}

#[derive(Clone, Copy)]
pub enum Kind {
    Car(Car),
    Tram(Tram),
    Pedestrian(Pedestrian),
    Cyclist { counted: bool },
    Island(Island),
}

#[derive(Clone, Copy)]
pub struct Stream {
    pub phase: u8,
    pub kind: Kind,
}

impl Stream {
    pub fn is_car(&self) -> bool {
        matches!(self.kind, Kind::Car(_))
    }
}

/// Streams are counted from 0 here.
#[derive(Clone, Copy)]
pub struct Zone {
    pub a: usize,
    pub b: usize,
    pub clearing_a: u16,
    pub reaching_a: u16,
    pub clearing_b: u16,
    pub reaching_b: u16,
}

#[derive(Clone, Copy)]
struct Count {
    stream: usize,
    day: u16,
    flow: u16,
    period: u8,
}

pub struct Junction {
    day: u16,
    period: u8,
    streams: [Stream; 16],
    zones: [Zone; 64],
    counts: [Count; 128],
    stream_count: usize,
    zone_count: usize,
    count_count: usize,
}

pub fn number(bytes: &[u8], at: usize) -> u16 {
    u16::from_be_bytes([bytes[at], bytes[at + 1]])
}

#[inline(never)]
pub fn read(file: &[u8]) -> Result<Held, Refusal> {
    let j = Junction::read(file)?;
    Ok(Held { design_day: j.day, period: j.period, streams: j.stream_count, zones: j.zone_count, counts: j.count_count })
}

impl Junction {
    pub fn streams(&self) -> &[Stream] {
        &self.streams[..self.stream_count]
    }

    pub fn zones(&self) -> &[Zone] {
        &self.zones[..self.zone_count]
    }

    /// The flow of a stream: of the counts of the period, the greatest count day not after the design day; of equals, the larger flow.
    pub fn flow(&self, stream: usize) -> Option<u16> {
        let mut best = 0;
        for c in &self.counts[..self.count_count] {
            if c.stream == stream && c.day <= self.day && c.period == self.period {
                best = best.max((c.day as u32) << 16 | c.flow as u32);
            }
        }
        if best == 0 { None } else { Some(best as u16) }
    }

    fn empty() -> Junction {
        Junction {
            day: 0,
            period: 0,
            streams: [Stream { phase: 0, kind: Kind::Cyclist { counted: false } }; 16],
            zones: [Zone { a: 0, b: 0, clearing_a: 0, reaching_a: 0, clearing_b: 0, reaching_b: 0 }; 64],
            counts: [Count { stream: 0, day: 0, flow: 0, period: 0 }; 128],
            stream_count: 0,
            zone_count: 0,
            count_count: 0,
        }
    }

    pub fn read(file: &[u8]) -> Result<Junction, Refusal> {
        if file.len() > 16_384 {
            return refuse(1, 0);
        }
        let mut junction = Junction::empty();
        let mut at = 0;
        let mut last = 0;
        while at < file.len() {
            if file.len() - at < 3 {
                return refuse(2, at);
            }
            let tag = file[at];
            let end = at + 3 + number(file, at + 1) as usize;
            if end > file.len() {
                return refuse(2, at);
            }
            let in_order = if last == 0 { tag == 1 } else { (2..=4).contains(&tag) && last <= tag };
            if !in_order {
                return refuse(3, at);
            }
            let body = &file[at + 3..end];
            let answer = match tag {
                1 => junction.heading(body),
                2 => junction.stream(body),
                3 => junction.zone(body),
                _ => junction.count(body),
            };
            if let Err(number) = answer {
                return refuse(number, at);
            }
            last = tag;
            at = end;
        }
        junction.whole(file.len())?;
        Ok(junction)
    }

    fn heading(&mut self, body: &[u8]) -> Result<(), u8> {
        if body.len() != 5 {
            return Err(4);
        }
        if !(1..=4).contains(&body[4]) {
            return Err(5);
        }
        self.day = number(body, 2);
        self.period = body[4];
        Ok(())
    }

    fn stream(&mut self, body: &[u8]) -> Result<(), u8> {
        let length = match body.first() {
            None => return Err(4),
            Some(1) => 13,
            Some(2) => 6,
            Some(3) => 9,
            Some(4) => 3,
            Some(5) => 15,
            Some(0 | 6..=255) => return Err(5),
        };
        if body.len() != length {
            return Err(4);
        }
        let kind = match body[0] {
            1 => car(body),
            2 => tram(body),
            3 => pedestrian(body).map(Kind::Pedestrian),
            4 => (body[2] <= 1).then_some(Kind::Cyclist { counted: body[2] == 1 }),
            5 => island(body),
            0 | 6..=255 => None,
        };
        let Some(kind) = kind else { return Err(5) };
        if !(1..=6).contains(&body[1]) {
            return Err(5);
        }
        if self.stream_count == 16 {
            return Err(6);
        }
        self.streams[self.stream_count] = Stream { phase: body[1], kind };
        self.stream_count += 1;
        Ok(())
    }

    fn zone(&mut self, body: &[u8]) -> Result<(), u8> {
        if body.len() != 10 {
            return Err(4);
        }
        let (clearing_a, reaching_a) = (number(body, 2), number(body, 4));
        let (clearing_b, reaching_b) = (number(body, 6), number(body, 8));
        if clearing_a > 999 || reaching_a > 999 || clearing_b > 999 || reaching_b > 999 {
            return Err(5);
        }
        if self.zone_count == 64 {
            return Err(6);
        }
        let (a, b) = (body[0] as usize, body[1] as usize);
        if a < 1 || a >= b || b > self.stream_count || self.streams[a - 1].phase == self.streams[b - 1].phase {
            return Err(7);
        }
        self.zones[self.zone_count] = Zone { a: a - 1, b: b - 1, clearing_a, reaching_a, clearing_b, reaching_b };
        self.zone_count += 1;
        Ok(())
    }

    fn count(&mut self, body: &[u8]) -> Result<(), u8> {
        if body.len() != 8 {
            return Err(4);
        }
        let (stream, day, flow, period) = (body[0] as usize, number(body, 1), number(body, 5), body[7]);
        if !(1..=9_999).contains(&flow) || !(1..=4).contains(&period) {
            return Err(5);
        }
        if self.count_count == 128 {
            return Err(6);
        }
        if stream < 1 || stream > self.stream_count || !self.streams[stream - 1].is_car() {
            return Err(7);
        }
        self.counts[self.count_count] = Count { stream: stream - 1, day, flow, period };
        self.count_count += 1;
        Ok(())
    }

    /// Questions 8 and 9.
    fn whole(&self, size: usize) -> Result<(), Refusal> {
        let mut used = 0u8;
        for s in self.streams() {
            used |= 1 << s.phase;
        }
        // phases 1 to f: the bits 1 to f, so that one more is a power of two with the bit 0
        let phases_right = used >= 6 && (used | 1).wrapping_add(1).is_power_of_two();
        if !phases_right || !self.streams().iter().any(Stream::is_car) {
            return refuse(8, size);
        }
        for (i, s) in self.streams().iter().enumerate() {
            if s.is_car() && self.flow(i).is_none() {
                return refuse(9, i + 1);
            }
        }
        Ok(())
    }
}

fn car(b: &[u8]) -> Option<Kind> {
    let (radius, width) = (number(b, 4), number(b, 6));
    let shares = b[11] as u16 + b[12] as u16;
    let good = (3..=5).contains(&b[2])
        && b[3] <= 1
        && (radius == 0 || (30..=9_999).contains(&radius))
        && (300..=1_500).contains(&width)
        && (1..=2).contains(&b[8])
        && b[9] <= 20
        && (1..=3).contains(&b[10])
        && shares <= 100
        && (radius == 0 || shares == 0);
    good.then_some(Kind::Car(Car {
        amber: b[2],
        flying: b[3] == 1,
        radius,
        width,
        rows: b[8],
        gradient: b[9],
        conditions: b[10],
        left: b[11],
        right: b[12],
    }))
}

fn tram(b: &[u8]) -> Option<Kind> {
    let length = number(b, 3);
    let good = b[2] <= 1 && (100..=600).contains(&length) && (1..=34).contains(&b[5]);
    good.then_some(Kind::Tram(Tram { stop: b[2] == 1, length, hourly: b[5] }))
}

/// What kinds 3 and 5 have in common.
fn pedestrian(b: &[u8]) -> Option<Pedestrian> {
    let (crossing, hourly) = (number(b, 3), number(b, 5));
    let good = (12..=15).contains(&b[2]) && (10..=600).contains(&crossing) && hourly <= 9_999 && b[7] <= 1 && b[8] <= 1;
    good.then_some(Pedestrian { speed: b[2], crossing, hourly, counted: b[7] == 1, disturbed: b[8] == 1 })
}

fn island(b: &[u8]) -> Option<Kind> {
    let walk = pedestrian(b)?;
    let (wider, island, packet) = (number(b, 9), number(b, 11), number(b, 13));
    let good = (10..=600).contains(&wider) && (10..=600).contains(&island) && (20..=200).contains(&packet) && packet % 5 == 0;
    good.then_some(Kind::Island(Island { walk, wider, island, packet }))
}
