//! Random files that are refused, or nearly: damaged, spliced, with numbers at and past their limits.

use crate::generate::{limit_junction, other_period, random_island, rich_junction};
use crate::junction::*;
use crate::random::Random;
use std::ops::Range;

/// One to three bytes changed, taken out or put in, or the end cut off.
pub fn damaged(r: &mut Random, file: &[u8]) -> Vec<u8> {
    let mut file = file.to_vec();
    for _ in 0..r.pick(&[1, 1, 1, 2, 3]) {
        if file.is_empty() {
            break;
        }
        let at = r.from_to(0, file.len() as i64 - 1) as usize;
        let byte = if r.one_in(2) { r.pick(&[0, 1, 2, 3, 4, 5, 6, 0x11, 0x12, 0x13, 127, 128, 255]) } else { r.from_to(0, 255) as u8 };
        match r.from_to(1, 8) {
            1..=3 => file[at] = byte,
            4 => file[at] = file[at].wrapping_add(1),
            5 => file[at] = file[at].wrapping_sub(1),
            6 => { file.remove(at); }
            7 => file.insert(at, byte),
            _ => if r.one_in(2) { file.truncate(at) } else { file.push(byte) },
        }
    }
    file
}

// ---- damage to whole fields, of junction and plan files alike

/// The fields of a file; bytes at the end that are no whole field stand as one.
pub fn fields(file: &[u8]) -> Vec<Range<usize>> {
    let mut list = vec![];
    let mut at = 0;
    while at < file.len() {
        let end = if file.len() - at < 3 { file.len() } else { (at + 3 + two(file, at + 1) as usize).min(file.len()) };
        list.push(at..end);
        at = end;
    }
    list
}

/// One fault: a field doubled, left out or moved, a wrong length or tag, stray bytes, an end cut off, the end of
/// another file, or a number at or past its limit.
pub fn faulty(r: &mut Random, file: &[u8], other: &[u8]) -> Vec<u8> {
    let list = fields(file);
    if list.is_empty() {
        return other[..other.len().min(r.from_to(0, 30) as usize)].to_vec();
    }
    let one = list[r.from_to(0, list.len() as i64 - 1) as usize].clone();
    let two = list[r.from_to(0, list.len() as i64 - 1) as usize].clone();
    let mut out = file.to_vec();
    match r.from_to(1, 12) {
        1 => { out.splice(one.end..one.end, file[one].to_vec()); }
        2 => { out.drain(one); }
        3 => {
            // two fields in each other's place
            let (first, then) = if one.start < two.start { (one, two) } else { (two, one) };
            if first != then {
                out = [&file[..first.start], &file[then.clone()], &file[first.end..then.start], &file[first], &file[then.end..]].concat();
            }
        }
        4 => wrong_length(r, &mut out, one.start),
        5 => {
            // a body one byte or some longer or shorter, and its length with it
            let mut body = file[one.clone()].iter().skip(3).copied().collect::<Vec<u8>>();
            let size = (body.len() as i64 + r.pick(&[-9, -6, -3, -2, -1, -1, 1, 1, 2, 3, 6, 250])).max(0);
            body.resize(size as usize, r.from_to(0, 255) as u8);
            out = with_body(file, one, &body);
        }
        6 => out[one.start] = r.pick(&[0, 1, 2, 3, 4, 6, 0x10, 0x11, 0x12, 0x13, 0x81, 255]),
        7 => {
            // stray bytes at the end, or a field that does not belong there
            let stray: &[&[u8]] = &[&[0], &[1], &[4, 0], &[0x12, 0, 5], &[0x12, 255, 255], &[4, 0, 0], &[0, 0, 0], &[6, 0, 1, 0]];
            out.extend(r.pick(stray));
        }
        8 => out.truncate(r.from_to(0, file.len() as i64) as usize),
        9 => out.truncate(two.start),
        10 => {
            // spliced: the beginning of this file and the end of the other, at any place or where fields begin
            let ends = fields(other);
            let (cut, from) = if r.one_in(2) || ends.is_empty() {
                (r.from_to(0, file.len() as i64) as usize, r.from_to(0, other.len() as i64) as usize)
            } else {
                (one.start, ends[r.from_to(0, ends.len() as i64 - 1) as usize].start)
            };
            out.truncate(cut);
            out.extend(&other[from..]);
        }
        _ => set_number(r, &mut out, one, true),
    }
    out
}

/// The file with this body in the place of the field's.
fn with_body(file: &[u8], field: Range<usize>, body: &[u8]) -> Vec<u8> {
    let (mut out, mut other) = (file.to_vec(), vec![]);
    put_field(&mut other, file[field.start], body);
    out.splice(field, other);
    out
}

/// The length of the field at this place changed, its body as it was.
fn wrong_length(r: &mut Random, file: &mut [u8], at: usize) {
    if file.len() - at >= 3 {
        let length = two(file, at + 1);
        let (shorter, longer) = (length.wrapping_sub(1), length.wrapping_add(1));
        let other = r.pick(&[shorter, longer, 0, 1, length.wrapping_add(256), length.wrapping_mul(256), 65_535]);
        file[at + 1..at + 3].copy_from_slice(&other.to_be_bytes());
    }
}

/// A number of a field: offset in the body, bytes, least, greatest.
type Number = (usize, usize, u16, u16);

/// The numbers of a field.
fn numbers(tag: u8, body: &[u8]) -> &'static [Number] {
    match tag {
        1 => &[(0, 2, 0, 65_535), (2, 2, 0, 65_535), (4, 1, 1, 4)],
        2 => body.first().map_or(&[], |&kind| stream_numbers(kind)),
        3 => &[
            (0, 1, 1, 16),
            (1, 1, 1, 16),
            (2, 2, 0, 999),
            (4, 2, 0, 999),
            (6, 2, 0, 999),
            (8, 2, 0, 999),
        ],
        4 => &[(0, 1, 1, 16), (1, 2, 0, 65_535), (3, 2, 0, 65_535), (5, 2, 1, 9_999), (7, 1, 1, 4)],
        0x11 => &[(0, 2, 1, 180)],
        0x12 => &[(0, 1, 1, 16), (1, 2, 0, 179), (3, 2, 1, 180)],
        _ => &[],
    }
}

/// The numbers of a stream, by its kind.
fn stream_numbers(kind: u8) -> &'static [Number] {
    match kind {
        1 => &[
            (0, 1, 1, 5),
            (1, 1, 1, 6),
            (2, 1, 3, 5),
            (3, 1, 0, 1),
            (4, 2, 0, 9_999),
            (4, 2, 30, 9_999),
            (6, 2, 300, 1_500),
            (8, 1, 1, 2),
            (9, 1, 0, 20),
            (10, 1, 1, 3),
            (11, 1, 0, 100),
            (12, 1, 0, 100),
        ],
        2 => &[(0, 1, 1, 5), (1, 1, 1, 6), (2, 1, 0, 1), (3, 2, 100, 600), (5, 1, 1, 34)],
        3 => &ISLAND_NUMBERS[..7],
        4 => &[(0, 1, 1, 5), (1, 1, 1, 6), (2, 1, 0, 1)],
        5 => &ISLAND_NUMBERS,
        0 | 6..=255 => &[],
    }
}

/// The numbers of kind 5; the first seven are those of kind 3.
const ISLAND_NUMBERS: [Number; 10] = [
    (0, 1, 1, 5),
    (1, 1, 1, 6),
    (2, 1, 12, 15),
    (3, 2, 10, 600),
    (5, 2, 0, 9_999),
    (7, 1, 0, 1),
    (8, 1, 0, 1),
    (9, 2, 10, 600),
    (11, 2, 10, 600),
    (13, 2, 20, 200),
];

/// One number of this field at its least or greatest; and, where `past` says so, often just past it or anything.
fn set_number(r: &mut Random, file: &mut [u8], field: Range<usize>, past: bool) {
    if field.len() <= 3 {
        return;
    }
    let (tag, cycle) = (file[field.start], if file.len() >= 5 { two(file, 3) } else { 0 });
    let body = &mut file[field.start + 3..field.end];
    let list = numbers(tag, body);
    if list.is_empty() {
        return;
    }
    let (at, bytes, least, mut greatest) = r.pick(list);
    if at + bytes > body.len() {
        return;
    }
    // a green's start is below the cycle, its length at most the cycle
    if tag == 0x12 && at > 0 {
        greatest = cycle.saturating_sub((at == 1) as u16);
    }
    let to = match if past { r.from_to(1, 6) } else { r.from_to(1, 2) } {
        1 => least,
        2 => greatest,
        3 => least.wrapping_sub(1),
        4 | 5 => greatest.wrapping_add(1),
        _ => r.from_to(0, 65_535) as u16,
    };
    if bytes == 1 {
        body[at] = to as u8;
    } else {
        body[at..at + 2].copy_from_slice(&to.to_be_bytes());
    }
}

/// Many numbers at their least or greatest at once; now and then one of them is just past.
pub fn at_the_limits(r: &mut Random, file: &[u8]) -> Vec<u8> {
    let mut out = file.to_vec();
    let list = fields(file);
    let steps = r.pick(&[1, 2, 5, 20]);
    for _ in 0..steps {
        let field = list[r.from_to(0, list.len() as i64 - 1) as usize].clone();
        // kinds, phases, the numbers of streams and periods are mostly left as they are, so that the file is often taken
        let before = out[field.clone()].to_vec();
        set_number(r, &mut out, field.clone(), false);
        let structure: &[usize] = match before[0] { 1 => &[7], 2 | 3 => &[3, 4], 4 => &[3, 10], 0x12 => &[3], _ => &[] };
        if !r.one_in(20) {
            structure.iter().for_each(|&at| out[field.start + at] = before[at]);
        }
    }
    if r.one_in(4) {
        let field = list[r.from_to(0, list.len() as i64 - 1) as usize].clone();
        set_number(r, &mut out, field, true);
    }
    out
}

// ---- junction files that aim at one question

/// A junction file at which question `number` (1 to 9) is likely, though not certain, to be the first to refuse.
pub fn aimed_at(r: &mut Random, number: u8) -> Vec<u8> {
    let mut j = if r.one_in(6) { limit_junction(r) } else { rich_junction(r) };
    match number {
        1 => return large_file(r, &j.to_file()),
        6 => return one_too_many(r, &mut j),
        7 => strange_streams(r, &mut j),
        8 => not_a_whole_junction(r, &mut j),
        9 => no_usable_count(r, &mut j),
        _ => {}
    }
    let file = j.to_file();
    let other = rich_junction(r).to_file();
    match number {
        4 if r.one_in(4) => {
            let body = island_of_another_length(r);
            with_stream(r, &file, &body).0
        }
        4 if r.one_in(3) => heading_or_count_of_another_length(r, &file).0,
        5 if r.one_in(4) => {
            let body = if r.one_in(3) { stream_of_unknown_kind(r) } else { island_out_of_range(r) };
            with_stream(r, &file, &body).0
        }
        5 if r.one_in(3) => period_out_of_range(r, &file).0,
        2..=5 => faulty(r, &file, &other),
        8 if r.one_in(20) => file[..r.pick(&[0, 8])].to_vec(),
        _ => file,
    }
}

/// A file of about 16,384 bytes, or many more: counts, zeros or an overlong field after a junction.
fn large_file(r: &mut Random, file: &[u8]) -> Vec<u8> {
    let around = [16_381, 16_382, 16_383, 16_384, 16_384, 16_385, 16_385, 16_385, 16_386, 16_387];
    let size = if r.one_in(4) { r.pick(&[16_400, 32_768, 65_536, 70_000]) } else { r.pick(&around) };
    let mut out = file.to_vec();
    match r.from_to(1, 4) {
        1 => out.resize(size, r.pick(&[0, 1, 4, 255])),
        2 => {
            let last = fields(file).last().expect("a heading").clone();
            while out.len() < size {
                out.extend(&file[last.clone()]);
            }
            out.truncate(size);
        }
        3 => {
            // one last field that fits exactly, as far as its length can say so
            let body = (size - file.len() - 3).min(65_535);
            out.push(r.pick(&[2, 3, 4, 5]));
            out.extend((body as u16).to_be_bytes());
            out.resize(file.len() + 3 + body, r.from_to(0, 5) as u8);
        }
        _ => {
            // the first field as long as the file
            out = vec![r.pick(&[1, 2])];
            out.extend(((size - 3).min(65_535) as u16).to_be_bytes());
            out.resize(size, 0);
        }
    }
    out
}

/// A 17th stream, a 65th zone or a 129th count, or just as many as allowed.
fn one_too_many(r: &mut Random, j: &mut Junction) -> Vec<u8> {
    let more = r.pick(&[0, 1, 1, 1, 2]) as usize;
    match r.from_to(1, 3) {
        1 => {
            while j.streams.len() < STREAM_LIMIT + more {
                let again = j.streams[r.from_to(0, j.streams.len() as i64 - 1) as usize];
                j.streams.push(again);
                if again.is_car() {
                    let count_day = j.design_day;
                    j.counts.push(Count { stream: j.streams.len() as u8, count_day, file_day: 0, flow: 100, period: j.period });
                }
            }
        }
        2 if !j.zones.is_empty() => {
            while j.zones.len() < ZONE_LIMIT + more {
                j.zones.push(j.zones[r.from_to(0, j.zones.len() as i64 - 1) as usize]);
            }
            if r.one_in(4) {
                let last = j.zones.last_mut().expect("a zone");
                last.b = r.pick(&[0, 17, 255]);
            }
        }
        _ => {
            while j.counts.len() < COUNT_LIMIT + more {
                j.counts.push(j.counts[r.from_to(0, j.counts.len() as i64 - 1) as usize]);
            }
            if r.one_in(4) {
                let last = j.counts.last_mut().expect("a count");
                last.stream = r.pick(&[0, 17, 255]);
            }
            if r.one_in(4) {
                let last = j.counts.last_mut().expect("a count");
                last.period = no_period(r);
            }
        }
    }
    let file = j.to_file();
    if r.one_in(6) { at_the_limits(r, &file) } else { file }
}

/// A zone or a count with a stream that does not exist, is not meant, or stands in the same phase.
fn strange_streams(r: &mut Random, j: &mut Junction) {
    let n = j.streams.len() as i64;
    let number = r.pick(&[0, 1, n, n + 1, n + 1, 16, 17, 128, 255]) as u8;
    if r.one_in(2) && !j.zones.is_empty() {
        let at = r.from_to(0, j.zones.len() as i64 - 1) as usize;
        let zone = &mut j.zones[at];
        match r.from_to(1, 5) {
            1 => zone.a = number,
            2 => zone.b = number,
            3 => (zone.a, zone.b) = (zone.b, zone.a),
            4 => zone.a = zone.b,
            _ => (zone.a, zone.b) = (r.from_to(1, n) as u8, r.from_to(1, n) as u8),
        }
    } else {
        let at = r.from_to(0, j.counts.len() as i64 - 1) as usize;
        j.counts[at].stream = if r.one_in(2) { number } else { r.from_to(1, n) as u8 };
        if r.one_in(8) {
            j.counts[at].period = no_period(r);
        }
    }
}

/// A phase not used, one phase alone, or no car.
fn not_a_whole_junction(r: &mut Random, j: &mut Junction) {
    match r.from_to(1, 4) {
        1 => {
            // one phase left out, its streams in the next or two later
            let phase = r.from_to(1, j.phases() as i64) as u8;
            let to = (phase + r.pick(&[1, 2])).min(6);
            j.streams.iter_mut().filter(|s| s.phase == phase).for_each(|s| s.phase = to);
        }
        2 => j.streams.iter_mut().for_each(|s| s.phase = 1),
        3 => {
            j.streams.iter_mut().filter(|s| s.is_car()).for_each(|s| s.kind = Kind::Cyclist(Cyclist { reach_counted: false }));
            j.counts.clear();
        }
        _ => {
            // a beginning of the streams
            j.streams.truncate(r.from_to(0, j.streams.len() as i64 - 1) as usize);
            let n = j.streams.len();
            j.counts.retain(|c| c.stream as usize <= n);
        }
    }
    let n = j.streams.len();
    let streams = j.streams.clone();
    j.zones.retain(|z| {
        let (a, b) = (z.a as usize, z.b as usize);
        b <= n && streams[a - 1].phase != streams[b - 1].phase
    });
}

/// A car whose counts are all after the design day or of other periods, or that has none; or another period planned.
fn no_usable_count(r: &mut Random, j: &mut Junction) {
    let cars: Vec<usize> = (1..=j.streams.len()).filter(|&s| j.stream(s).is_car()).collect();
    for _ in 0..r.pick(&[1, 1, 2]) {
        let car = r.pick(&cars) as u8;
        match r.from_to(1, 6) {
            1 if j.design_day < 65_535 => {
                let later = j.design_day + 1;
                j.counts.iter_mut().filter(|c| c.stream == car).for_each(|c| c.count_day = c.count_day.max(later));
            }
            1 | 2 => j.counts.retain(|c| c.stream != car),
            3 => j.period = other_period(r, j.period),
            _ => {
                let (planned, other) = (j.period, other_period(r, j.period));
                let own = |c: &&mut Count| c.stream == car && c.period == planned;
                j.counts.iter_mut().filter(own).for_each(|c| c.period = other);
            }
        }
    }
}

// ---- headings and counts that are refused for their length or their period

/// A number that is no period.
pub fn no_period(r: &mut Random) -> u8 {
    if r.one_in(4) { r.from_to(5, 255) as u8 } else { r.pick(&[0, 5, 255]) }
}

/// The heading, or one of the counts.
fn heading_or_count(r: &mut Random, file: &[u8]) -> Range<usize> {
    let list = fields(file);
    let counts: Vec<Range<usize>> = list.iter().filter(|f| file[f.start] == 4).cloned().collect();
    if r.one_in(2) { list[0].clone() } else { counts[r.from_to(0, counts.len() as i64 - 1) as usize].clone() }
}

/// A heading of 4 bytes or a count of 7, as they were before request 2026-04, or one with another wrong length, now and then
/// with a number out of range: question 4. The file and the place of that field.
pub fn heading_or_count_of_another_length(r: &mut Random, file: &[u8]) -> (Vec<u8>, usize) {
    let one = heading_or_count(r, file);
    let mut body = file[one.start + 3..one.end].to_vec();
    let right = body.len();
    if r.one_in(4) {
        body[right - 1] = no_period(r);
    }
    let other = r.pick(&[0, 1, right - 3, right - 2, right + 2, right + 256]);
    let length = r.pick(&[right - 1, right - 1, right - 1, right + 1, right + 1, other]);
    body.resize(length, r.pick(&[0, 1, 2, 5, 255]));
    (with_body(file, one.clone(), &body), one.start)
}

/// A heading or a count of no period; in a count the flow is sometimes out of range too, and the stream sometimes missing:
/// question 5. The file and the place of that field.
pub fn period_out_of_range(r: &mut Random, file: &[u8]) -> (Vec<u8>, usize) {
    let one = heading_or_count(r, file);
    let mut body = file[one.start + 3..one.end].to_vec();
    let right = body.len();
    body[right - 1] = no_period(r);
    if file[one.start] == 4 {
        if r.one_in(3) {
            body[5..7].copy_from_slice(&r.pick(&[0, 10_000, 65_535u16]).to_be_bytes());
        }
        if r.one_in(3) {
            body[0] = r.pick(&[0, 17, 255]);
        }
    }
    (with_body(file, one.clone(), &body), one.start)
}

// ---- streams that are refused for their kind, or for what a crossing with an island has of its own

/// The body of a crossing with an island, in phase 1.
fn island_body(r: &mut Random) -> Vec<u8> {
    Stream { phase: 1, kind: Kind::Island(random_island(r)) }.body()
}

/// Kind 5 with the length of another kind, or one byte or some beside 15: question 4.
pub fn island_of_another_length(r: &mut Random) -> Vec<u8> {
    let mut body = island_body(r);
    let length = r.pick(&[1, 2, 3, 6, 9, 9, 13, 13, 14, 14, 16, 16, 17, 15 + 256]);
    body.resize(length, r.from_to(0, 255) as u8);
    body
}

/// An unknown kind, with the length of a known one or any other: question 5.
pub fn stream_of_unknown_kind(r: &mut Random) -> Vec<u8> {
    let mut body = island_body(r);
    body[0] = if r.one_in(2) { r.pick(&[0, 6]) } else { r.from_to(6, 255) as u8 };
    body.resize(r.pick(&[1, 2, 3, 6, 9, 13, 14, 15, 15, 16, 300]), 0);
    body
}

/// Kind 5 with a wider carriageway, an island or a packet below or above its range, or a packet that is no multiple of 5:
/// question 5.
pub fn island_out_of_range(r: &mut Random) -> Vec<u8> {
    let mut body = island_body(r);
    let width = r.pick(&[0, 5, 9, 601, 605, 778, 65_535]);
    let (at, number) = match r.from_to(1, 4) {
        1 => (9, width),
        2 => (11, width),
        3 => (13, r.pick(&[0, 10, 15, 19, 201, 205, 280, 65_535])),
        _ => (13, (5 * r.from_to(4, 39) + r.from_to(1, 4)) as u16),
    };
    body[at..at + 2].copy_from_slice(&number.to_be_bytes());
    body
}

/// The junction file with this body in the place of one of its streams', and the place of that stream.
pub fn with_stream(r: &mut Random, file: &[u8], body: &[u8]) -> (Vec<u8>, usize) {
    let streams: Vec<Range<usize>> = fields(file).into_iter().filter(|f| file[f.start] == 2).collect();
    let one = streams[r.from_to(0, streams.len() as i64 - 1) as usize].clone();
    (with_body(file, one.clone(), body), one.start)
}
