//! The library's choice of a count over a lent list of records, against the model's.
mod calls;
use calls::*;
use givendra_sys::Figure;
use model::junction::{choose_flow, flow_of_list, is_period, Count};
use model::random::{seed, Random};

/// Records of few streams, days, flows and periods, so that equals occur; flows and periods out of range among them.
fn records(r: &mut Random, most: i64) -> Vec<Count> {
    let streams: &[u8] = if r.one_in(3) { &[1] } else { &[0, 1, 1, 2, 17, 255] };
    let days: &[u16] = if r.one_in(4) { &[0, 65_535] } else { &[0, 1, 2, 3, 9_000, 9_001, 65_534, 65_535] };
    let flows: &[u16] = match r.from_to(1, 4) {
        1 => &[0, 10_000, 65_535],
        2 => &[1, 9_999],
        _ => &[0, 1, 2, 600, 601, 9_998, 9_999, 10_000, 10_001, 65_535],
    };
    let periods: &[u8] = match r.from_to(1, 5) {
        1 => &[1, 2],
        2 => &[0, 5, 6, 255],
        _ => &[0, 1, 1, 2, 2, 3, 4, 5, 6, 255],
    };
    (0..r.from_to(0, most))
        .map(|_| {
            let file_day = r.from_to(0, 65_535) as u16;
            Count { stream: r.pick(streams), count_day: r.pick(days), file_day, flow: r.pick(flows), period: r.pick(periods) }
        })
        .collect()
}

/// Mostly 1, which most records have.
fn asked_stream(r: &mut Random) -> usize {
    let any = r.any() as usize;
    if r.one_in(2) {
        return 1;
    }
    r.pick(&[0, 1, 1, 1, 1, 2, 3, 17, 255, 256, 257, 65_537, (1 << 32) + 1, usize::MAX - 254, usize::MAX, any])
}

/// Mostly 1 to 4 or that of a record; else 0 to 6, 255, or a number of which a part is one of these.
fn asked_period(r: &mut Random, list: &[Count]) -> usize {
    let (small, any) = (r.from_to(0, 6) as usize, r.any() as usize);
    match r.from_to(1, 10) {
        1..=4 if !list.is_empty() => list[r.from_to(0, list.len() as i64 - 1) as usize].period as usize,
        1..=6 => r.from_to(1, 4) as usize,
        7 => small,
        8 => 256 + small,
        9 => r.pick(&[65_536, 1 << 32]) + small,
        _ => r.pick(&[255, usize::MAX, usize::MAX - 251, any]),
    }
}

/// What is asked for.
#[derive(Clone, Copy, Debug)]
struct Asked {
    stream: usize,
    design_day: u16,
    period: usize,
}

/// Would this number, taken as a record's period without its range, have a usable record?
fn has_records_of(list: &[Count], asked: Asked, period: u8) -> bool {
    let matching = |c: &&Count| c.period == period;
    let as_first: Vec<Count> = list.iter().filter(matching).map(|c| Count { period: 1, ..*c }).collect();
    choose_flow(&as_first, asked.stream, asked.design_day, 1).is_some()
}

/// The list with every record that the period asked for does not match changed at will, but not into one that it matches.
/// Some are taken away, and some more stand behind.
fn others_changed(r: &mut Random, list: &[Count], asked: Asked) -> Vec<Count> {
    let matches = |c: &Count| is_period(asked.period) && c.period as usize == asked.period;
    let mut other = list.to_vec();
    for _ in 0..r.from_to(0, 3) {
        other.push(Count { stream: 0, count_day: 0, file_day: 0, flow: 0, period: 0 });
    }
    for c in other.iter_mut().filter(|c| !matches(c)) {
        let stream = if r.one_in(4) { r.any() as u8 } else { asked.stream as u8 };
        let count_day = r.pick(&[0, asked.design_day, asked.design_day.saturating_add(1), 65_535]);
        let (file_day, flow) = (r.any() as u16, r.pick(&[0, 1, 600, 9_999, 9_999, 10_000]));
        let changed = Count { stream, count_day, file_day, flow, period: r.pick(&[0, 1, 2, 3, 4, 5, 6, 255, asked.period as u8]) };
        // a record that would match is left as it is
        if !matches(&changed) {
            *c = changed;
        }
    }
    let fewer = r.one_in(3);
    other.retain(|c| matches(c) || !fewer || r.one_in(2));
    other
}

/// The library's answer, with records before and after the list that must not be used: usable ones, of the stream and the period
/// asked for.
fn library(r: &mut Random, list: &[Count], asked: Asked) -> Figure {
    let usable = Count { stream: asked.stream as u8, count_day: asked.design_day, file_day: 0, flow: 9_999, period: asked.period as u8 };
    let (before, after) = (vec![usable; r.from_to(1, 3) as usize], vec![usable; r.from_to(1, 3) as usize]);
    newest_count(&before, list, &after, asked.stream, asked.design_day, asked.period)
}

#[test]
fn lent_lists() {
    let mut r = Random::new(seed("lent_lists", 15));
    const PERIODS: [&str; 4] = ["period 1", "period 2", "period 3", "period 4"];
    let others = ["newest_count", "other records", "no period", "same number", "cut number"];
    let mut hits = Hits::new(&[&others[..], &PERIODS].concat());
    for _ in 0..400_000 {
        let most = r.pick(&[0, 1, 2, 5, 5, 20, 20, 60, 128, 129, 400]);
        let list = records(&mut r, most);
        let (stream, design_day) = (asked_stream(&mut r), r.pick(&[0, 1, 2, 3, 8_999, 9_000, 65_534, 65_535]));
        let asked = Asked { stream, design_day, period: asked_period(&mut r, &list) };
        let answer = library(&mut r, &list, asked);
        let model = figure(flow_of_list(&list, stream, design_day, asked.period).map(u32::from));
        assert_eq!(answer, model, "{asked:?}, list {list:?}");
        hits.hit("newest_count", model.refusal);
        if is_period(asked.period) {
            hits.hit(PERIODS[asked.period - 1], model.refusal);
        } else {
            // always 9, with the stream asked for, also where a record has the same number, or its last byte
            assert_eq!(answer, Figure { place: stream, refusal: 9, value: 0 }, "{asked:?}, list {list:?}");
            hits.hit("no period", answer.refusal);
            if has_records_of(&list, asked, asked.period as u8) {
                hits.hit(if asked.period <= 255 { "same number" } else { "cut number" }, answer.refusal);
            }
        }
        // other file days
        let mut other = list.clone();
        other.iter_mut().for_each(|c| c.file_day = r.pick(&[0, c.count_day, design_day, 65_535]));
        let again = library(&mut r, &other, asked);
        assert_eq!(answer, again, "file days: {asked:?}, {list:?}, {other:?}");
        // other records of other periods
        let other = others_changed(&mut r, &list, asked);
        if other != list {
            let again = library(&mut r, &other, asked);
            assert_eq!(answer, again, "other periods: {asked:?}, {list:?}, {other:?}");
            hits.hit("other records", answer.refusal);
        }
    }
    hits.print();
    hits.at_least(1_000, "newest_count", &[0, 9]);
    hits.at_least(10_000, "other records", &[0, 9]);
    hits.at_least(10_000, "no period", &[9]);
    hits.at_least(1_000, "same number", &[9]);
    hits.at_least(1_000, "cut number", &[9]);
    for period in PERIODS {
        hits.at_least(1_000, period, &[0, 9]);
    }
}
