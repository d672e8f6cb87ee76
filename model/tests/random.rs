//! Random junctions, plans and road works: the judge against the meaning, the planner against the judge.
use model::annex::{crossing_quotient, need, packet_quotient, saturation};
use model::delay::{delay_when_accepted, figures, Delay, LEVELS};
use model::exact::{fraction, whole, Fraction, Time};
use model::faults::*;
use model::generate::*;
use model::judge::rules;
use model::junction::{is_period, read_junction, two, Count, IslandCrossing, Junction, Kind, Stream, Tram, Zone};
use model::meaning::meaning_over;
use model::plan::Green as PlanGreen;
use model::portable::{self, portable, Works};
use model::random::{seed, Random};
use model::shift::{shift_for, start_of};
use model::times::{entry, leaving, reaching, Entries};
use model::work_out::{greens_at, search};
use model::{delay, judge, meaning, read_plan, shift, work_out, Plan, Refusal};
use std::collections::BTreeMap;

fn is_island(stream: &Stream) -> bool {
    matches!(stream.kind, Kind::Island(_))
}

#[test]
fn judge_accepts_exactly_what_the_meaning_allows() {
    let mut r = Random::new(seed("judge_and_meaning", 1));
    let mut answers: BTreeMap<u8, usize> = BTreeMap::new();
    let (mut pairs, mut junctions, mut worked_out, mut wrapped) = (0, 0, 0, 0);
    let (mut accepted_islands, mut short_islands) = (0, 0);
    let (mut accepted_floors, mut refused_floors) = (0, 0);
    while pairs < 240_000 {
        let junction = if r.one_in(12) { limit_junction(&mut r) } else { rich_junction(&mut r) };
        let file = junction.to_file();
        assert_eq!(read_junction(&file).as_ref(), Ok(&junction));
        junctions += 1;
        let entries = Entries::of(&junction);
        let mut plans = vec![];
        if let Some(plan) = worked_plan(&junction) {
            assert_eq!(judge(&file, &plan.to_file()), Ok(()));
            worked_out += 1;
            plans.push(plan.clone());
            let by = r.from_to(0, plan.cycle as i64 - 1) as u16;
            plans.push(turned(&plan, by));
            plans.push(moved(&mut r, &plans[1]));
            plans.push(moved(&mut r, &plans[2]));
            for _ in 0..4 {
                plans.push(moved(&mut r, &plan));
            }
        }
        for _ in 0..4 {
            let plan = packed_plan(&mut r, &junction, &entries);
            plans.push(moved(&mut r, &plan));
            plans.push(moved(&mut r, &plan));
            plans.push(plan);
        }
        plans.push(any_plan(&mut r, &junction));
        for (i, plan) in plans.iter().enumerate() {
            let plan_file = plan.to_file();
            assert_eq!(read_plan(&plan_file, &junction).as_ref(), Ok(plan));
            // the judge over the files; for most plans its rules with the entries at hand, to save time
            let judged = if i < 3 { judge(&file, &plan_file) } else { rules(&junction, plan, &entries) };
            assert_eq!(judged.is_ok(), meaning(&junction, plan), "{junction:?} {plan:?}");
            *answers.entry(judged.err().map_or(0, |e| e.number)).or_default() += 1;
            if judged.is_ok() && plan.greens.iter().any(|g| g.start + g.length > plan.cycle) {
                wrapped += 1;
            }
            match judged {
                Ok(()) if junction.streams.iter().any(is_island) => accepted_islands += 1,
                Err(Refusal { number: 15, place }) if is_island(junction.stream(place)) => short_islands += 1,
                _ => {}
            }
            match judged {
                Ok(()) if junction.zones.iter().any(|z| has_floor(&junction, z)) => accepted_floors += 1,
                Err(Refusal { number: 17, place }) if has_floor(&junction, &junction.zones[place - 1]) => refused_floors += 1,
                _ => {}
            }
            pairs += 1;
        }
    }
    println!("{pairs} pairs, {junctions} junctions, {worked_out} worked out, accepted and past the end {wrapped}, answers {answers:?}");
    println!("accepted with an island {accepted_islands}, refused for an island's need {short_islands}");
    println!("accepted with a zone by the floor {accepted_floors}, refused for one {refused_floors}");
    // the test says something only if all answers come often
    for number in [0, 15, 16, 17] {
        assert!(answers[&number] > 5_000, "{answers:?}");
    }
    assert!(wrapped > 5_000 && worked_out > 2_000);
    assert!(accepted_islands > 5_000 && short_islands > 1_000);
    assert!(accepted_floors > 5_000 && refused_floors > 1_000);
}

#[test]
fn two_cycles_show_everything_and_one_does_not() {
    let mut r = Random::new(seed("cycles", 2));
    let mut only_over_the_end = 0;
    for _ in 0..1_500 {
        let junction = rich_junction(&mut r);
        let entries = Entries::of(&junction);
        let plan = packed_plan(&mut r, &junction, &entries);
        let plan = if r.one_in(2) { moved(&mut r, &plan) } else { plan };
        let said = meaning(&junction, &plan);
        for n in [2, 4, 7] {
            assert_eq!(meaning_over(&junction, &plan, n), said);
        }
        if meaning_over(&junction, &plan, 1) && !said {
            only_over_the_end += 1;
        }
    }
    assert!(only_over_the_end > 10, "{only_over_the_end}");
}

#[test]
fn damaged_files_get_the_same_sort_of_answer() {
    let mut r = Random::new(seed("damaged_files", 3));
    let mut answers: BTreeMap<u8, usize> = BTreeMap::new();
    for _ in 0..40_000 {
        let junction = if r.one_in(8) { limit_junction(&mut r) } else { rich_junction(&mut r) };
        let mut file = junction.to_file();
        let mut plan = any_plan(&mut r, &junction).to_file();
        if r.one_in(2) {
            file = damaged(&mut r, &file);
        } else {
            plan = damaged(&mut r, &plan);
        }
        let answer = judge(&file, &plan);
        *answers.entry(answer.err().map_or(0, |e| e.number)).or_default() += 1;
        // a place lies in the file, at its end, or is a stream or a zone
        if let Err(e) = answer {
            match e.number {
                1 => assert_eq!(e.place, 0),
                2..=7 => assert!(e.place < file.len()),
                8 => assert_eq!(e.place, file.len()),
                9 | 15 | 16 => assert!((1..=16).contains(&e.place)),
                11 | 13 => assert!(e.place < plan.len()),
                12 => assert!(e.place <= plan.len()),
                17 => assert!((1..=64).contains(&e.place)),
                _ => panic!("{e:?}"),
            }
            // where both files read well, the meaning says no as well
            if e.number >= 15 {
                let j = read_junction(&file).unwrap();
                assert!(!meaning(&j, &read_plan(&plan, &j).unwrap()));
            }
        }
    }
    println!("{answers:?}");
    for number in [2, 3, 4, 5, 7, 8, 11, 12, 13] {
        assert!(answers.contains_key(&number), "{answers:?}");
    }
}

#[test]
fn file_days_change_no_answer() {
    let mut r = Random::new(seed("file_days", 4));
    for _ in 0..2_000 {
        let junction = rich_junction(&mut r);
        let mut other = junction.clone();
        for c in &mut other.counts {
            c.file_day = r.from_to(0, 65_535) as u16;
        }
        let plan = packed_plan(&mut r, &junction, &Entries::of(&junction)).to_file();
        assert_eq!(judge(&junction.to_file(), &plan), judge(&other.to_file(), &plan));
        let (mut a, mut b) = ([9; 140], [9; 140]);
        assert_eq!(work_out(&junction.to_file(), &mut a), work_out(&other.to_file(), &mut b));
        assert_eq!(a, b);
    }
}

#[test]
fn worked_out_plans() {
    let mut r = Random::new(seed("worked_out_plans", 5));
    let mut answers: BTreeMap<u8, usize> = BTreeMap::new();
    let mut long_search = 0;
    for _ in 0..15_000 {
        let junction = if r.one_in(12) { limit_junction(&mut r) } else { rich_junction(&mut r) };
        let file = junction.to_file();
        let size = 5 + 8 * junction.streams.len();
        let room = r.pick(&[0, size - 1, size, size + 1, size + 20, size + 20, size + 20]);
        let before: Vec<u8> = (0..room).map(|i| i as u8 ^ 0x5a).collect();
        let mut buffer = before.clone();
        match work_out(&file, &mut buffer) {
            Ok(w) => {
                assert_eq!(buffer[..size], w.plan.to_file());
                assert_eq!(buffer[size..], before[size..]);
                assert_eq!(judge(&file, &buffer[..size]), Ok(()));
                assert!(meaning(&junction, &w.plan));
                assert!(1 <= w.tried_at_least && w.tried_at_least <= w.tried);
                assert_eq!(w.tried, w.cycle - w.first_length + 1);
                if w.tried > 20 {
                    long_search += 1;
                }
                *answers.entry(0).or_default() += 1;
            }
            Err(e) => {
                assert_eq!(buffer, before);
                assert_eq!(e.place, 0);
                assert_eq!(e.number == 23, room < size && work_out(&file, &mut [0; 133]).is_ok());
                *answers.entry(e.number).or_default() += 1;
            }
        }
    }
    println!("{answers:?}, {long_search} after more than 20 lengths");
    for number in [0, 21, 22, 23] {
        assert!(answers[&number] > 100, "{answers:?}");
    }
}

fn random_time(r: &mut Random) -> Time {
    if r.one_in(2) {
        Time::plain(fraction(r.from_to(-5_000, 5_000) as i128, r.pick(&[1, 10, 100, 111])))
    } else {
        let root = Time::root(fraction(r.from_to(0, 2_000) as i128, r.pick(&[1, 5, 10])));
        root.later(r.from_to(-20, 20) as i128)
    }
}

/// The exact comparison against one with floating numbers, wherever those can tell.
#[test]
fn comparison_of_roots() {
    let mut r = Random::new(seed("comparison_of_roots", 6));
    let mut close = 0;
    for _ in 0..300_000 {
        let a = random_time(&mut r);
        let b = if r.one_in(50) { a } else { random_time(&mut r) };
        let gap = a.about() - b.about();
        if gap.abs() > 1e-9 {
            assert_eq!(a.no_later_than(b), gap < 0.0, "{a:?} {b:?}");
        } else {
            close += 1;
            assert!(a.no_later_than(b) && b.no_later_than(a));
        }
    }
    assert!(close > 3_000);
    // every stop tram against every standing car: two roots
    for sum in 100..=1_000i128 {
        for r in 0..=999i128 {
            let a = Time::root(fraction(sum, 5));
            let b = Time::root(fraction(r + 15, 10)).later(-1);
            let gap = a.about() - b.about();
            let n = gap.round() as i128;
            let exact = a.no_later_than(b.later(n)) as i32 + b.later(n).no_later_than(a) as i32;
            // both hold only where the difference is whole: equal roots, or both whole
            assert_eq!(exact == 2, is_whole_difference(sum, r + 15, n - 1), "{sum} {r}");
            if exact == 1 {
                assert_eq!(a.no_later_than(b.later(n)), gap < n as f64, "{sum} {r}");
            }
        }
    }
}

/// root of sum/5 = k + root of q/10, told in whole numbers: 2 sum - q - 10 k k = 20 k root of q/10.
fn is_whole_difference(sum: i128, q: i128, k: i128) -> bool {
    let d = 2 * sum - q - 10 * k * k;
    d * d == 40 * k * k * q && d * k >= 0 && (k >= 0 || q >= 10 * k * k)
}

/// Entries by counting up against the rounded-up difference in floating numbers.
#[test]
fn entries_round_up() {
    let mut r = Random::new(seed("entries_round_up", 7));
    for _ in 0..4_000 {
        let junction = rich_junction(&mut r);
        for i in 1..=junction.streams.len() {
            for j in 1..=junction.streams.len() {
                let e = entry(&junction, i, j);
                let most = junction
                    .zones
                    .iter()
                    .filter_map(|z| {
                        let (a, b) = (z.a as usize, z.b as usize);
                        let kind = |s: usize| -> &Kind { &junction.stream(s).kind };
                        if (a, b) == (i, j) {
                            Some(leaving(kind(i), z.clearing_a).about() - reaching(kind(j), z.reaching_b).about())
                        } else if (b, a) == (i, j) {
                            Some(leaving(kind(i), z.clearing_b).about() - reaching(kind(j), z.reaching_a).about())
                        } else {
                            None
                        }
                    })
                    .fold(0.0, f64::max);
                assert!(e as f64 >= most - 1e-9 && (e == 0 || (e - 1) as f64 <= most + 1e-9), "{e} {most}");
            }
        }
    }
}

// ---- crossings with an island

/// The islands of a junction.
fn islands(junction: &Junction) -> Vec<IslandCrossing> {
    let island = |s: &Stream| match s.kind {
        Kind::Island(i) => Some(i),
        Kind::Car(_) | Kind::Tram(_) | Kind::Pedestrian(_) | Kind::Cyclist(_) => None,
    };
    junction.streams.iter().filter_map(island).collect()
}

/// The need in whole numbers, all quotients in 48ths of a second.
fn need_by_whole_numbers(i: &IslandCrossing) -> i64 {
    let packet = 4 * (i.wider_carriageway as i64 + i.island as i64 + i.packet as i64);
    let crossing = i.walk.crossing as i64 * if i.walk.crossing > 120 || i.walk.people <= 120 { 3 } else { 4 };
    let disturbed = if i.walk.disturbed { 3 * 48 } else { 0 };
    ((packet.max(crossing) + disturbed + 47) / 48).max(6)
}

/// Which quotient decides the need, or that the least of 6 s does.
fn decided_by(i: &IslandCrossing) -> &'static str {
    let (packet, crossing) = (packet_quotient(i), crossing_quotient(&i.walk));
    let added = whole(if i.walk.disturbed { 3 } else { 0 });
    if packet.max(crossing) + added <= whole(6) {
        "6 s"
    } else if packet > crossing {
        "packet"
    } else if crossing > packet {
        "crossing"
    } else {
        "both alike"
    }
}

/// Random junctions have islands of every sort, and their needs are the same by another calculation.
#[test]
fn islands_come_often() {
    let mut r = Random::new(seed("islands_come_often", 8));
    let mut sorts: BTreeMap<&str, usize> = BTreeMap::new();
    let mut hit = |sort: &'static str, is: bool| *sorts.entry(sort).or_default() += is as usize;
    for _ in 0..20_000 {
        let junction = rich_junction(&mut r);
        let only_island = |s: &Stream| is_island(s) || !s.is_pedestrian_or_tram();
        let all = islands(&junction);
        hit("(33) for islands alone", !all.is_empty() && junction.streams.iter().all(only_island));
        for i in &all {
            let seconds = need(&Kind::Island(*i), 50);
            assert_eq!(seconds, need_by_whole_numbers(i), "{i:?}");
            hit("islands", true);
            hit(decided_by(i), true);
            hit("packet of whole seconds", decided_by(i) == "packet" && packet_quotient(i) == whole(seconds as i128));
            hit("more than the pedestrian's", seconds > need(&Kind::Pedestrian(i.walk), 50));
            hit("disturbed", i.walk.disturbed);
        }
    }
    println!("{sorts:?}");
    for (sort, times) in &sorts {
        assert!(*times > 300, "{sort} came {times} times");
    }
    assert!(sorts["packet"] > 3_000 && sorts["crossing"] > 3_000, "{sorts:?}");
}

/// Where no packet decides a need, every answer is that of the junction with pedestrians of the same figures.
#[test]
fn islands_that_the_crossing_decides_are_pedestrians() {
    let mut r = Random::new(seed("islands_as_pedestrians", 9));
    let (mut compared, mut worked_out) = (0, 0);
    while compared < 3_000 {
        let mut junction = rich_junction(&mut r);
        let mut walks = junction.clone();
        for (s, walk) in junction.streams.iter_mut().zip(&mut walks.streams) {
            if let Kind::Island(i) = &mut s.kind {
                // the smallest packet, 40/12, is no more than 54/16
                (i.wider_carriageway, i.island, i.packet) = (10, 10, 20);
                i.walk.crossing = i.walk.crossing.max(54);
                walk.kind = Kind::Pedestrian(i.walk);
            }
        }
        if junction == walks {
            continue;
        }
        compared += 1;
        let (file, walks_file) = (junction.to_file(), walks.to_file());
        assert_eq!(file.len(), walks_file.len() + 6 * islands(&junction).len());
        let entries = Entries::of(&junction);
        for i in 1..=junction.streams.len() {
            for j in 1..=junction.streams.len() {
                assert_eq!(entries.from_to(i, j), entry(&walks, i, j), "{junction:?}");
            }
        }
        let (mut a, mut b) = ([9; 140], [9; 140]);
        let worked = work_out(&file, &mut a);
        assert_eq!(worked, work_out(&walks_file, &mut b), "{junction:?}");
        assert_eq!(a, b);
        worked_out += worked.is_ok() as usize;
        for _ in 0..4 {
            let plan = packed_plan(&mut r, &junction, &entries).to_file();
            assert_eq!(judge(&file, &plan), judge(&walks_file, &plan), "{junction:?}");
        }
    }
    println!("{worked_out} of {compared} worked out");
    assert!(worked_out > 1_000);
}

/// What is wrong with this body of kind 5.
fn wrong_number(body: &[u8]) -> &'static str {
    let (wider_carriageway, island, packet) = (two(body, 9), two(body, 11), two(body, 13));
    match (wider_carriageway, island, packet) {
        (0..=9, _, _) => "carriageway below",
        (601.., _, _) => "carriageway above",
        (_, 0..=9, _) => "island below",
        (_, 601.., _) => "island above",
        (_, _, 0..=19) => "packet below",
        (_, _, 201..) => "packet above",
        _ if packet % 5 != 0 => "packet no multiple of 5",
        _ => "nothing",
    }
}

/// Lengths of kind 5, unknown kinds and the three numbers of an island: each is refused with its number, at its stream.
#[test]
fn faulty_islands() {
    let mut r = Random::new(seed("faulty_islands", 10));
    let mut lengths: BTreeMap<usize, usize> = BTreeMap::new();
    let mut kinds: BTreeMap<u8, usize> = BTreeMap::new();
    let mut numbers: BTreeMap<&str, usize> = BTreeMap::new();
    for _ in 0..20_000 {
        let file = rich_junction(&mut r).to_file();
        let refused = |r: &mut Random, body: &[u8], number: u8| {
            let (file, place) = with_stream(r, &file, body);
            assert_eq!(read_junction(&file), Err(Refusal { number, place }), "{body:?}");
        };
        let body = island_of_another_length(&mut r);
        refused(&mut r, &body, 4);
        *lengths.entry(body.len()).or_default() += 1;
        let body = stream_of_unknown_kind(&mut r);
        refused(&mut r, &body, 5);
        *kinds.entry(body[0]).or_default() += 1;
        let body = island_out_of_range(&mut r);
        refused(&mut r, &body, 5);
        *numbers.entry(wrong_number(&body)).or_default() += 1;
    }
    println!("lengths {lengths:?}, {} unknown kinds, numbers {numbers:?}", kinds.len());
    for length in [9, 13, 14, 16] {
        assert!(lengths[&length] > 1_000, "{length} bytes came {} times", lengths[&length]);
    }
    assert!(kinds.keys().copied().eq([0].into_iter().chain(6..=255)));
    assert!(kinds[&0] > 1_000 && kinds[&6] > 1_000);
    assert_eq!(numbers.len(), 7);
    for (number, times) in numbers {
        assert!(times > 1_000, "{number} came {times} times");
    }
}

/// The files that aim at questions 4 and 5 often fail there for a stream of kind 5, and for one of an unknown kind.
#[test]
fn aimed_at_islands() {
    let mut r = Random::new(seed("aimed_at_islands", 16));
    let mut hits: BTreeMap<(u8, bool), usize> = BTreeMap::new();
    for number in [4, 5] {
        for _ in 0..10_000 {
            let file = aimed_at(&mut r, number);
            if let Err(Refusal { number: given @ (4 | 5), place }) = read_junction(&file) {
                // an empty body has no kind
                let kind = if file[place] == 2 && two(&file, place + 1) > 0 { file[place + 3] } else { 1 };
                if !(1..=4).contains(&kind) {
                    *hits.entry((given, kind == 5)).or_default() += 1;
                }
            }
        }
    }
    println!("refusal and whether for an island: {hits:?}");
    assert!(hits[&(4, true)] > 1_000 && hits[&(5, true)] > 1_000 && hits[&(5, false)] > 500, "{hits:?}");
    // of an unknown kind the length is not judged
    assert_eq!(hits.get(&(4, false)), None);
}

// ---- trams past forty metres

/// Is the floor above (11') for a stop tram of length t? In whole numbers: (11') is (10 l + 8,321)/1,110, and the floor is
/// the root of (400 + t)/5.
fn floor_decides(t: u16, l: u16) -> bool {
    let upper = 10 * l as u64 + 8_321;
    5 * upper * upper < 1_110 * 1_110 * (400 + t as u64)
}

/// By what this kind leaves.
fn leaves_by(kind: &Kind, l: u16) -> &'static str {
    match kind {
        Kind::Tram(t) if t.from_stop && l <= 400 => "(11)",
        Kind::Tram(t) if t.from_stop && floor_decides(t.length, l) => "floor",
        Kind::Tram(t) if t.from_stop => "(11')",
        Kind::Tram(_) => "running tram",
        Kind::Car(_) => "car",
        Kind::Pedestrian(_) => "pedestrian",
        Kind::Cyclist(_) => "cyclist",
        Kind::Island(_) => "island",
    }
}

/// By what both streams of a zone leave it.
fn zone_left_by(junction: &Junction, zone: &Zone) -> [&'static str; 2] {
    [(zone.a, zone.clearing_a), (zone.b, zone.clearing_b)].map(|(s, l)| leaves_by(&junction.stream(s as usize).kind, l))
}

fn has_floor(junction: &Junction, zone: &Zone) -> bool {
    zone_left_by(junction, zone).contains(&"floor")
}

/// Every stop tram beyond 400 dm: its leaving time is at least (11'), at least (11) at 400, and one of them.
#[test]
fn floor_or_11_prime() {
    let mut decided: BTreeMap<&str, usize> = BTreeMap::new();
    for length in 100..=600 {
        let kind = Kind::Tram(Tram { from_stop: true, length, trams_an_hour: 10 });
        let floor = Time::root(fraction(400 + length as i128, 5));
        for l in 401..=999 {
            let (time, by) = (leaving(&kind, l), leaves_by(&kind, l));
            let formula = Time::plain(fraction(10 * l as i128 + 8_321, 1_110));
            assert!(floor.no_later_than(time) && formula.no_later_than(time), "length {length}, l {l}");
            assert_eq!(time, if by == "floor" { floor } else { formula }, "length {length}, l {l}");
            let about = (80.0 + length as f64 / 5.0).sqrt().max(11.1 + (l as f64 - 400.0) / 111.0);
            assert!((time.about() - about).abs() < 1e-9, "length {length}, l {l}");
            *decided.entry(by).or_default() += 1;
        }
    }
    println!("{decided:?}");
    assert!(decided["floor"] > 50_000 && decided["(11')"] > 50_000, "{decided:?}");
}

/// Two clearing distances, the shorter first: often one decimetre apart, often about 400.
fn two_clearings(r: &mut Random) -> (u16, u16) {
    let l = if r.one_in(2) { r.from_to(380, 740) } else { r.from_to(0, 998) };
    let longer = match r.from_to(1, 4) {
        1 => l + 1,
        2 => r.from_to(l + 1, (l + 40).min(999)),
        _ => r.from_to(l + 1, 999),
    };
    (l as u16, longer as u16)
}

/// With a longer clearing distance no kind leaves sooner, and no entry to any stream at any reaching distance is less.
#[test]
fn further_is_never_sooner() {
    let mut r = Random::new(seed("further_is_never_sooner", 17));
    let mut sorts: BTreeMap<(&str, &str), usize> = BTreeMap::new();
    let mut greater = 0;
    for _ in 0..60_000 {
        let roots = r.one_in(2);
        let kinds = [random_kind(&mut r, roots, false), random_kind(&mut r, false, false)];
        let streams = vec![Stream { phase: 1, kind: kinds[0] }, Stream { phase: 2, kind: kinds[1] }];
        let (l, longer) = two_clearings(&mut r);
        let reaching_b = r.from_to(0, 999) as u16;
        let zone = Zone { a: 1, b: 2, clearing_a: l, reaching_a: 0, clearing_b: 0, reaching_b };
        let near = Junction { number: 7, design_day: 9000, period: 1, streams, zones: vec![zone], counts: vec![] };
        let far = Junction { zones: vec![Zone { clearing_a: longer, ..zone }], ..near.clone() };
        assert!(leaving(&kinds[0], l).no_later_than(leaving(&kinds[0], longer)), "{kinds:?}, {l} and {longer}");
        let (sooner, later) = (entry(&near, 1, 2), entry(&far, 1, 2));
        assert!(sooner <= later, "{kinds:?}, {l} and {longer}: {sooner} and {later}");
        greater += (sooner < later) as usize;
        *sorts.entry((leaves_by(&kinds[0], l), leaves_by(&kinds[0], longer))).or_default() += 1;
    }
    println!("{greater} entries greater, {sorts:?}");
    assert!(greater > 10_000);
    // running trams and the four other kinds; of stop trams each formula and each change from one to another
    assert_eq!(sorts.len(), 5 + 6);
    for (sort, times) in &sorts {
        assert!(*times > 300, "{sort:?} came {times} times");
    }
}

/// Random junctions have zones that a stop tram leaves by every formula, and those with the floor are often worked out.
#[test]
fn floors_come_often() {
    let mut r = Random::new(seed("floors_come_often", 18));
    let mut zones: BTreeMap<&str, usize> = BTreeMap::new();
    let mut answers: BTreeMap<u8, usize> = BTreeMap::new();
    for _ in 0..4_000 {
        let junction = rich_junction(&mut r);
        for zone in &junction.zones {
            for by in zone_left_by(&junction, zone) {
                *zones.entry(by).or_default() += 1;
            }
        }
        if junction.zones.iter().any(|z| has_floor(&junction, z)) {
            let answer = work_out(&junction.to_file(), &mut [0; 133]);
            *answers.entry(answer.err().map_or(0, |e| e.number)).or_default() += 1;
        }
    }
    println!("zones left {zones:?}, worked out with a floor {answers:?}");
    for by in ["(11)", "(11')", "floor"] {
        assert!(zones[by] > 2_000, "{zones:?}");
    }
    assert!(answers[&0] > 300, "{answers:?}");
}

// ---- periods

/// The count that gives this car its flow.
fn chosen(junction: &Junction, stream: usize) -> Count {
    let of_period = |c: &&Count| c.stream as usize == stream && c.period == junction.period && c.count_day <= junction.design_day;
    *junction.counts.iter().filter(of_period).max_by_key(|c| (c.count_day, c.flow)).expect("question 9")
}

/// Cars and their flows.
fn flows(junction: &Junction) -> Vec<(usize, Option<u16>)> {
    (1..=junction.streams.len()).filter(|&s| junction.stream(s).is_car()).map(|s| (s, junction.flow(s))).collect()
}

/// Random junctions are of all four periods, and most have counts of other periods that would be chosen if the period were not
/// looked at: newer, larger, or both.
#[test]
fn periods_come_often() {
    let mut r = Random::new(seed("periods_come_often", 20));
    let mut sorts: BTreeMap<String, usize> = BTreeMap::new();
    let mut hit = |sort: &str, is: bool| *sorts.entry(sort.to_string()).or_default() += is as usize;
    const JUNCTIONS: usize = 10_000;
    for _ in 0..JUNCTIONS {
        let junction = if r.one_in(12) { limit_junction(&mut r) } else { rich_junction(&mut r) };
        hit(&format!("planned {}", junction.period), true);
        let others: Vec<&Count> = junction.counts.iter().filter(|c| c.period != junction.period).collect();
        hit("with counts of other periods", !others.is_empty());
        hit("chosen otherwise without periods", flows(&junction) != flows(&without_periods(&junction)));
        for c in others {
            let own = chosen(&junction, c.stream as usize);
            let usable = c.count_day <= junction.design_day;
            hit("newer", usable && c.count_day > own.count_day && c.flow <= own.flow);
            hit("larger", usable && c.count_day == own.count_day && c.flow > own.flow);
            hit("newer and larger", usable && c.count_day > own.count_day && c.flow > own.flow);
            hit("older or after the design day", !usable || c.count_day < own.count_day);
        }
        junction.counts.iter().for_each(|c| hit(&format!("count of {}", c.period), true));
    }
    println!("{sorts:?}");
    assert_eq!(sorts.len(), 4 + 2 + 4 + 4);
    for (sort, times) in &sorts {
        assert!(*times > 1_000, "{sort} came {times} times");
    }
    assert!(sorts["with counts of other periods"] > JUNCTIONS * 3 / 4, "{sorts:?}");
    assert!(sorts["chosen otherwise without periods"] > JUNCTIONS / 2, "{sorts:?}");
}

/// Other counts of other periods, more of them or fewer, and no answer changes.
#[test]
fn counts_of_other_periods_change_no_answer() {
    let mut r = Random::new(seed("counts_of_other_periods", 21));
    let mut sorts: BTreeMap<&str, usize> = BTreeMap::new();
    while sorts.values().sum::<usize>() < 8_000 {
        let junction = if r.one_in(12) { limit_junction(&mut r) } else { rich_junction(&mut r) };
        let (sort, other) = match r.from_to(1, 3) {
            1 => ("changed", others_changed(&mut r, &junction)),
            2 => ("added", others_added(&mut r, &junction)),
            _ => ("removed", others_removed(&mut r, &junction)),
        };
        if other == junction {
            continue;
        }
        *sorts.entry(sort).or_default() += 1;
        let (one, two) = (junction.to_file(), other.to_file());
        assert_eq!(read_junction(&two), Ok(other.clone()));
        assert_eq!(flows(&other), flows(&junction), "{junction:?} {other:?}");
        let plan = packed_plan(&mut r, &junction, &Entries::of(&junction)).to_file();
        assert_eq!(judge(&two, &plan), judge(&one, &plan), "{junction:?} {other:?}");
        let (mut a, mut b) = ([9; 140], [9; 140]);
        assert_eq!(work_out(&two, &mut b), work_out(&one, &mut a), "{junction:?} {other:?}");
        assert_eq!(a, b);
        // without periods both would differ
        if flows(&without_periods(&other)) != flows(&without_periods(&junction)) {
            *sorts.entry("other flows without periods").or_default() += 1;
        }
    }
    println!("{sorts:?}");
    assert_eq!(sorts.len(), 4);
    for (sort, times) in &sorts {
        assert!(*times > 1_000, "{sort} came {times} times");
    }
}

/// The four periods named otherwise, in heading and counts alike, and the counts of the period planned alone: no answer changes.
#[test]
fn periods_are_only_names() {
    let mut r = Random::new(seed("periods_are_only_names", 22));
    for _ in 0..4_000 {
        let junction = if r.one_in(12) { limit_junction(&mut r) } else { rich_junction(&mut r) };
        let by = r.from_to(1, 3) as u8;
        let name = |period: u8| (period - 1 + by) % 4 + 1;
        let mut named = Junction { period: name(junction.period), ..junction.clone() };
        named.counts.iter_mut().for_each(|c| c.period = name(c.period));
        let mut alone = Junction { period: 1, ..junction.clone() };
        alone.counts.retain(|c| c.period == junction.period);
        alone.counts.iter_mut().for_each(|c| c.period = 1);
        let plan = packed_plan(&mut r, &junction, &Entries::of(&junction)).to_file();
        let mut a = [9; 140];
        let (judged, worked) = (judge(&junction.to_file(), &plan), work_out(&junction.to_file(), &mut a));
        for other in [named, alone] {
            let mut b = [9; 140];
            assert_eq!(judge(&other.to_file(), &plan), judged, "{junction:?}");
            assert_eq!(work_out(&other.to_file(), &mut b), worked, "{junction:?}");
            assert_eq!(a, b);
        }
    }
}

/// Lengths of headings and counts, and periods out of range: each is refused with its number, at its field.
#[test]
fn faulty_periods() {
    let mut r = Random::new(seed("faulty_periods", 23));
    let mut lengths: BTreeMap<(u8, usize), usize> = BTreeMap::new();
    let mut periods: BTreeMap<(u8, u8), usize> = BTreeMap::new();
    let (mut flows_too, mut streams_too) = (0, 0);
    for _ in 0..20_000 {
        let file = rich_junction(&mut r).to_file();
        let (other, place) = heading_or_count_of_another_length(&mut r, &file);
        assert_eq!(read_junction(&other), Err(Refusal { number: 4, place }));
        *lengths.entry((other[place], two(&other, place + 1) as usize)).or_default() += 1;
        let (other, place) = period_out_of_range(&mut r, &file);
        assert_eq!(read_junction(&other), Err(Refusal { number: 5, place }));
        let body = &other[place + 3..];
        let at = if other[place] == 1 { 4 } else { 7 };
        *periods.entry((other[place], body[at])).or_default() += 1;
        if other[place] == 4 {
            flows_too += !(1..=9_999).contains(&two(body, 5)) as usize;
            streams_too += !(1..=16).contains(&body[0]) as usize;
        }
    }
    println!("tag and length {lengths:?}, {} sorts of field and period, {flows_too} flows, {streams_too} streams", periods.len());
    // the lengths before request 2026-04, and one more than the right ones
    for field in [(1, 4), (4, 7), (1, 6), (4, 9)] {
        assert!(lengths[&field] > 1_000, "{field:?} came {} times", lengths[&field]);
    }
    for field in [(1, 0), (1, 5), (1, 255), (4, 0), (4, 5), (4, 255)] {
        assert!(periods[&field] > 1_000, "{field:?} came {} times", periods[&field]);
    }
    assert!(periods.keys().all(|&(_, period)| !is_period(period as usize)));
    assert!(flows_too > 1_000 && streams_too > 1_000);
}

/// A 129th count is 5 where its period is out of range, also with a stream that does not exist, and else 6.
#[test]
fn a_129th_count_of_no_period() {
    let mut r = Random::new(seed("a_129th_count", 24));
    for _ in 0..2_000 {
        let mut junction = rich_junction(&mut r);
        while junction.counts.len() < 129 {
            junction.counts.push(r.pick(&junction.counts));
        }
        let file = junction.to_file();
        let place = file.len() - 11;
        if r.one_in(2) {
            junction.counts[128].stream = r.pick(&[0, 17, 255]);
        }
        assert_eq!(read_junction(&junction.to_file()), Err(Refusal { number: 6, place }));
        junction.counts[128].period = no_period(&mut r);
        assert_eq!(read_junction(&junction.to_file()), Err(Refusal { number: 5, place }));
    }
}

/// The files that aim at 4, 5 and 9 often fail there for an old length, for a period, and for a car without a count in the period.
#[test]
fn aimed_at_periods() {
    let mut r = Random::new(seed("aimed_at_periods", 25));
    let mut sorts: BTreeMap<&str, usize> = BTreeMap::new();
    for number in [4, 5, 9] {
        for _ in 0..10_000 {
            let file = aimed_at(&mut r, number);
            let Err(Refusal { number: given, place }) = read_junction(&file) else { continue };
            let sort = match given {
                4 if file[place] == 1 && two(&file, place + 1) == 4 => "heading of 4 bytes",
                4 if file[place] == 4 && two(&file, place + 1) == 7 => "count of 7 bytes",
                5 if file[place] == 1 => "heading's period",
                5 if file[place] == 4 && !is_period(file[place + 10] as usize) => "count's period",
                9 if counted_in_another_period(&file, place) => "counts of other periods alone",
                _ => continue,
            };
            *sorts.entry(sort).or_default() += 1;
        }
    }
    println!("{sorts:?}");
    assert_eq!(sorts.len(), 5);
    for (sort, times) in &sorts {
        assert!(*times > 500, "{sort} came {times} times");
    }
}

/// Has this file, which is refused 9 for the car, a usable count of it in another period?
fn counted_in_another_period(file: &[u8], car: usize) -> bool {
    (1..=4).any(|period| {
        let mut other = file.to_vec();
        other[7] = period;
        !matches!(read_junction(&other), Err(Refusal { number: 9, place }) if place <= car)
    })
}

// ---- delays

/// A car's green and what decides its delay.
#[derive(Clone, Copy, Debug)]
struct Green {
    length: u16,
    cycle: u16,
    flow: u16,
    s: i64,
}

impl Green {
    /// That of a car of the junction; none of another stream.
    fn of(junction: &Junction, plan: &Plan, stream: usize) -> Option<Green> {
        let Kind::Car(car) = junction.stream(stream).kind else { return None };
        let flow = junction.flow(stream).expect("question 9");
        Some(Green { length: plan.green(stream).length, cycle: plan.cycle, flow, s: saturation(&car) })
    }

    fn delay(self) -> Delay {
        figures(self.length, self.cycle, self.flow, self.s).delay()
    }

    /// S x (length + 1) and flow x C.
    fn capacity_and_demand(self) -> (i128, i128) {
        (self.s as i128 * (self.length as i128 + 1), self.flow as i128 * self.cycle as i128)
    }

    /// u as a fraction.
    fn exact_u(self) -> Fraction {
        let (capacity, demand) = self.capacity_and_demand();
        fraction(demand, capacity)
    }

    /// d as a fraction, for g and u below 1. With n = length + 1, g x u is flow/S, so that
    /// A = (C - n) x (C - n) x S/(2 x C x C x (S - flow)), and B/flow = flow x C x C/(2 x n x S x (n x S - flow x C)).
    fn exact_d(self) -> Fraction {
        let (c, n, flow, s) = (self.cycle as i128, self.length as i128 + 1, self.flow as i128, self.s as i128);
        let (capacity, demand) = self.capacity_and_demand();
        let first = fraction((c - n) * (c - n) * s, 2 * c * (s - flow));
        let second = fraction(1_800 * flow * c * c, capacity * (capacity - demand));
        fraction(9, 10) * (first + second)
    }
}

/// How far a number lies from an exact one that is not 0, as a part of that.
fn apart(number: f64, exact: Fraction) -> f64 {
    (number / Time::plain(exact).about() - 1.0).abs()
}

/// What an operation in f64 is rounded by at most, as a part of its result.
const STEP: f64 = f64::EPSILON / 2.0;

/// The sort of answer about a green, after a look at all that is known of it.
fn check_delay(green: Green) -> String {
    let Green { length, cycle, flow, s } = green;
    let (f, answer) = (figures(length, cycle, flow, s), green.delay());
    let (capacity, demand) = green.capacity_and_demand();
    assert!(demand <= capacity, "{green:?} is not accepted");
    assert_eq!(answer == Delay::NoRed, length + 1 >= cycle, "{green:?}");
    // u is rounded three times; what is exact here, three times as well
    assert!(apart(f.u, green.exact_u()) <= 7.0 * STEP, "{green:?}: {f:?}");
    match answer {
        Delay::NoRed => "no red".to_string(),
        Delay::Oversaturated(u) => {
            assert!(u >= 1.0 && demand == capacity, "{green:?}: {f:?}");
            if u == 1.0 { "full, u 1" } else { "full, u above 1" }.to_string()
        }
        Delay::Seconds(d) => {
            assert!(d.is_finite() && d > 0.0, "{green:?}: {f:?}");
            if demand == capacity {
                assert!(f.u < 1.0 && d > 1e9 && answer.level() == 'F', "{green:?}: {f:?}");
                return "full, u below 1".to_string();
            }
            // 1 - g and 1 - g x u are 1/180 or more, so that A is within 1,300 steps; B is within 9 + 3/(1 - u), where 1 - u is
            // at least 1/(180 x 12,285), which no rounding of u comes near
            assert!(apart(d, green.exact_d()) <= (1_400.0 + 4.0 / (1.0 - f.u)) * STEP, "{green:?}: {f:?}");
            format!("delay {}", answer.level())
        }
    }
}

/// A longer green has a shorter delay and no worse level, a larger flow a longer delay and no better level.
fn check_neighbours(green: Green) {
    let no_worse = |this: Green, than: Green| {
        let (one, other) = (this.delay(), than.delay());
        assert!(one.level() <= other.level(), "{this:?} {one:?}, {than:?} {other:?}");
        if let (Delay::Seconds(d), Delay::Seconds(e)) = (one, other) {
            assert!(d < e, "{this:?} {d}, {than:?} {e}");
        }
    };
    if green.length < green.cycle {
        no_worse(Green { length: green.length + 1, ..green }, green);
    }
    let (capacity, demand) = green.capacity_and_demand();
    if demand + green.cycle as i128 <= capacity {
        no_worse(green, Green { flow: green.flow + 1, ..green });
    }
}

/// Every stream of accepted plans: cars with a load on purpose, plans worked out and packed.
#[test]
fn delays_of_accepted_plans() {
    let mut r = Random::new(seed("delays_of_accepted_plans", 26));
    let mut sorts: BTreeMap<String, usize> = BTreeMap::new();
    let mut hit = |sort: String| *sorts.entry(sort).or_default() += 1;
    for i in 0..16_000 {
        let (junction, plan) = if i % 4 > 0 {
            loaded_junction(&mut r)
        } else {
            let junction = rich_junction(&mut r);
            let plan = packed_plan(&mut r, &junction, &Entries::of(&junction));
            (junction, plan)
        };
        let (file, plan_file) = (junction.to_file(), plan.to_file());
        let (read, judged) = (read_junction(&file), judge(&file, &plan_file));
        assert_eq!(read.as_ref(), Ok(&junction));
        if i % 4 > 0 {
            assert_eq!(judged, Ok(()), "{junction:?} {plan:?}");
        }
        let n = junction.streams.len();
        for stream in (0..=n + 1).chain([17, 256 + n, 65_536 + n, (1 << 32) + n, usize::MAX]) {
            let answer = delay(&file, &plan_file, stream);
            if let Err(refusal) = judged {
                assert_eq!(answer, Err(refusal), "stream {stream}");
                hit("the judge's refusal".to_string());
                continue;
            }
            assert_eq!(answer, delay_when_accepted(&junction, &plan, stream));
            let car = if (1..=n).contains(&stream) { Green::of(&junction, &plan, stream) } else { None };
            hit(match car {
                Some(green) => {
                    assert_eq!(answer, Ok(green.delay()));
                    check_neighbours(green);
                    check_delay(green)
                }
                None => {
                    assert_eq!(answer, Err(Refusal { number: 9, place: stream }));
                    if (1..=n).contains(&stream) { "no car" } else { "no stream" }.to_string()
                }
            });
        }
    }
    println!("{sorts:?}");
    // six levels, no red, three sorts of exact capacity; no car, no stream, refused plans
    assert_eq!(sorts.len(), 6 + 1 + 3 + 3);
    for (sort, times) in &sorts {
        assert!(*times > 1_000, "{sort} came {times} times");
    }
}

/// Every length and many flows at some cycles: what is accepted, from flow 1 to capacity.
#[test]
fn delays_over_all_lengths() {
    let mut sorts: BTreeMap<String, usize> = BTreeMap::new();
    for s in [629, 1_100, 1_925, 2_700, 3_240, 12_285] {
        for cycle in [10, 20, 25, 50, 55, 64, 99, 100, 144, 171, 180u16] {
            for length in 8..=cycle {
                let most = (s * (length as i64 + 1) / cycle as i64).min(9_999) as u16;
                for flow in (1..=most).step_by(37).chain(most.saturating_sub(4).max(1)..=most) {
                    let green = Green { length, cycle, flow, s };
                    check_neighbours(green);
                    *sorts.entry(check_delay(green)).or_default() += 1;
                }
            }
        }
    }
    println!("{sorts:?}");
    assert_eq!(sorts.len(), 6 + 1 + 3);
}

/// The greens at a limit come out at it exactly, below and above it, for every limit.
#[test]
fn delays_at_the_limits_come_often() {
    let mut r = Random::new(seed("delays_at_the_limits", 27));
    let mut sorts: BTreeMap<(i64, &str), usize> = BTreeMap::new();
    for _ in 0..40_000 {
        let (junction, plan) = loaded_junction(&mut r);
        for green in (1..=junction.streams.len()).filter_map(|s| Green::of(&junction, &plan, s)) {
            let Delay::Seconds(d) = green.delay() else { continue };
            let Some(limit) = LEVELS.iter().map(|level| level.0).find(|limit| (d - limit).abs() < 1e-12) else { continue };
            let sort = if d < limit { "below" } else if d > limit { "above" } else { "met" };
            *sorts.entry((limit as i64, sort)).or_default() += 1;
        }
    }
    println!("{sorts:?}");
    assert_eq!(sorts.len(), 5 * 3);
    for (sort, times) in &sorts {
        assert!(*times > 100, "{sort:?} came {times} times");
    }
}

// ---- offsets along a street

/// The plan read from its file after a shift by an offset below the cycle: it is the plan turned, and no byte but those of starts
/// has changed.
fn shifted(junction: &Junction, plan: &Plan, offset: usize) -> Plan {
    let before = plan.to_file();
    let mut file = before.clone();
    assert_eq!(shift_for(junction, &mut file, offset), Ok(()), "{offset} {plan:?}");
    let starts: Vec<usize> = (1..=plan.greens.len()).flat_map(|s| [start_of(s), start_of(s) + 1]).collect();
    for at in (0..file.len()).filter(|at| !starts.contains(at)) {
        assert_eq!(file[at], before[at], "byte {at}, {offset} {plan:?}");
    }
    let after = read_plan(&file, junction).expect("well-formed");
    assert_eq!(after, turned(plan, offset as u16));
    after
}

/// Plans for a junction: worked out, packed, a second beside these, and any.
fn plans_of_every_sort(r: &mut Random, junction: &Junction, entries: &Entries) -> Vec<Plan> {
    let mut plans: Vec<Plan> = worked_plan(junction).into_iter().collect();
    plans.push(packed_plan(r, junction, entries));
    plans.push(packed_plan(r, junction, entries));
    plans.push(any_plan(r, junction));
    let beside: Vec<Plan> = plans.iter().map(|plan| moved(r, plan)).collect();
    plans.extend(beside);
    plans
}

/// Judge and meaning say the same of a plan before and after, by one offset or, of some plans, by every one below the cycle.
#[test]
fn shifted_plans_are_judged_alike() {
    let mut r = Random::new(seed("shifted_plans", 30));
    let mut answers: BTreeMap<u8, usize> = BTreeMap::new();
    let mut every: BTreeMap<u8, usize> = BTreeMap::new();
    for _ in 0..2_500 {
        let junction = if r.one_in(12) { limit_junction(&mut r) } else { rich_junction(&mut r) };
        let (file, entries) = (junction.to_file(), Entries::of(&junction));
        for plan in plans_of_every_sort(&mut r, &junction, &entries) {
            let (judgement, meant) = (rules(&junction, &plan, &entries), meaning(&junction, &plan));
            let number = judgement.err().map_or(0, |e| e.number);
            let offset = r.from_to(0, plan.cycle as i64 - 1) as usize;
            let all = r.one_in(40);
            for offset in if all { 0..plan.cycle as usize } else { offset..offset + 1 } {
                let after = shifted(&junction, &plan, offset);
                assert_eq!(rules(&junction, &after, &entries), judgement, "{offset} {junction:?} {plan:?}");
                assert_eq!(meaning(&junction, &after), meant, "{offset} {junction:?} {plan:?}");
                *answers.entry(number).or_default() += 1;
            }
            *every.entry(number).or_default() += all as usize;
            // over the files
            if r.one_in(10) {
                let mut shifted = plan.to_file();
                assert_eq!(shift(&file, &mut shifted, offset), Ok(()));
                assert_eq!(judge(&file, &shifted), judge(&file, &plan.to_file()));
            }
        }
    }
    println!("{answers:?}, by every offset {every:?}");
    for number in [0, 15, 16, 17] {
        assert!(answers[&number] > 2_000 && every[&number] > 20, "{answers:?} {every:?}");
    }
}

/// Shifting by a and then by b is shifting by (a + b) modulo C, and C - a undoes a.
#[test]
fn shifts_add_up() {
    let mut r = Random::new(seed("shifts_add_up", 31));
    for _ in 0..4_000 {
        let junction = rich_junction(&mut r);
        let plan = any_plan(&mut r, &junction);
        let cycle = plan.cycle as usize;
        let (a, b) = (r.from_to(0, cycle as i64 - 1) as usize, r.from_to(0, cycle as i64 - 1) as usize);
        let by_a = shifted(&junction, &plan, a);
        assert_eq!(shifted(&junction, &by_a, b), shifted(&junction, &plan, (a + b) % cycle), "{a} {b} {plan:?}");
        assert_eq!(shifted(&junction, &by_a, (cycle - a) % cycle), plan, "{a}");
        assert_eq!(shifted(&junction, &plan, 0), plan);
    }
}

/// A shift is refused as the judge refuses the files by 1 to 13, then by 24; it changes a byte only where nothing is refused.
#[test]
fn refused_shifts_change_nothing() {
    let mut r = Random::new(seed("refused_shifts", 32));
    let mut answers: BTreeMap<u8, usize> = BTreeMap::new();
    let mut other = vec![];
    for _ in 0..30_000 {
        let junction = rich_junction(&mut r);
        let good = any_plan(&mut r, &junction).to_file();
        let (file, plan) = match r.from_to(1, 6) {
            1 => (damaged(&mut r, &junction.to_file()), good.clone()),
            2 => {
                let number = r.from_to(1, 9) as u8;
                (aimed_at(&mut r, number), good.clone())
            }
            3 => (junction.to_file(), damaged(&mut r, &good)),
            4 => (junction.to_file(), faulty(&mut r, &good, &other)),
            _ => (junction.to_file(), good.clone()),
        };
        let cycle = if plan.len() < 5 { 50 } else { two(&plan, 3) as usize };
        let offset = r.pick(&[0, cycle.saturating_sub(1), cycle, cycle + 1, 65_536, 1 << 32, usize::MAX]);
        let mut lent = plan.clone();
        let answer = shift(&file, &mut lent, offset);
        let wanted = match judge(&file, &plan) {
            Err(refusal) if refusal.number <= 13 => Err(refusal),
            _ if offset >= cycle => Err(Refusal { number: 24, place: 0 }),
            _ => Ok(()),
        };
        assert_eq!(answer, wanted, "{offset}");
        assert!(answer.is_ok() || lent == plan, "{offset} {answer:?}");
        assert_eq!(judge(&file, &lent), judge(&file, &plan), "{offset}");
        *answers.entry(answer.err().map_or(0, |e| e.number)).or_default() += 1;
        other = good;
    }
    println!("{answers:?}");
    for number in (0..=9).chain([11, 12, 13, 24]) {
        assert!(answers[&number] > 100, "{answers:?}");
    }
}

// ---- road works with portable signals

/// What an accepted plan means on the stretch: of the greens of three cycles, each two of the two approaches are 3 + t or more apart,
/// t as it is; each green is 8 s or more, and carries its flow.
fn passes(works: &Works, cycle: i64, greens: &[PlanGreen]) -> bool {
    let apart = whole(3) + fraction(36 * (works.stretch as i128 + 20), 10 * works.speed as i128);
    let times = |i: usize, k: i64| {
        let begin = greens[i].start as i64 + k * cycle;
        (begin, begin + greens[i].length as i64)
    };
    let pairs = (0..3).flat_map(|k| (0..3).map(move |m| (k, m)));
    let clear = pairs.into_iter().all(|(k, m)| {
        let (one, two) = (times(0, k), times(1, m));
        let gap = if one.1 <= two.0 { two.0 - one.1 } else { one.0 - two.1 };
        whole(gap as i128) >= apart
    });
    let carried = works.approaches.iter().zip(greens).all(|(a, g)| {
        // vehicles of a cycle: those that come, and those that go in the green and one second
        fraction(a.flow as i128 * cycle as i128, 3_600) <= fraction(a.s as i128 * (g.length as i128 + 1), 3_600)
    });
    greens.iter().all(|g| g.length >= 8) && carried && clear
}

/// Is there a green of each approach at this length, and do the greens pass?
fn length_works(works: &Works, t: i64) -> bool {
    greens_at(&portable::phases(works), t).is_some_and(|greens| passes(works, t, &greens))
}

/// T0 by (32), by division.
fn first_length_of(works: &Works) -> i64 {
    let y: i64 = works.approaches.iter().map(|a| (10_000 * a.flow as i64 + a.s as i64 - 1) / a.s as i64).sum();
    let tenths_of_t = 36 * (works.stretch as i64 + 20);
    let speed = works.speed as i64;
    let m = (30 * speed + tenths_of_t + 10 * speed - 1) / (10 * speed);
    (30_000 * (m - 1) + 50_000 + 10_000 - y - 1) / (10_000 - y)
}

/// Every answer about road works, by what the papers say of it.
#[test]
fn answers_for_road_works() {
    let mut r = Random::new(seed("answers_for_road_works", 36));
    let mut answers: BTreeMap<u8, usize> = BTreeMap::new();
    let (mut at_once, mut later, mut without_a_length) = (0, 0, 0);
    for _ in 0..60_000 {
        let works = some_works(&mut r);
        let answer = portable(&works);
        let refusal = answer.err().map_or(0, |e| e.number);
        assert!(answer.is_ok() || answer == Err(Refusal { number: refusal, place: 0 }), "{works:?}");
        *answers.entry(refusal).or_default() += 1;
        let listed = works.stretch % 10 == 0 && (1..=30).contains(&(works.stretch / 10)) && [25, 30, 35, 40].contains(&works.speed);
        assert_eq!(refusal == 25, !listed, "{works:?}");
        if refusal == 25 {
            continue;
        }
        let in_range = works.approaches.iter().all(|a| a.flow > 0 && a.flow < 10_000 && a.s > 0 && a.s < 10_000);
        assert_eq!(refusal == 26, !in_range, "{works:?}");
        if refusal == 26 {
            continue;
        }
        let y: i128 = works.approaches.iter().map(|a| fraction(10_000 * a.flow as i128, a.s as i128).up()).sum();
        assert_eq!(refusal == 21, y >= 10_000, "{works:?}");
        if refusal == 21 {
            continue;
        }
        let first = first_length_of(&works);
        let cycle = (first..=180).find(|&t| length_works(&works, t));
        assert_eq!(refusal == 22, cycle.is_none(), "{works:?}");
        let Some(cycle) = cycle else {
            without_a_length += (first <= 180) as usize;
            continue;
        };
        let enough = works.approaches.iter().all(|a| a.waiting as u128 * 600 > a.flow as u128 * cycle as u128);
        assert_eq!(refusal == 27, !enough, "{works:?}");
        let Ok(answer) = answer else { continue };
        assert_eq!(answer.cycle, cycle, "{works:?}");
        if cycle == first { at_once += 1 } else { later += 1 }
        let [one, two] = answer.greens;
        assert!(passes(&works, cycle, &answer.greens), "{works:?}");
        // the greens and twice M fill the cycle
        let m = two.start as i64 - one.length as i64;
        assert_eq!((one.start, one.length as i64 + two.length as i64 + 2 * m), (0, cycle), "{works:?}");
        let apart = whole(3) + fraction(36 * (works.stretch as i128 + 20), 10 * works.speed as i128);
        assert!(whole(m as i128) >= apart && whole(m as i128 - 1) < apart, "{works:?}");
        // less than half a tenth from t, and from 2t + 4
        let t = apart - whole(3);
        let off = |tenths: i64, exact: Fraction| whole(tenths as i128) - whole(10) * exact;
        for off in [off(answer.clearing_time, t), off(answer.lost_time, whole(2) * t + whole(4))] {
            assert!(off < fraction(1, 2) && -off < fraction(1, 2), "{works:?}");
        }
    }
    println!("{answers:?}, at T0 {at_once}, later {later}, no length from T0 to 180 {without_a_length}");
    for number in [0, 21, 22, 25, 26, 27] {
        assert!(answers[&number] > 1_000, "{answers:?}");
    }
    assert!(at_once > 1_000 && later > 1_000 && without_a_length > 1_000);
}

/// The waiting lengths decide 27 alone: with others the answer is the same, or one of both is 27.
#[test]
fn waiting_lengths_change_no_plan() {
    let mut r = Random::new(seed("waiting_lengths", 37));
    let (mut same, mut refused) = (0, 0);
    for _ in 0..10_000 {
        let works = some_works(&mut r);
        let mut much = works;
        for approach in &mut much.approaches {
            approach.waiting = usize::MAX;
        }
        let (answer, with_much) = (portable(&works), portable(&much));
        assert_ne!(with_much, Err(Refusal { number: 27, place: 0 }), "{works:?}");
        if answer == Err(Refusal { number: 27, place: 0 }) {
            assert!(with_much.is_ok(), "{works:?}");
            refused += 1;
        } else {
            assert_eq!(answer, with_much, "{works:?}");
            same += 1;
        }
    }
    println!("same {same}, refused 27 {refused}");
    assert!(same > 1_000 && refused > 1_000);
}

/// A junction of two cars with the same flows, S and M gets the same cycle and greens.
#[test]
fn road_works_are_worked_out_as_junctions() {
    let mut r = Random::new(seed("road_works_as_junctions", 38));
    let mut answers: BTreeMap<u8, usize> = BTreeMap::new();
    for _ in 0..4_000 {
        let (works, junction) = works_as_junction(&mut r);
        let answer = portable(&works);
        let planned = search(&junction, &Entries::of(&junction));
        let plan = planned.as_ref().map(|w| (w.cycle, w.plan.greens.clone())).map_err(|e| *e);
        assert_eq!(answer.map(|p| (p.cycle, p.greens.to_vec())), plan, "{works:?}");
        if let Ok(found) = portable::cycle_of(&works) {
            assert_eq!(found.first_length, planned.expect("a plan").first_length, "{works:?}");
        }
        *answers.entry(answer.err().map_or(0, |e| e.number)).or_default() += 1;
    }
    println!("{answers:?}");
    for number in [0, 21, 22] {
        assert!(answers[&number] > 100, "{answers:?}");
    }
}
