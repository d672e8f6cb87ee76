//! The proved library, called through its C entries, against the model.
mod calls;
use calls::*;
use givendra_sys::{JunctionAnswer, PlanAnswer, GIVENDRA_RELEASE};
use model::annex::{crossing_quotient, need as model_need, packet_quotient, saturation, y_of, TABLE_3};
use model::delay::{delay_when_accepted, figures as delay_figures, Delay, LEVELS};
use model::exact::{whole, Time};
use model::faults::*;
use model::generate::*;
use model::judge::rules;
use model::junction::{is_period, two, Junction, Kind};
use model::portable::{capacities_met, cycle_of, needed_waiting, needs_met, phases, stretches, Works, NUMBERS, SPEEDS};
use model::random::{seed, Random};
use model::shift::{shift_for, start_of};
use model::times::{accelerating, at_full_speed, entry, leaving, reaching, zone_distances, Entries};
use model::work_out::{enough_by_32, first_length_by, greens_at, lost_time_at, search, write, Worked};
use model::{meaning, read_plan, Plan, Refusal};

/// The library is of the release that `givendra-sys` declares.
#[test]
fn same_release() {
    assert_eq!(release(), GIVENDRA_RELEASE);
}

/// What the model says of a junction file: worked out once, asked often.
struct Known {
    read: Result<Junction, Refusal>,
    /// Only where the file is taken.
    entries: Option<Entries>,
    worked: Result<Worked, Refusal>,
}

impl Known {
    fn of(file: &[u8]) -> Known {
        let read = model::read_junction(file);
        let entries = read.as_ref().ok().map(Entries::of);
        let worked = match &read {
            Ok(junction) => search(junction, entries.as_ref().unwrap()),
            Err(refusal) => Err(*refusal),
        };
        Known { read, entries, worked }
    }

    fn judge(&self, plan: &[u8]) -> Result<(), Refusal> {
        self.accepted(plan).map(|_| ())
    }

    /// Junction and plan, where the plan is accepted.
    fn accepted(&self, plan: &[u8]) -> Result<(&Junction, Plan), Refusal> {
        let junction = self.read.as_ref().map_err(|e| *e)?;
        let plan = read_plan(plan, junction)?;
        rules(junction, &plan, self.entries.as_ref().unwrap())?;
        Ok((junction, plan))
    }

    fn shift(&self, plan: &mut [u8], offset: usize) -> Result<(), Refusal> {
        let junction = self.read.as_ref().map_err(|e| *e)?;
        shift_for(junction, plan, offset)
    }

    fn work_out(&self, buffer: &mut [u8]) -> Result<&Worked, Refusal> {
        let worked = self.worked.as_ref().map_err(|e| *e)?;
        write(worked, buffer)?;
        Ok(worked)
    }
}

// ---- the checks of one file

fn check_reading(hits: &mut Hits, file: &Lent, known: &Known) {
    let (refusal, place) = number_and_place(&known.read);
    let model = match &known.read {
        Ok(j) => JunctionAnswer {
            place,
            refusal,
            design_day: j.design_day,
            period: j.period,
            streams: j.streams.len(),
            zones: j.zones.len(),
            counts: j.counts.len(),
        },
        Err(_) => JunctionAnswer { place, refusal, design_day: 0, period: 0, streams: 0, zones: 0, counts: 0 },
    };
    same("read_junction", read_junction(file), model, file.bytes(), &[]);
    hits.hit("read_junction", refusal);
    match &known.read {
        Ok(j) => hits.hit(PLANNED[j.period as usize - 1], 0),
        Err(e) if by_period(file.bytes(), *e) => hits.hit("by period", refusal),
        Err(_) => {}
    }
}

const PLANNED: [&str; 4] = ["planned 1", "planned 2", "planned 3", "planned 4"];

/// Is it refused for an old length of a heading or a count, for a period out of range, or for a car that has counts of other periods
/// alone?
fn by_period(file: &[u8], refusal: Refusal) -> bool {
    let place = refusal.place;
    match refusal.number {
        4 => [(1, 4), (4, 7)].contains(&(file[place], two(file, place + 1))),
        5 => match file[place] {
            1 => true,
            4 => !is_period(file[place + 10] as usize),
            _ => false,
        },
        9 => (1..=4).any(|period| {
            let mut other = file.to_vec();
            other[7] = period;
            !matches!(model::read_junction(&other), Err(Refusal { number: 9, place }) if place <= refusal.place)
        }),
        _ => false,
    }
}

/// Has a car another flow where the periods of the counts are not looked at?
fn has_other_flow_without_periods(junction: &Junction) -> bool {
    let without = without_periods(junction);
    (1..=junction.streams.len()).any(|s| junction.stream(s).is_car() && junction.flow(s) != without.flow(s))
}

fn check_judging(hits: &mut Hits, junction: &Lent, plan: &Lent, known: &Known) {
    let model = judged(known.judge(plan.bytes()));
    same("judge", judge(junction, plan), model, junction.bytes(), plan.bytes());
    hits.hit("judge", model.refusal);
    if known.read.as_ref().is_ok_and(|j| j.streams.iter().any(|s| island_column(&s.kind).is_some())) {
        hits.hit("judge, islands", model.refusal);
    }
    if known.read.as_ref().is_ok_and(has_floor) {
        hits.hit("judge, floor", model.refusal);
    }
    if known.read.as_ref().is_ok_and(has_other_flow_without_periods) {
        hits.hit("judge, periods", model.refusal);
    }
}

/// The planner in a buffer of this size: answer, every byte of the buffer, and the bounds of the tried count.
fn check_working_out(r: &mut Random, hits: &mut Hits, junction: &Lent, size: usize, known: &Known) {
    let room: Vec<u8> = (0..size).map(|_| r.any() as u8).collect();
    let mut buffer = Lent::new(r, &room);
    let answer = work_out(junction, &mut buffer);
    let mut wanted = room;
    let model = known.work_out(&mut wanted);
    let (refusal, place) = number_and_place(&model);
    let size_written = model.as_ref().map_or(0, |w| w.plan.to_file().len());
    let (cycle, least, most) = model.map_or((0, 0, 0), |w| (w.cycle as u16, w.tried_at_least as u16, w.tried as u16));
    // the tried count is free within its bounds
    let tried = answer.tried.clamp(least, most);
    let what = format!("work_out in {size} bytes, tried from {least} to {most}");
    same(&what, answer, PlanAnswer { place, refusal, cycle, tried, size: size_written }, junction.bytes(), &[]);
    same(&what, buffer.bytes(), &wanted[..], junction.bytes(), &[]);
    hits.hit("work_out", refusal);
    if known.read.as_ref().is_ok_and(has_floor) {
        hits.hit("work_out, floor", refusal);
    }
    if known.read.as_ref().is_ok_and(has_other_flow_without_periods) {
        hits.hit("worked, periods", refusal);
    }
}

/// Buffers one byte too short, exact, longer, and empty or of another size.
fn check_buffers(r: &mut Random, hits: &mut Hits, junction: &Lent, known: &Known) {
    let exact = known.read.as_ref().map_or(21, |j| 5 + 8 * j.streams.len());
    for size in [exact - 1, exact, exact + r.from_to(1, 60) as usize, r.pick(&[0, 1, 20, 133])] {
        check_working_out(r, hits, junction, size, known);
    }
}

/// A plan that the library worked out is accepted by its own judge, by the model's and by the meaning.
fn check_own_plan(r: &mut Random, junction: &Lent, known: &Known) {
    let (Ok(j), Ok(_)) = (&known.read, &known.worked) else { return };
    let mut buffer = Lent::new(r, &vec![0; 5 + 8 * j.streams.len()]);
    work_out(junction, &mut buffer);
    let file = buffer.bytes().to_vec();
    let plan = Lent::new(r, &file);
    same("the library's own plan, judge", judge(junction, &plan), judged(Ok(())), junction.bytes(), &file);
    same("the library's own plan, model", known.judge(&file), Ok(()), junction.bytes(), &file);
    let read = read_plan(&file, j).expect("well-formed");
    same("the library's own plan, meaning", true, meaning(j, &read), junction.bytes(), &file);
}

// ---- files

/// A plan file for this junction: worked out, packed, turned, moved or at random.
fn some_plan(r: &mut Random, junction: &Junction, known: &Known) -> Plan {
    let entries = known.entries.as_ref().expect("a junction that is taken");
    let plan = match (&known.worked, r.from_to(1, 8)) {
        (Ok(w), 1..=4) => w.plan.clone(),
        (_, 8) => any_plan(r, junction),
        _ => packed_plan(r, junction, entries),
    };
    let by = r.from_to(0, plan.cycle as i64 - 1) as u16;
    match r.from_to(1, 4) {
        1 => turned(&plan, by),
        2 => moved(r, &plan),
        3 => moved(r, &turned(&plan, by)),
        _ => plan,
    }
}

/// The plan file with a fault, or with numbers at their limits, or very long.
fn faulty_plan(r: &mut Random, file: &[u8], other: &[u8]) -> Vec<u8> {
    match r.from_to(1, 10) {
        1 | 2 => damaged(r, file),
        3 => at_the_limits(r, file),
        4 if r.one_in(20) => {
            let mut long = file.to_vec();
            long.resize(r.pick(&[16_384, 16_385, 65_536, 70_000]), r.pick(&[0, 0x12, 255]));
            long
        }
        5 if r.one_in(20) => {
            let mut long = vec![0x11, 255, 255];
            long.resize(r.from_to(65_537, 65_539) as usize, 0);
            long
        }
        6 => {
            let once = faulty(r, file, other);
            faulty(r, &once, other)
        }
        _ => faulty(r, file, other),
    }
}

/// A junction file that is probably refused.
fn faulty_junction(r: &mut Random) -> Vec<u8> {
    match r.from_to(1, 14) {
        n @ 1..=9 => aimed_at(r, n as u8),
        10 => {
            let file = rich_junction(r).to_file();
            damaged(r, &file)
        }
        11 => {
            let file = if r.one_in(2) { limit_junction(r) } else { rich_junction(r) }.to_file();
            at_the_limits(r, &file)
        }
        12 => {
            let number = r.from_to(2, 9) as u8;
            let file = aimed_at(r, number);
            damaged(r, &file)
        }
        _ => {
            let number = r.from_to(2, 9) as u8;
            let (file, other) = (aimed_at(r, number), rich_junction(r).to_file());
            faulty(r, &file, &other)
        }
    }
}

const JUNCTION: [u8; 9] = [1, 2, 3, 4, 5, 6, 7, 8, 9];

const PAIRS: usize = 250_000;

/// Pairs of files of every sort: reading, judging, shifting and working out.
#[test]
fn files() {
    let mut r = Random::new(seed("files", 11));
    let judges = ["judge", "judge, islands", "judge, floor", "judge, periods"];
    let others = ["read_junction", "by period", "work_out", "work_out, floor", "worked, periods"];
    let mut hits = Hits::new(&[&judges[..], &others, &PLANNED].concat());
    let mut shifts = Hits::new(&[&SHIFT_COLUMNS[..], &SUM_COLUMNS, &CUT_COLUMNS].concat());
    let mut pairs = 0;
    while pairs < PAIRS {
        if r.one_in(8) {
            let junction = if r.one_in(8) { limit_junction(&mut r) } else { rich_junction(&mut r) };
            let file = junction.to_file();
            let file = if r.one_in(6) { at_the_limits(&mut r, &file) } else { file };
            pairs += check_with_plans(&mut r, &mut hits, &mut shifts, &file);
        } else {
            let file = faulty_junction(&mut r);
            let planned = rich_junction(&mut r);
            let plan = any_plan(&mut r, &planned).to_file();
            let known = Known::of(&file);
            if known.read.is_ok() {
                pairs += check_with_plans(&mut r, &mut hits, &mut shifts, &file);
            }
            let (lent, plan) = (Lent::new(&mut r, &file), Lent::new(&mut r, &plan));
            check_reading(&mut hits, &lent, &known);
            check_judging(&mut hits, &lent, &plan, &known);
            check_shifting(&mut r, &mut shifts, &lent, plan.bytes(), &known);
            let size = r.pick(&[0, 20, 21, 133, 140]);
            check_working_out(&mut r, &mut hits, &lent, size, &known);
            pairs += 1;
        }
    }
    println!("{pairs} pairs of junction and plan file");
    hits.print();
    shifts.print();
    hits.at_least(1_000, "judge", &JUNCTION);
    hits.at_least(1_000, "judge", &[0, 11, 12, 13, 15, 16, 17]);
    hits.at_least(1_000, "judge, islands", &[0, 15, 16, 17]);
    hits.at_least(1_000, "judge, floor", &[0, 15, 16, 17]);
    hits.at_least(1_000, "judge, periods", &[0, 15, 16, 17]);
    hits.at_least(500, "by period", &[4, 5, 9]);
    for name in PLANNED {
        hits.at_least(1_000, name, &[0]);
    }
    hits.at_least(1_000, "read_junction", &JUNCTION);
    hits.at_least(1_000, "read_junction", &[0]);
    hits.at_least(1_000, "work_out", &JUNCTION);
    hits.at_least(1_000, "work_out", &[0, 21, 22, 23]);
    hits.at_least(1_000, "work_out, floor", &[0]);
    hits.at_least(200, "work_out, floor", &[21, 22, 23]);
    hits.at_least(1_000, "worked, periods", &[0, 21, 22, 23]);
    shifts.at_least(1_000, "shift", &JUNCTION);
    shifts.at_least(1_000, "shift", &[0, 11, 12, 13, 24]);
    shifts.at_least(500, "too large", &JUNCTION);
    shifts.at_least(1_000, "too large", &[11, 12, 13, 24]);
    shifts.at_least(1_000, "shifted, judged", &[0, 15, 16, 17]);
    for name in SUM_COLUMNS {
        shifts.at_least(1_000, name, &[0]);
    }
    for name in CUT_COLUMNS {
        shifts.at_least(1_000, name, &[24]);
    }
}

/// A junction file that is probably taken, with plans of every sort; the number of pairs.
fn check_with_plans(r: &mut Random, hits: &mut Hits, shifts: &mut Hits, file: &[u8]) -> usize {
    let known = Known::of(file);
    let lent = Lent::new(r, file);
    check_reading(hits, &lent, &known);
    check_buffers(r, hits, &lent, &known);
    check_own_plan(r, &lent, &known);
    let Ok(junction) = &known.read else { return 0 };
    let other_junction = rich_junction(r);
    let mut other = any_plan(r, &other_junction).to_file();
    const PLANS: usize = 16;
    for i in 0..PLANS {
        let good = some_plan(r, junction, &known).to_file();
        let plan = if i % 2 == 0 { good.clone() } else { faulty_plan(r, &good, &other) };
        let (lent, plan) = (Lent::new(r, file), Lent::new(r, &plan));
        check_judging(hits, &lent, &plan, &known);
        check_shifting(r, shifts, &lent, plan.bytes(), &known);
        other = good;
    }
    PLANS
}

/// The library's judge accepts exactly the well-formed plans that the meaning of demand 3 allows: greens of three
/// cycles, one by one, with neither an offset in the cycle nor an entry.
#[test]
fn judge_and_meaning() {
    let mut r = Random::new(seed("judge_and_meaning", 12));
    let mut hits = Hits::new(&["judge", "judge, floor", "worked out", "worked, floor"]);
    let mut pairs = 0;
    while pairs < 150_000 {
        let junction = if r.one_in(12) { limit_junction(&mut r) } else { rich_junction(&mut r) };
        let file = junction.to_file();
        let known = Known::of(&file);
        let lent = Lent::new(&mut r, &file);
        check_own_plan(&mut r, &lent, &known);
        hits.hit("worked out", number_and_place(&known.worked).0);
        let floor = has_floor(&junction);
        if floor {
            hits.hit("worked, floor", number_and_place(&known.worked).0);
        }
        for _ in 0..20 {
            let plan = some_plan(&mut r, &junction, &known);
            let plan_file = plan.to_file();
            let answer = judge(&lent, &Lent::new(&mut r, &plan_file));
            let allowed = meaning(&junction, &plan);
            same("judge against the meaning", answer.refusal == 0, allowed, &file, &plan_file);
            same("judge", answer, judged(known.judge(&plan_file)), &file, &plan_file);
            hits.hit("judge", answer.refusal);
            if floor {
                hits.hit("judge, floor", answer.refusal);
            }
            pairs += 1;
        }
    }
    println!("{pairs} pairs of junction and well-formed plan");
    hits.print();
    hits.at_least(5_000, "judge", &[0, 15, 16, 17]);
    hits.at_least(1_000, "judge, floor", &[0, 15, 16, 17]);
    hits.at_least(5_000, "worked out", &[0]);
    hits.at_least(500, "worked, floor", &[0]);
}

// ---- figures

/// Streams of the junction and others that do not exist.
fn stream_numbers(streams: usize) -> Vec<usize> {
    let mut list: Vec<usize> = (0..=streams + 1).collect();
    list.extend([16, 17, 255, 256, 257, 65_536, 65_537, 1 << 32, (1 << 32) + 1, usize::MAX - 1, usize::MAX]);
    list
}

/// Cycles from 0 on: all of Table 3's limits and one beside, the limits of a cycle, and others.
fn cycles(r: &mut Random) -> Vec<u16> {
    let mut list = vec![0, 1, 2, 120, 121, 179, 180, 181, 182, 255, 256, 257, 32_768, 65_535];
    for limit in TABLE_3 {
        list.push((limit + r.from_to(-1, 1)) as u16);
    }
    for _ in 0..10 {
        list.push(r.from_to(1, 180) as u16);
    }
    list
}

fn known_stream(junction: &Junction, stream: usize) -> Result<Kind, Refusal> {
    if stream < 1 || stream > junction.streams.len() {
        return Err(Refusal { number: 7, place: stream });
    }
    Ok(junction.stream(stream).kind)
}

fn model_figure_of_car(junction: &Junction, stream: usize, figure: fn(&model::junction::Car, u16) -> i64) -> Result<u32, Refusal> {
    match known_stream(junction, stream)? {
        Kind::Car(car) => Ok(figure(&car, junction.flow(stream).expect("question 9")) as u32),
        Kind::Tram(_) | Kind::Pedestrian(_) | Kind::Cyclist(_) | Kind::Island(_) => Err(Refusal { number: 7, place: stream }),
    }
}

/// For an island, the column of its need, by the larger quotient.
fn island_column(kind: &Kind) -> Option<&'static str> {
    match kind {
        Kind::Island(i) if packet_quotient(i) > crossing_quotient(&i.walk) => Some("need by packet"),
        Kind::Island(_) => Some("need by crossing"),
        Kind::Car(_) | Kind::Tram(_) | Kind::Pedestrian(_) | Kind::Cyclist(_) => None,
    }
}

const BY_FLOOR: &str = "zones by floor";

/// For a stop tram that clears l, the column of its leaving time, by the formula that decides it.
fn stop_tram_column(kind: &Kind, l: u16) -> Option<&'static str> {
    match kind {
        Kind::Tram(t) if t.from_stop && l <= 400 => Some("zones by (11)"),
        Kind::Tram(t) if t.from_stop && accelerating(t, 400).no_later_than(at_full_speed(l as i128)) => Some("zones by (11')"),
        Kind::Tram(t) if t.from_stop => Some(BY_FLOOR),
        Kind::Car(_) | Kind::Tram(_) | Kind::Pedestrian(_) | Kind::Cyclist(_) | Kind::Island(_) => None,
    }
}

/// Does a stream leave a zone of this junction by the floor?
fn has_floor(junction: &Junction) -> bool {
    let by_floor = |s: u8, l: u16| stop_tram_column(&junction.stream(s as usize).kind, l) == Some(BY_FLOOR);
    junction.zones.iter().any(|z| by_floor(z.a, z.clearing_a) || by_floor(z.b, z.clearing_b))
}

/// The leaving time of document 01, before request 2026-02.
fn leaving_without_floor(kind: &Kind, l: u16) -> Time {
    if stop_tram_column(kind, l) == Some(BY_FLOOR) { at_full_speed(l as i128) } else { leaving(kind, l) }
}

/// Would one second less be enough if (11') had no floor?
fn raised_by_floor(junction: &Junction, from: usize, to: usize, entry: u32) -> bool {
    let (leaves, reaches) = (&junction.stream(from).kind, &junction.stream(to).kind);
    let one_less = |(l, r)| leaving_without_floor(leaves, l).no_later_than(reaching(reaches, r).later(entry as i128 - 1));
    entry > 0 && zone_distances(junction, from, to).all(one_less)
}

/// The zones at which a stop tram leaves, by formula, and the entries that are greater by the floor.
fn count_stop_trams(hits: &mut Hits, junction: &Junction, from: usize, to: usize, entry: u32) {
    for (l, _) in zone_distances(junction, from, to) {
        if let Some(column) = stop_tram_column(&junction.stream(from).kind, l) {
            hits.hit(column, 0);
        }
    }
    if raised_by_floor(junction, from, to, entry) {
        hits.hit("raised by floor", 0);
    }
}

fn model_need_of(junction: &Junction, stream: usize, cycle: u16) -> Result<u32, Refusal> {
    let kind = known_stream(junction, stream)?;
    if cycle < 1 || cycle > 180 {
        return Err(Refusal { number: 13, place: 0 });
    }
    Ok(model_need(&kind, cycle as i64) as u32)
}

fn model_intergreen(junction: &Junction, entries: &Entries, from: usize, to: usize) -> Result<u32, Refusal> {
    known_stream(junction, from)?;
    known_stream(junction, to)?;
    Ok(entries.from_to(from, to) as u32)
}

/// All figures of one junction file that is taken.
fn check_figures(r: &mut Random, hits: &mut Hits, file: &[u8], known: &Known) {
    let lent = Lent::new(r, file);
    let (j, entries) = (known.read.as_ref().expect("taken"), known.entries.as_ref().expect("taken"));
    let numbers = stream_numbers(j.streams.len());
    for &from in &numbers {
        for &to in &numbers {
            let model = figure(model_intergreen(j, entries, from, to));
            same(&format!("intergreen from {from} to {to}"), intergreen(&lent, from, to), model, file, &[]);
            hits.hit("intergreen", model.refusal);
            if model.refusal == 0 {
                count_stop_trams(hits, j, from, to, model.value);
            }
        }
        let exists = (1..=j.streams.len()).contains(&from);
        for cycle in if exists { cycles(r) } else { vec![0, 50, 181] } {
            let model = figure(model_need_of(j, from, cycle));
            same(&format!("need of {from} at {cycle}"), need(&lent, from, cycle), model, file, &[]);
            hits.hit("need", model.refusal);
            if let Some(column) = known_stream(j, from).ok().and_then(|kind| island_column(&kind)) {
                hits.hit(column, model.refusal);
            }
        }
        let model = figure(model_figure_of_car(j, from, |car, _| saturation(car)));
        same(&format!("saturation_flow of {from}"), saturation_flow(&lent, from), model, file, &[]);
        hits.hit("saturation_flow", model.refusal);
        let model = figure(model_figure_of_car(j, from, y_of));
        same(&format!("flow_ratio of {from}"), flow_ratio(&lent, from), model, file, &[]);
        hits.hit("flow_ratio", model.refusal);
    }
    assert!(lent.as_lent(), "a figure's entry changed its file");
}

/// The junction's refusal comes first, whatever is asked.
fn check_refused_figures(r: &mut Random, hits: &mut Hits, file: &[u8], refusal: Refusal) {
    let lent = Lent::new(r, file);
    let model = figure(Err(refusal));
    let (from, to) = (r.pick(&[0, 1, 2, usize::MAX]), r.pick(&[0, 1, 2, usize::MAX]));
    same("intergreen", intergreen(&lent, from, to), model, file, &[]);
    same("need", need(&lent, from, r.pick(&[0, 50, 181])), model, file, &[]);
    same("saturation_flow", saturation_flow(&lent, from), model, file, &[]);
    same("flow_ratio", flow_ratio(&lent, from), model, file, &[]);
    assert!(lent.as_lent(), "a figure's entry changed its file");
    hits.hit("refused file", refusal.number);
}

#[test]
fn figures() {
    let mut r = Random::new(seed("figures", 13));
    let needs = ["need", "need by packet", "need by crossing"];
    let stop_trams = ["zones by (11)", "zones by (11')", BY_FLOOR];
    let others = ["saturation_flow", "flow_ratio", "refused file"];
    let mut hits = Hits::new(&[&["intergreen"], &stop_trams[..], &["raised by floor"], &needs, &others].concat());
    for _ in 0..5_000 {
        let file = if r.one_in(8) { limit_junction(&mut r) } else { rich_junction(&mut r) }.to_file();
        let file = if r.one_in(4) { at_the_limits(&mut r, &file) } else { file };
        let known = Known::of(&file);
        match known.read {
            Ok(_) => check_figures(&mut r, &mut hits, &file, &known),
            Err(refusal) => check_refused_figures(&mut r, &mut hits, &file, refusal),
        }
    }
    while JUNCTION.iter().any(|&n| hits.of("refused file", n) < 1_000) {
        let file = faulty_junction(&mut r);
        if let Err(refusal) = model::read_junction(&file) {
            check_refused_figures(&mut r, &mut hits, &file, refusal);
        }
    }
    hits.print();
    for name in ["intergreen", "need", "saturation_flow", "flow_ratio"] {
        hits.at_least(1_000, name, &[0, 7]);
    }
    for name in stop_trams {
        hits.at_least(3_000, name, &[0]);
    }
    hits.at_least(500, "raised by floor", &[0]);
    for name in needs {
        hits.at_least(1_000, name, &[0, 13]);
    }
    hits.at_least(1_000, "refused file", &JUNCTION);
}

// ---- delays

const LEVEL_COLUMNS: [&str; 6] = ["delay A", "delay B", "delay C", "delay D", "delay E", "delay F"];
const OTHER_COLUMNS: [&str; 3] = ["saturation", "no red", "no red, u 1"];
const FULL_COLUMNS: [&str; 3] = ["full, u below 1", "full, u 1", "full, u above 1"];
const LIMIT_COLUMNS: [&str; 5] = ["25 s", "35 s", "50 s", "70 s", "100 s"];

/// Streams of the junction, numbers that are none, and numbers whose last byte, two bytes or four bytes are a stream's.
fn asked_streams(streams: usize) -> Vec<usize> {
    let mut list = stream_numbers(streams);
    list.extend((1..=streams).flat_map(|s| [256 + s, 65_536 + s, (1 << 32) + s]));
    list
}

/// The columns of a car's answer: the outcome with its level, and what is met exactly, capacity or a level's limit.
fn delay_columns(junction: &Junction, plan: &Plan, stream: usize, answer: Delay) -> Vec<&'static str> {
    let Kind::Car(car) = junction.stream(stream).kind else { panic!("no car: {stream}") };
    let (s, flow, length) = (saturation(&car), junction.flow(stream).expect("question 9"), plan.green(stream).length);
    let mut columns = match answer {
        Delay::Seconds(_) => vec![LEVEL_COLUMNS[answer.level() as usize - 'A' as usize]],
        Delay::Oversaturated(_) => vec![OTHER_COLUMNS[0]],
        Delay::NoRed => vec![OTHER_COLUMNS[1]],
    };
    let u = delay_figures(length, plan.cycle, flow, s).u;
    if answer == Delay::NoRed && u >= 1.0 {
        columns.push(OTHER_COLUMNS[2]);
    }
    if answer != Delay::NoRed && flow as i64 * plan.cycle as i64 == s * (length as i64 + 1) {
        columns.push(FULL_COLUMNS[if u < 1.0 { 0 } else if u == 1.0 { 1 } else { 2 }]);
    }
    if let Some(limit) = LEVELS.iter().position(|level| answer == Delay::Seconds(level.0)) {
        columns.push(LIMIT_COLUMNS[limit]);
    }
    columns
}

/// The delay of each of these streams.
fn check_delays(hits: &mut Hits, sorts: &mut Hits, junction: &Lent, plan: &Lent, known: &Known, streams: &[usize]) {
    let accepted = known.accepted(plan.bytes());
    for &stream in streams {
        let model = accepted.as_ref().map_err(|e| *e).and_then(|(j, plan)| delay_when_accepted(j, plan, stream));
        let wanted = delayed(model);
        same(&format!("delay of {stream}"), delay(junction, plan, stream), wanted, junction.bytes(), plan.bytes());
        let column = match &accepted {
            Ok((j, _)) if (1..=j.streams.len()).contains(&stream) => "accepted, stream",
            Ok(_) => "accepted, none",
            Err(_) if (1..=16).contains(&stream) => "refused, 1 to 16",
            Err(_) => "refused, others",
        };
        hits.hit(column, wanted.refusal);
        if let (Ok((j, plan)), Ok(answer)) = (&accepted, model) {
            delay_columns(j, plan, stream, answer).iter().for_each(|column| sorts.hit(column, 0));
        }
    }
}

/// Where the plan is accepted, all numbers; else one of the streams and one of all.
fn check_delays_of_plan(r: &mut Random, hits: &mut Hits, sorts: &mut Hits, junction: &Lent, plan: &[u8], known: &Known) {
    let streams = known.read.as_ref().map_or(2, |j| j.streams.len());
    let all = asked_streams(streams);
    let two = [r.from_to(1, streams as i64) as usize, r.pick(&all)];
    let asked = if known.judge(plan).is_ok() { &all[..] } else { &two };
    check_delays(hits, sorts, junction, &Lent::new(r, plan), known, asked);
    // the model over the files
    let stream = r.pick(&all);
    let answer = delay(junction, &Lent::new(r, plan), stream);
    same("delay over the files", answer, delayed(model::delay(junction.bytes(), plan, stream)), junction.bytes(), plan);
}

/// Cars with a load on purpose, plans of every sort for junctions with zones, and junctions that are refused.
#[test]
fn delays() {
    let mut r = Random::new(seed("delays", 28));
    let mut hits = Hits::new(&["accepted, stream", "accepted, none", "refused, 1 to 16", "refused, others"]);
    let mut sorts = Hits::new(&[&LEVEL_COLUMNS[..], &OTHER_COLUMNS, &FULL_COLUMNS, &LIMIT_COLUMNS].concat());
    for _ in 0..16_000 {
        let (junction, plan) = loaded_junction(&mut r);
        let known = Known::of(&junction.to_file());
        let file = Lent::new(&mut r, &junction.to_file());
        // a second less or more is often refused
        for plan in [moved(&mut r, &plan), plan] {
            check_delays_of_plan(&mut r, &mut hits, &mut sorts, &file, &plan.to_file(), &known);
        }
    }
    let mut other = vec![];
    for _ in 0..4_000 {
        let junction = if r.one_in(12) { limit_junction(&mut r) } else { rich_junction(&mut r) };
        let known = Known::of(&junction.to_file());
        let file = Lent::new(&mut r, &junction.to_file());
        for i in 0..6 {
            let good = some_plan(&mut r, &junction, &known).to_file();
            let plan = if i % 3 == 0 { good.clone() } else { faulty_plan(&mut r, &good, &other) };
            check_delays_of_plan(&mut r, &mut hits, &mut sorts, &file, &plan, &known);
            other = good;
        }
    }
    while JUNCTION.iter().any(|&n| hits.of("refused, others", n) < 1_000) {
        let file = faulty_junction(&mut r);
        if let Err(refusal) = model::read_junction(&file) {
            let known = Known { read: Err(refusal), entries: None, worked: Err(refusal) };
            let file = Lent::new(&mut r, &file);
            check_delays_of_plan(&mut r, &mut hits, &mut sorts, &file, &other, &known);
        }
    }
    hits.print();
    sorts.print();
    hits.at_least(10_000, "accepted, stream", &[0, 9]);
    hits.at_least(10_000, "accepted, none", &[9]);
    for column in ["refused, 1 to 16", "refused, others"] {
        hits.at_least(1_000, column, &JUNCTION);
        hits.at_least(1_000, column, &[11, 12, 13, 15, 16, 17]);
    }
    for column in [&LEVEL_COLUMNS[..], &OTHER_COLUMNS, &FULL_COLUMNS].concat() {
        sorts.at_least(1_000, column, &[0]);
    }
    for column in LIMIT_COLUMNS {
        sorts.at_least(100, column, &[0]);
    }
}

// ---- offsets along a street

/// Every answer; those to an offset that is not below the number in the cycle's place, so that 24 could be given too soon; and
/// what the judge says of the plans that were shifted.
const SHIFT_COLUMNS: [&str; 3] = ["shift", "too large", "shifted, judged"];
/// The starts that were moved, by start + offset.
const SUM_COLUMNS: [&str; 4] = ["sum below C", "sum C", "sum above C", "sum above 255"];
/// The answers 24 to an offset that is below C if it is cut.
const CUT_COLUMNS: [&str; 4] = ["cut to 8 bits", "cut to 16 bits", "cut to 32 bits", "cut to 63 bits"];

/// The number in the cycle's place of a plan file of any sort; 50 where the file has none.
fn number_of_cycle(plan: &[u8]) -> usize {
    if plan.len() < 5 { 50 } else { two(plan, 3) as usize }
}

/// An offset for a plan file: below the cycle, at 0, at the cycle or beside these, such that a start comes to C, below the cycle
/// but for higher bits, or any.
fn some_offset(r: &mut Random, plan: &[u8]) -> usize {
    let cycle = number_of_cycle(plan);
    let below = r.from_to(0, cycle.clamp(1, 180) as i64 - 1) as usize;
    match r.from_to(1, 20) {
        1 => 0,
        2 => 1,
        3 => cycle.saturating_sub(1),
        4 => cycle,
        5 => cycle + 1,
        6 if plan.len() >= 13 => {
            let stream = r.from_to(1, (plan.len() as i64 - 5) / 8) as usize;
            cycle.saturating_sub(two(plan, start_of(stream)) as usize)
        }
        7 => 256 + below,
        8 => 65_536 + below,
        9 => (1 << 32) + below,
        10 => (1 << 63) + below,
        11 => (1 << r.from_to(8, 63)) + below,
        12 => usize::MAX,
        13 => r.any() as usize,
        14 => r.from_to(0, 400) as usize,
        _ => below,
    }
}

/// One offset for all starts: the answer, and every byte of the plan file. The number of the refusal.
fn check_shift(junction: &Lent, plan: &mut Lent, offset: usize, known: &Known) -> u8 {
    let before = plan.bytes().to_vec();
    let mut wanted = before.clone();
    let model = judged(known.shift(&mut wanted, offset));
    same(&format!("shift by {offset}"), shift(junction, plan, offset), model, junction.bytes(), &before);
    same(&format!("the plan file after a shift by {offset}"), plan.bytes(), &wanted[..], junction.bytes(), &before);
    model.refusal
}

/// The same with any offset; of a plan that is shifted, the library's judge says the same before and after.
fn check_shifting(r: &mut Random, hits: &mut Hits, junction: &Lent, plan: &[u8], known: &Known) {
    let offset = some_offset(r, plan);
    let mut lent = Lent::new(r, plan);
    let refusal = check_shift(junction, &mut lent, offset, known);
    count_shift(hits, number_of_cycle(plan), offset, refusal);
    if refusal == 0 {
        let (before, after) = (Lent::new(r, plan), Lent::new(r, lent.bytes()));
        let judgement = judge(junction, &before);
        same(&format!("judge after a shift by {offset}"), judge(junction, &after), judgement, junction.bytes(), plan);
        hits.hit("shifted, judged", judgement.refusal);
        count_sums(hits, plan, offset);
    }
    // the model over the files
    if r.one_in(8) {
        let (mut lent, mut wanted) = (Lent::new(r, plan), plan.to_vec());
        let model = judged(model::shift(junction.bytes(), &mut wanted, offset));
        same("shift over the files", shift(junction, &mut lent, offset), model, junction.bytes(), plan);
        same("the plan file after a shift over the files", lent.bytes(), &wanted[..], junction.bytes(), plan);
    }
}

/// The answer to an offset, by what is large or cut in it.
fn count_shift(hits: &mut Hits, cycle: usize, offset: usize, refusal: u8) {
    hits.hit("shift", refusal);
    if offset >= cycle {
        hits.hit("too large", refusal);
    }
    for (column, bits) in CUT_COLUMNS.iter().zip([8, 16, 32, 63]) {
        if refusal == 24 && offset % (1 << bits) < cycle {
            hits.hit(column, refusal);
        }
    }
}

/// The starts of a plan that was shifted; an offset of 0 moves none.
fn count_sums(hits: &mut Hits, plan: &[u8], offset: usize) {
    if offset == 0 {
        return;
    }
    let cycle = number_of_cycle(plan);
    for stream in 1..=(plan.len() - 5) / 8 {
        let sum = two(plan, start_of(stream)) as usize + offset;
        hits.hit(SUM_COLUMNS[if sum < cycle { 0 } else if sum == cycle { 1 } else { 2 }], 0);
        if sum > 255 {
            hits.hit(SUM_COLUMNS[3], 0);
        }
    }
}

/// Every start in every cycle by every offset below the cycle, and by those at and above it.
#[test]
fn every_start_and_offset() {
    let mut r = Random::new(seed("every_start_and_offset", 29));
    let mut hits = Hits::new(&["shift"]);
    let junction = make_junction(&mut r, 3, 16, 0, 1);
    let known = Known::of(&junction.to_file());
    let file = Lent::new(&mut r, &junction.to_file());
    for cycle in 1..=180usize {
        for first in (0..cycle).step_by(16) {
            let mut plan = any_plan(&mut r, &junction);
            plan.cycle = cycle as u16;
            for (i, green) in plan.greens.iter_mut().enumerate() {
                green.start = ((first + i) % cycle) as u16;
                green.length = r.from_to(1, cycle as i64) as u16;
            }
            for offset in (0..=cycle + 1).chain([256, 65_536, 1 << 32, 1 << 63, usize::MAX]) {
                let mut plan = Lent::new(&mut r, &plan.to_file());
                hits.hit("shift", check_shift(&file, &mut plan, offset, &known));
            }
        }
    }
    hits.print();
    hits.at_least(100_000, "shift", &[0]);
    hits.at_least(1_000, "shift", &[24]);
}

/// Two junction files that differ in what no shift looks at: the same answer, and the same bytes afterwards.
fn same_shift(r: &mut Random, hits: &mut Hits, what: &str, one: &Lent, two: &Lent, plan: &[u8]) {
    let offset = some_offset(r, plan);
    let (mut a, mut b) = (Lent::new(r, plan), Lent::new(r, plan));
    let answer = shift(one, &mut a, offset);
    same(&format!("shift by {offset} with {what}"), shift(two, &mut b, offset), answer, two.bytes(), plan);
    same(&format!("the plan file after a shift by {offset} with {what}"), b.bytes(), a.bytes(), two.bytes(), plan);
    hits.hit("shift", answer.refusal);
}

// ---- file days

/// Other file days, and no answer of any entry changes.
#[test]
fn file_days() {
    let mut r = Random::new(seed("file_days", 14));
    let mut hits = Hits::new(&["judge", "delay", "shift", "work_out"]);
    for _ in 0..4_000 {
        let junction = if r.one_in(12) { limit_junction(&mut r) } else { rich_junction(&mut r) };
        let mut other = junction.clone();
        for c in &mut other.counts {
            c.file_day = r.pick(&[0, c.count_day, c.count_day.wrapping_add(1), junction.design_day, 65_535]);
        }
        let plan = packed_plan(&mut r, &junction, &Entries::of(&junction)).to_file();
        let plan = if r.one_in(8) { damaged(&mut r, &plan) } else { plan };
        let (one, two) = (Lent::new(&mut r, &junction.to_file()), Lent::new(&mut r, &other.to_file()));
        let plan = Lent::new(&mut r, &plan);
        let answer = judge(&one, &plan);
        same("judge with other file days", judge(&two, &plan), answer, one.bytes(), plan.bytes());
        hits.hit("judge", answer.refusal);
        for s in 0..=junction.streams.len() {
            let answer = delay(&one, &plan, s);
            same("delay with other file days", delay(&two, &plan, s), answer, one.bytes(), plan.bytes());
            hits.hit("delay", answer.refusal);
        }
        same_shift(&mut r, &mut hits, "other file days", &one, &two, plan.bytes());
        same("read_junction with other file days", read_junction(&two), read_junction(&one), one.bytes(), &[]);
        let (mut a, mut b) = (Lent::new(&mut r, &[7; 133]), Lent::new(&mut r, &[7; 133]));
        let answer = work_out(&one, &mut a);
        same("work_out with other file days", work_out(&two, &mut b), answer, one.bytes(), &[]);
        same("the plan with other file days", b.bytes(), a.bytes(), one.bytes(), &[]);
        hits.hit("work_out", answer.refusal);
        for s in 1..=junction.streams.len() {
            let t = r.from_to(1, junction.streams.len() as i64) as usize;
            let cycle = r.from_to(1, 180) as u16;
            same("intergreen with other file days", intergreen(&two, s, t), intergreen(&one, s, t), one.bytes(), &[]);
            same("need with other file days", need(&two, s, cycle), need(&one, s, cycle), one.bytes(), &[]);
            same("saturation_flow with other file days", saturation_flow(&two, s), saturation_flow(&one, s), one.bytes(), &[]);
            same("flow_ratio with other file days", flow_ratio(&two, s), flow_ratio(&one, s), one.bytes(), &[]);
        }
    }
    hits.print();
    hits.at_least(1_000, "judge", &[0]);
    hits.at_least(1_000, "delay", &[0, 9]);
    hits.at_least(1_000, "shift", &[0, 24]);
    hits.at_least(1_000, "work_out", &[0]);
}

// ---- periods

/// The junction with other counts of other periods than the one planned, and what was done with them.
fn with_other_counts(r: &mut Random, junction: &Junction) -> (&'static str, Junction) {
    match r.from_to(1, 4) {
        1 => ("changed", others_changed(r, junction)),
        2 => ("added", others_added(r, junction)),
        3 => ("removed", others_removed(r, junction)),
        _ => {
            let fewer = others_removed(r, junction);
            let more = others_added(r, &fewer);
            ("all three", others_changed(r, &more))
        }
    }
}

/// Other counts of other periods than the one planned, more of them or fewer, and no answer of any entry changes: only the number of
/// counts is the file's own.
#[test]
fn other_periods() {
    let mut r = Random::new(seed("other_periods", 20));
    let sorts = ["changed", "added", "removed", "all three"];
    let entries = ["judge", "delay", "shift", "work_out", "intergreen", "need", "saturation_flow", "flow_ratio"];
    // where the answers would differ if the periods of the counts were not looked at
    let without = ["judge, without", "delay, without", "worked, without", "ratio, without"];
    let mut hits = Hits::new(&[&sorts[..], &entries, &without].concat());
    let mut pairs = 0;
    while pairs < 6_000 {
        let junction = if r.one_in(12) { limit_junction(&mut r) } else { rich_junction(&mut r) };
        let (sort, other) = with_other_counts(&mut r, &junction);
        if other == junction {
            continue;
        }
        pairs += 1;
        hits.hit(sort, 0);
        let known = Known::of(&junction.to_file());
        let (one, two) = (Lent::new(&mut r, &junction.to_file()), Lent::new(&mut r, &other.to_file()));
        let (plain, plain_other) = (without_periods(&junction).to_file(), without_periods(&other).to_file());
        let (plain, plain_other) = (Known::of(&plain), Known::of(&plain_other));
        same_to_the_count("read_junction", &junction, &other, &one, &two);
        for _ in 0..3 {
            let plan = some_plan(&mut r, &junction, &known).to_file();
            let plan = if r.one_in(8) { damaged(&mut r, &plan) } else { plan };
            let plan = Lent::new(&mut r, &plan);
            let answer = judge(&one, &plan);
            same("judge with other counts of other periods", judge(&two, &plan), answer, two.bytes(), plan.bytes());
            hits.hit("judge", answer.refusal);
            if plain.judge(plan.bytes()) != plain_other.judge(plan.bytes()) {
                hits.hit("judge, without", answer.refusal);
            }
            for s in 0..=junction.streams.len() {
                let answer = delay(&one, &plan, s);
                same("delay with other counts of other periods", delay(&two, &plan, s), answer, two.bytes(), plan.bytes());
                hits.hit("delay", answer.refusal);
                if answer.refusal == 0 && plain.read.as_ref().map(|j| j.flow(s)) != plain_other.read.as_ref().map(|j| j.flow(s)) {
                    hits.hit("delay, without", answer.refusal);
                }
            }
            same_shift(&mut r, &mut hits, "other counts of other periods", &one, &two, plan.bytes());
        }
        let size = 5 + 8 * junction.streams.len();
        let size = r.pick(&[size - 1, size, size + 9, size + 9, size + 9]);
        let (mut a, mut b) = (Lent::new(&mut r, &vec![7; size]), Lent::new(&mut r, &vec![7; size]));
        let answer = work_out(&one, &mut a);
        same("work_out with other counts of other periods", work_out(&two, &mut b), answer, two.bytes(), &[]);
        same("the plan with other counts of other periods", b.bytes(), a.bytes(), two.bytes(), &[]);
        hits.hit("work_out", answer.refusal);
        if plain.worked != plain_other.worked {
            hits.hit("worked, without", answer.refusal);
        }
        for s in stream_numbers(junction.streams.len()) {
            let t = r.from_to(0, junction.streams.len() as i64 + 1) as usize;
            let cycle = r.from_to(0, 181) as u16;
            let answers = [&one, &two].map(|file| {
                [intergreen(file, s, t), need(file, s, cycle), saturation_flow(file, s), flow_ratio(file, s)]
            });
            let what = format!("figures with other counts of other periods, stream {s}, to {t}, cycle {cycle}");
            same(&what, answers[1], answers[0], two.bytes(), &[]);
            for (name, answer) in entries[4..].iter().zip(answers[0]) {
                hits.hit(name, answer.refusal);
            }
            if junction.streams.get(s.wrapping_sub(1)).is_some_and(|stream| stream.is_car())
                && without_periods(&junction).flow(s) != without_periods(&other).flow(s)
            {
                hits.hit("ratio, without", answers[0][3].refusal);
            }
        }
        assert!(one.as_lent() && two.as_lent(), "a figure's entry changed its file");
    }
    println!("{pairs} pairs of junction files");
    hits.print();
    for name in sorts {
        hits.at_least(500, name, &[0]);
    }
    hits.at_least(1_000, "judge", &[0, 15, 16, 17]);
    hits.at_least(1_000, "work_out", &[0]);
    hits.at_least(100, "work_out", &[21, 22, 23]);
    for name in ["intergreen", "need", "saturation_flow", "flow_ratio"] {
        hits.at_least(1_000, name, &[0, 7]);
    }
    hits.at_least(1_000, "delay", &[0, 9, 15, 16, 17]);
    hits.at_least(1_000, "shift", &[0, 24]);
    hits.at_least(500, "judge, without", &[0]);
    hits.at_least(1_000, "delay, without", &[0]);
    hits.at_least(500, "worked, without", &[0]);
    hits.at_least(1_000, "ratio, without", &[0]);
}

/// The two files are answered alike, but for the number of counts.
fn same_to_the_count(what: &str, junction: &Junction, other: &Junction, one: &Lent, two: &Lent) {
    let (answer, again) = (read_junction(one), read_junction(two));
    same(what, (answer.counts, again.counts), (junction.counts.len(), other.counts.len()), one.bytes(), &[]);
    same(what, JunctionAnswer { counts: answer.counts, ..again }, answer, two.bytes(), &[]);
}

// ---- distances

/// Other distances in every zone of the pair, where the direction from one stream to the other does not use them: that goes by the clearing
/// distance of the one that leaves and the reaching distance of the one that comes.
fn with_other_distances(r: &mut Random, junction: &Junction, from: u8, to: u8) -> Junction {
    let mut other = junction.clone();
    for z in &mut other.zones {
        let (reaching, clearing) = (r.from_to(0, 999) as u16, r.from_to(0, 999) as u16);
        if (z.a, z.b) == (from, to) {
            (z.reaching_a, z.clearing_b) = (reaching, clearing);
        } else if (z.b, z.a) == (from, to) {
            (z.reaching_b, z.clearing_a) = (reaching, clearing);
        }
    }
    other
}

/// Other distances of the one direction, and the intergreen of the other does not change.
#[test]
fn distances_of_one_direction() {
    let mut r = Random::new(seed("distances_of_one_direction", 19));
    let mut hits = Hits::new(&["intergreen", "several zones", "back changes"]);
    while hits.of("intergreen", 0) < 20_000 {
        let junction = if r.one_in(12) { limit_junction(&mut r) } else { rich_junction(&mut r) };
        if junction.zones.is_empty() {
            continue;
        }
        let zone = r.pick(&junction.zones);
        let (from, to) = if r.one_in(2) { (zone.a, zone.b) } else { (zone.b, zone.a) };
        let other = with_other_distances(&mut r, &junction, from, to);
        let (from, to) = (from as usize, to as usize);
        let (one, two) = (Lent::new(&mut r, &junction.to_file()), Lent::new(&mut r, &other.to_file()));
        let answer = intergreen(&two, from, to);
        same("intergreen with other distances of the other direction", answer, intergreen(&one, from, to), one.bytes(), &[]);
        same("intergreen", answer, figure(Ok(entry(&other, from, to) as u32)), two.bytes(), &[]);
        hits.hit("intergreen", answer.refusal);
        if zone_distances(&junction, from, to).count() > 1 {
            hits.hit("several zones", answer.refusal);
        }
        if intergreen(&two, to, from) != intergreen(&one, to, from) {
            hits.hit("back changes", answer.refusal);
        }
    }
    hits.print();
    hits.at_least(5_000, "several zones", &[0]);
    hits.at_least(10_000, "back changes", &[0]);
}

// ---- road works with portable signals

/// What is seen where a cycle is looked for: what failed first at the length before it or, without one, at 180; T0; the second left
/// over; and which waiting length is not above the needed one, or is equal to it.
const SEARCH_COLUMNS: [&str; 11] = [
    "after a green", "after a need", "after a capacity", "T0 180", "T0 181", "a second left", "no second left", "short 1", "short 2",
    "equal 1", "equal 2",
];
/// The numbers by which road works differ from accepted ones.
const NUMBER_COLUMNS: [&str; NUMBERS] = ["stretch", "speed", "flow 1", "S 1", "waiting 1", "flow 2", "S 2", "waiting 2"];

/// The library's answer is the model's; the number of the refusal.
fn check_works(hits: &mut Hits, works: &Works) -> u8 {
    let model = portable_answer(&model::portable(works));
    same_works("portable", portable(works), model, works);
    hits.hit("portable", model.refusal);
    model.refusal
}

/// How the cycle was found, or why there is none.
fn count_search(hits: &mut Hits, works: &Works, refusal: u8) {
    if [21, 25, 26].contains(&refusal) {
        return;
    }
    let phases = phases(works);
    let y = phases.iter().map(|p| p.y).sum();
    let l = lost_time_at(&phases);
    let t0 = first_length_by(enough_by_32, y, l);
    if [180, 181].contains(&t0) {
        hits.hit(if t0 == 180 { "T0 180" } else { "T0 181" }, refusal);
    }
    let found = cycle_of(works);
    let before = found.as_ref().map_or(180, |c| c.cycle - 1);
    if before >= t0 {
        hits.hit(
            match greens_at(&phases, before) {
                None => "after a green",
                Some(greens) if !needs_met([greens[0], greens[1]]) => "after a need",
                Some(greens) => {
                    assert!(!capacities_met(works, before, [greens[0], greens[1]]), "{works:?}");
                    "after a capacity"
                }
            },
            refusal,
        );
    }
    let Ok(found) = found else { return };
    let whole_shares = phases.iter().all(|p| p.y * (found.cycle - l) % y == 0);
    hits.hit(if whole_shares { "no second left" } else { "a second left" }, refusal);
    let waiting = works.approaches.map(|a| (whole(a.waiting as i128), needed_waiting(&a, found.cycle)));
    for (i, (available, needed)) in waiting.into_iter().enumerate() {
        // where the other approach is no reason for 27
        let other = waiting[1 - i];
        if available <= needed && other.0 > other.1 {
            hits.hit(["short 1", "short 2"][i], refusal);
            if available == needed {
                hits.hit(["equal 1", "equal 2"][i], refusal);
            }
        }
    }
}

/// Where a number that is cut would be answered otherwise.
fn count_cuts(hits: &mut Hits, works: &Works, refusal: u8) {
    for (column, bits) in CUT_COLUMNS.iter().zip([8, 16, 32, 63]) {
        for (which, number) in works.numbers().into_iter().enumerate() {
            if number >> bits > 0 && [0, 1, 4, 7].contains(&which) | (number > 9_999) {
                let mut cut = works.numbers();
                cut[which] %= 1 << bits;
                if number_and_place(&model::portable(&Works::of(cut))).0 != refusal {
                    hits.hit(column, refusal);
                }
            }
        }
    }
}

/// Road works of every sort, and each number of accepted ones changed in turn.
#[test]
fn road_works() {
    let mut r = Random::new(seed("road_works", 33));
    let mut hits = Hits::new(&[&["portable"][..], &CUT_COLUMNS, &NUMBER_COLUMNS].concat());
    let mut searches = Hits::new(&SEARCH_COLUMNS);
    for _ in 0..WORKS {
        let works = some_works(&mut r);
        let refusal = check_works(&mut hits, &works);
        count_search(&mut searches, &works, refusal);
        count_cuts(&mut hits, &works, refusal);
        if refusal == 0 && r.one_in(20) {
            for (which, column) in NUMBER_COLUMNS.iter().enumerate() {
                let number = works.numbers()[which];
                let beside = [0, number.saturating_sub(1), number.saturating_add(1), number.saturating_add(10), number.saturating_sub(10)];
                let wider = [8, 16, 32, 63].map(|bits| number ^ (1 << bits));
                let other = other_number(&mut r, number);
                for to in beside.into_iter().chain(wider).chain([9_999, 10_000, usize::MAX, other]) {
                    let mut numbers = works.numbers();
                    numbers[which] = to;
                    let refusal = check_works(&mut hits, &Works::of(numbers));
                    hits.hit(column, refusal);
                }
            }
        }
    }
    hits.print();
    searches.print();
    hits.at_least(20_000, "portable", &[0]);
    hits.at_least(1_000, "portable", &[21, 22, 25, 26, 27]);
    for column in CUT_COLUMNS {
        hits.at_least(1_000, column, &[0, 25, 26]);
    }
    for column in ["stretch", "speed"] {
        hits.at_least(1_000, column, &[0, 25]);
    }
    for column in ["flow 1", "S 1", "flow 2", "S 2"] {
        hits.at_least(1_000, column, &[0, 26]);
        hits.at_least(200, column, &[21]);
    }
    for column in ["waiting 1", "waiting 2"] {
        hits.at_least(1_000, column, &[0, 27]);
    }
    searches.at_least(1_000, "after a green", &[22]);
    searches.at_least(1_000, "after a need", &[0, 22, 27]);
    searches.at_least(200, "after a capacity", &[0]);
    searches.at_least(50, "after a capacity", &[22]);
    searches.at_least(200, "T0 180", &[0]);
    searches.at_least(200, "T0 181", &[22]);
    searches.at_least(1_000, "a second left", &[0, 27]);
    searches.at_least(1_000, "no second left", &[0, 27]);
    for column in ["short 1", "short 2", "equal 1", "equal 2"] {
        searches.at_least(1_000, column, &[27]);
    }
}

const WORKS: usize = 200_000;

/// Every place of the annex's table, with flows of every sort.
#[test]
fn every_stretch_and_speed() {
    let mut r = Random::new(seed("every_stretch_and_speed", 34));
    let mut hits = Hits::new(&["portable"]);
    for stretch in stretches() {
        for speed in SPEEDS {
            let least = hits.of("portable", 0) + 20;
            check_works(&mut hits, &Works::of([stretch, speed, 90, 1_800, 200, 60, 1_500, 200]));
            while hits.of("portable", 0) < least {
                check_works(&mut hits, &Works { stretch, speed, ..listed_works(&mut r) });
            }
        }
    }
    // every stretch and speed beside them
    for stretch in 0..=700 {
        for speed in 0..=320 {
            check_works(&mut hits, &Works::of([stretch, speed, 90, 1_800, 200, 60, 1_500, 200]));
        }
    }
    hits.print();
    hits.at_least(30 * 4 * 21, "portable", &[0]);
    hits.at_least(701 * 321 - 120, "portable", &[25]);
}

/// The library's planner and its answer for road works are one: the same S, flows and M give the same cycle and greens.
#[test]
fn road_works_as_junctions() {
    let mut r = Random::new(seed("road_works_as_junctions", 35));
    let mut hits = Hits::new(&["portable"]);
    for _ in 0..8_000 {
        let (works, junction) = works_as_junction(&mut r);
        let answer = portable(&works);
        let file = Lent::new(&mut r, &junction.to_file());
        let mut buffer = Lent::new(&mut r, &[0; 21]);
        let planned = work_out(&file, &mut buffer);
        same_works("portable and work_out", (answer.refusal, answer.cycle), (planned.refusal, planned.cycle), &works);
        if answer.refusal == 0 {
            let plan = read_plan(buffer.bytes(), &junction).expect("well-formed");
            let greens = [(answer.first_start, answer.first_length), (answer.second_start, answer.second_length)];
            same_works("greens", greens, [1, 2].map(|s| (plan.green(s).start, plan.green(s).length)), &works);
        }
        hits.hit("portable", answer.refusal);
    }
    hits.print();
    hits.at_least(1_000, "portable", &[0]);
    hits.at_least(200, "portable", &[21, 22]);
}
