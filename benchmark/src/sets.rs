//! The files that are asked about, table by table, with the answer that the model states for each.
use model::generate::{any_plan, limit_junction, make_junction, moved, packed_plan, rich_junction, turned};
use model::judge::rules;
use model::junction::{Car, Count, Cyclist, Junction, Kind, Pedestrian, Stream};
use model::plan::Plan;
use model::random::Random;
use model::times::Entries;
use model::work_out::{search, Worked};
use model::{read_junction, Refusal};

#[derive(Clone, Copy)]
pub enum Task {
    Read,
    WorkOut,
    Judge,
}

impl Task {
    pub const ALL: [Task; 3] = [Task::Read, Task::WorkOut, Task::Judge];
}

/// One call. To judge, `plan` is the plan file that is judged; to work out, the one that the model writes, empty where it refuses; to read, empty.
#[derive(Clone)]
pub struct Case {
    pub junction: Vec<u8>,
    pub plan: Vec<u8>,
    /// The number of the model's refusal, 0 where there is none.
    pub refusal: u8,
}

/// A row of a table.
pub struct Set {
    pub row: String,
    pub task: Task,
    pub cases: Vec<Case>,
}

pub struct Table {
    pub head: String,
    pub sets: Vec<Set>,
}

/// How many files are drawn.
#[derive(Clone, Copy)]
pub struct Amount {
    /// Of mixed junctions at least.
    pub mixed: usize,
    /// Of common junctions.
    pub common: usize,
    /// Of full junctions.
    pub full: usize,
    /// Of junctions for a row of the tables by streams, zones and lengths, at most.
    pub of_shape: usize,
}

// ---- what the model states

fn number<T>(answer: &Result<T, Refusal>) -> u8 {
    answer.as_ref().err().map_or(0, |refusal| refusal.number)
}

fn read(junction: &Junction) -> Case {
    let file = junction.to_file();
    let refusal = number(&read_junction(&file));
    Case { junction: file, plan: vec![], refusal }
}

fn worked_out(junction: &Junction, worked: &Result<Worked, Refusal>) -> Case {
    let plan = worked.as_ref().map_or(vec![], |w| w.plan.to_file());
    Case { junction: junction.to_file(), plan, refusal: number(worked) }
}

fn judged(junction: &Junction, plan: &Plan, entries: &Entries) -> Case {
    Case { junction: junction.to_file(), plan: plan.to_file(), refusal: number(&rules(junction, plan, entries)) }
}

fn answer(task: Task, refusal: u8) -> String {
    match (task, refusal) {
        (Task::Read, 0) => "taken".to_string(),
        (Task::WorkOut, 0) => "a plan".to_string(),
        (Task::Judge, 0) => "accepted".to_string(),
        (_, number) => format!("refused {number}"),
    }
}

fn set(doing: &str, task: Task, cases: Vec<Case>) -> Set {
    Set { row: format!("{doing}, {}", answer(task, 0)), task, cases }
}

/// A row for each of these answers, and one of all files in the order in which they were drawn.
fn by_answer(head: &str, task: Task, cases: Vec<Case>, refusals: &[u8]) -> Table {
    let of = |refusal: u8| cases.iter().filter(|c| c.refusal == refusal).cloned().collect();
    let mut sets: Vec<Set> = refusals.iter().map(|&n| Set { row: answer(task, n), task, cases: of(n) }).collect();
    sets.push(Set { row: "all".to_string(), task, cases });
    Table { head: head.to_string(), sets }
}

// ---- mixed files

const TO_WORK_OUT: [u8; 3] = [0, 21, 22];
const TO_JUDGE: [u8; 4] = [0, 15, 16, 17];

/// Files that are taken, as the tests make them, and for each some well-formed plans: at least so many junctions, and more until each answer
/// has come.
fn mixed(r: &mut Random, least: usize) -> [Table; 3] {
    let (mut files, mut junctions, mut plans): (Vec<Case>, Vec<Case>, Vec<Case>) = (vec![], vec![], vec![]);
    let came = |cases: &[Case], numbers: &[u8]| numbers.iter().all(|&n| cases.iter().any(|c| c.refusal == n));
    while junctions.len() < least || !came(&junctions, &TO_WORK_OUT) || !came(&plans, &TO_JUDGE) {
        let j = if r.one_in(10) { limit_junction(r) } else { rich_junction(r) };
        let entries = Entries::of(&j);
        let worked = search(&j, &entries);
        files.push(read(&j));
        junctions.push(worked_out(&j, &worked));
        let plan = worked.map_or_else(|_| packed_plan(r, &j, &entries), |w| w.plan);
        let by = r.from_to(0, plan.cycle as i64 - 1) as u16;
        for plan in [moved(r, &plan), turned(&plan, by), any_plan(r, &j), plan] {
            plans.push(judged(&j, &plan, &entries));
        }
    }
    [
        Table { head: "mixed junctions".to_string(), sets: vec![set("read", Task::Read, files)] },
        by_answer("mixed junctions, worked out", Task::WorkOut, junctions, &TO_WORK_OUT),
        by_answer("plans of mixed junctions, judged", Task::Judge, plans, &TO_JUDGE),
    ]
}

// ---- files with a plan

/// Junctions that have a plan, read and worked out, and their plans judged.
fn with_plan(r: &mut Random, head: &str, amount: usize, draw: impl Fn(&mut Random) -> Junction) -> Table {
    let (mut files, mut junctions, mut plans) = (vec![], vec![], vec![]);
    while junctions.len() < amount {
        let j = draw(r);
        let entries = Entries::of(&j);
        let worked = search(&j, &entries);
        if let Ok(w) = &worked {
            files.push(read(&j));
            junctions.push(worked_out(&j, &worked));
            plans.push(judged(&j, &w.plan, &entries));
        }
    }
    let sets = vec![
        set("read", Task::Read, files),
        set("worked out", Task::WorkOut, junctions),
        set("judged", Task::Judge, plans),
    ];
    Table { head: head.to_string(), sets }
}

fn common_junction(r: &mut Random) -> Junction {
    let (phases, streams, zones) = (r.from_to(2, 4), r.from_to(6, 12), r.from_to(10, 30));
    make_junction(r, phases, streams, zones, 2)
}

/// Not every junction that the generator draws has 128 counts.
fn full_junction(r: &mut Random) -> Junction {
    loop {
        let phases = r.from_to(2, 4);
        let j = make_junction(r, phases, 16, 64, 128);
        if j.counts.len() == 128 {
            return j;
        }
    }
}

// ---- files by streams, zones and lengths tried

/// Some junctions of one shape that have a plan, found after `least` to `most` lengths. Some of these are rare, so not all may be found.
fn of_shape(r: &mut Random, row: &str, shape: (i64, i64, i64), (least, most): (i64, i64), amount: usize) -> Set {
    let (phases, streams, zones) = shape;
    let mut cases = vec![];
    let mut drawn = 0;
    while cases.is_empty() || (drawn < 1_500 && cases.len() < amount) {
        let j = make_junction(r, phases, streams, zones, 1);
        let worked = search(&j, &Entries::of(&j));
        if worked.as_ref().is_ok_and(|w| (least..=most).contains(&w.tried)) {
            cases.push(worked_out(&j, &worked));
        }
        drawn += 1;
    }
    Set { row: row.to_string(), task: Task::WorkOut, cases }
}

fn by_streams(r: &mut Random, amount: usize) -> Table {
    let sets = (2..=16).map(|n| of_shape(r, &n.to_string(), (2, n, 8), (1, 1), amount)).collect();
    Table { head: "working out, streams (2 phases, 8 zones, first length works)".to_string(), sets }
}

fn by_zones(r: &mut Random, amount: usize) -> Table {
    let numbers = [0, 1, 2, 4, 8, 16, 24, 32, 40, 48, 56, 64];
    let sets = numbers.iter().map(|&n| of_shape(r, &n.to_string(), (2, 12, n), (1, 1), amount)).collect();
    Table { head: "working out, zones (2 phases, 12 streams, first length works)".to_string(), sets }
}

fn by_lengths(r: &mut Random, amount: usize) -> Table {
    let ranges = [(1, 1), (2, 3), (4, 7), (8, 15), (16, 31), (32, 63), (64, 127)];
    let row = |(least, most)| if least == most { format!("{least}") } else { format!("{least} to {most}") };
    let sets = ranges.iter().map(|&range| of_shape(r, &row(range), (3, 8, 12), range, amount)).collect();
    Table { head: "working out, lengths tried (3 phases, 8 streams, 12 zones)".to_string(), sets }
}

/// A junction without zones and without lost time, so that T0 is 1, and whose smaller phase gets the green that it needs
/// only from some length on, or never: the search tries many lengths.
fn long_search(small_flow: u16) -> Junction {
    let car = Kind::Car(Car {
        amber: 3,
        flying: false,
        radius: 0,
        width: 350,
        rows: 1,
        gradient: 0,
        conditions: 2,
        left: 0,
        right: 0,
    });
    let walk = Kind::Pedestrian(Pedestrian { speed: 12, crossing: 70, people: 200, reach_counted: false, disturbed: false });
    let bicycle = Kind::Cyclist(Cyclist { reach_counted: false });
    let streams = [(1, car), (1, car), (1, walk), (2, car), (2, car), (2, walk), (2, bicycle), (1, bicycle)];
    let count = |stream, flow| Count { stream, count_day: 9000, file_day: 9000, flow, period: 1 };
    Junction {
        number: 7,
        design_day: 9000,
        period: 1,
        streams: streams.map(|(phase, kind)| Stream { phase, kind }).to_vec(),
        zones: vec![],
        counts: vec![count(1, small_flow), count(2, small_flow), count(4, 900), count(5, 900)],
    }
}

fn by_long_searches() -> Table {
    let set = |small_flow| {
        let j = long_search(small_flow);
        let worked = search(&j, &Entries::of(&j));
        let row = worked.as_ref().map_or_else(|refusal| format!("180, then {}", refusal.number), |w| w.tried.to_string());
        Set { row, task: Task::WorkOut, cases: vec![worked_out(&j, &worked)] }
    };
    let sets = [900, 300, 150, 100, 75, 60, 50, 1].map(set).into();
    Table { head: "working out, lengths tried (2 phases, 8 streams, no zones)".to_string(), sets }
}

// ---- all

/// All tables in the order in which they are printed. The mixed files are drawn first and then those of the three tables by shape, so that
/// these stay the same files whatever else is added.
pub fn tables(r: &mut Random, amount: Amount) -> Vec<Table> {
    let [read, worked_out, judged] = mixed(r, amount.mixed);
    let shape = amount.of_shape;
    let by_shape = [by_streams(r, shape), by_zones(r, shape), by_lengths(r, shape)];
    let common = with_plan(r, "common junctions (2 to 4 phases, 6 to 12 streams, 10 to 30 zones)", amount.common, common_junction);
    let full = with_plan(r, "full junctions (2 to 4 phases, 16 streams, 64 zones, 128 counts)", amount.full, full_junction);
    let mut tables = vec![read, worked_out, judged, common, full];
    tables.extend(by_shape);
    tables.push(by_long_searches());
    tables
}
