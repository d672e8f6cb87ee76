//! The library's C entries, and the lent memory that they are called with: it is compared before and after each call.
#![allow(dead_code)]
use givendra_sys::*;
use model::cases::text_of;
use model::junction::Count;
use model::portable::{Portable, Works};
use model::random::Random;
use model::{Delay, Refusal};
use std::fmt::{Debug, Formatter};

// ---- lent memory

/// Bytes that are lent, in memory of their own with other bytes before and after them.
pub struct Lent {
    memory: Vec<u8>,
    /// The memory as it was lent.
    before: Vec<u8>,
    from: usize,
    to: usize,
}

impl Lent {
    /// The neighbours are zeros, all ones, random bytes, or bytes that would go on as fields of a file.
    pub fn new(r: &mut Random, bytes: &[u8]) -> Lent {
        let from = r.from_to(16, 47) as usize;
        let to = from + bytes.len();
        let end = to + r.from_to(16, 47) as usize;
        let mut memory = Vec::with_capacity(end);
        neighbours(r, &mut memory, from);
        memory.extend(bytes);
        neighbours(r, &mut memory, end);
        Lent { before: memory.clone(), memory, from, to }
    }

    pub fn bytes(&self) -> &[u8] {
        &self.memory[self.from..self.to]
    }

    fn length(&self) -> usize {
        self.to - self.from
    }

    fn pointer(&self) -> *const u8 {
        self.memory[self.from..].as_ptr()
    }

    fn pointer_to_write(&mut self) -> *mut u8 {
        self.memory[self.from..].as_mut_ptr()
    }

    pub fn as_lent(&self) -> bool {
        self.memory == self.before
    }

    pub fn neighbours_as_lent(&self) -> bool {
        self.memory[..self.from] == self.before[..self.from] && self.memory[self.to..] == self.before[self.to..]
    }
}

/// Bytes up to this length of the memory.
fn neighbours(r: &mut Random, memory: &mut Vec<u8>, length: usize) {
    const COUNT: [u8; 11] = [4, 0, 8, 1, 0, 0, 0, 0, 2, 0x58, 1];
    const ZONE: [u8; 13] = [3, 0, 10, 1, 2, 0, 0x8c, 0, 0x4b, 0, 0x46, 0, 0];
    const CYCLIST: [u8; 6] = [2, 0, 3, 4, 1, 0];
    const GREEN: [u8; 8] = [0x12, 0, 5, 2, 0, 0, 0, 0x23];
    match r.from_to(1, 7) {
        1 => memory.resize(length, 0),
        2 => memory.resize(length, 255),
        3 => memory.resize_with(length, || r.any() as u8),
        n => {
            let field: &[u8] = [&COUNT[..], &ZONE, &CYCLIST, &GREEN][n as usize - 4];
            let start = memory.len();
            memory.extend((start..length).map(|i| field[(i - start) % field.len()]));
        }
    }
}

// ---- the calls

pub fn release() -> u32 {
    unsafe { givendra_release() }
}

pub fn judge(junction: &Lent, plan: &Lent) -> JudgeAnswer {
    let answer = unsafe { givendra_judge(junction.pointer(), junction.length(), plan.pointer(), plan.length()) };
    assert_lent("judge", &[junction, plan]);
    answer
}

pub fn delay(junction: &Lent, plan: &Lent, stream: usize) -> DelayBits {
    let answer = unsafe { givendra_delay(junction.pointer(), junction.length(), plan.pointer(), plan.length(), stream) };
    assert_lent("delay", &[junction, plan]);
    DelayBits::of(answer)
}

/// The plan file is lent to be changed: it may differ afterwards, but not what stands around it.
pub fn shift(junction: &Lent, plan: &mut Lent, offset: usize) -> JudgeAnswer {
    let (pointer, length) = (plan.pointer_to_write(), plan.length());
    let answer = unsafe { givendra_shift(junction.pointer(), junction.length(), pointer, length, offset) };
    assert_lent("shift", &[junction]);
    assert!(plan.neighbours_as_lent(), "shift by {offset} wrote outside the plan file\njunction {}", text_of(junction.bytes()));
    answer
}

pub fn work_out(junction: &Lent, buffer: &mut Lent) -> PlanAnswer {
    let (pointer, length) = (buffer.pointer_to_write(), buffer.length());
    let answer = unsafe { givendra_work_out(junction.pointer(), junction.length(), pointer, length) };
    assert_lent("work_out", &[junction]);
    assert!(buffer.neighbours_as_lent(), "work_out wrote outside its buffer\njunction {}", text_of(junction.bytes()));
    answer
}

pub fn read_junction(junction: &Lent) -> JunctionAnswer {
    let answer = unsafe { givendra_read_junction(junction.pointer(), junction.length()) };
    assert_lent("read_junction", &[junction]);
    answer
}

pub fn intergreen(junction: &Lent, from: usize, to: usize) -> Figure {
    unsafe { givendra_intergreen(junction.pointer(), junction.length(), from, to) }
}

pub fn need(junction: &Lent, stream: usize, cycle: u16) -> Figure {
    unsafe { givendra_need(junction.pointer(), junction.length(), stream, cycle) }
}

pub fn saturation_flow(junction: &Lent, stream: usize) -> Figure {
    unsafe { givendra_saturation_flow(junction.pointer(), junction.length(), stream) }
}

pub fn flow_ratio(junction: &Lent, stream: usize) -> Figure {
    unsafe { givendra_flow_ratio(junction.pointer(), junction.length(), stream) }
}

/// Other records stand before and after the list, which must not be used.
pub fn newest_count(before: &[Count], list: &[Count], after: &[Count], stream: usize, design_day: u16, period: usize) -> Figure {
    let record = |c: &Count| CountRecord {
        stream: c.stream,
        count_day: c.count_day,
        file_day: c.file_day,
        flow: c.flow,
        period: c.period,
    };
    let memory: Vec<CountRecord> = before.iter().chain(list).chain(after).map(record).collect();
    let copy = memory.clone();
    let answer = unsafe { givendra_newest_count(memory[before.len()..].as_ptr(), list.len(), stream, design_day, period) };
    assert_eq!(memory, copy, "newest_count changed a record");
    answer
}

pub fn portable(works: &Works) -> PortableAnswer {
    let [one, two] = works.approaches.map(|a| Approach { flow: a.flow, saturation: a.s, waiting: a.waiting });
    unsafe { givendra_portable(works.stretch, works.speed, one, two) }
}

fn assert_lent(entry: &str, files: &[&Lent]) {
    for file in files {
        assert!(file.as_lent(), "{entry} changed lent memory around or in {}", text_of(file.bytes()));
    }
}

// ---- the model's answers in the library's form

pub fn judged(answer: Result<(), Refusal>) -> JudgeAnswer {
    let (refusal, place) = number_and_place(&answer);
    JudgeAnswer { place, refusal }
}

/// The answer about a delay; two of these are equal where every bit of the value is.
#[derive(Clone, Copy, PartialEq, Eq)]
pub struct DelayBits {
    pub place: usize,
    pub refusal: u8,
    pub outcome: u8,
    pub level: u8,
    pub bits: u64,
}

impl DelayBits {
    fn of(answer: DelayAnswer) -> DelayBits {
        let DelayAnswer { place, refusal, outcome, level, value } = answer;
        DelayBits { place, refusal, outcome, level, bits: value.to_bits() }
    }
}

/// The value as in the stored cases.
impl Debug for DelayBits {
    fn fmt(&self, f: &mut Formatter) -> std::fmt::Result {
        let DelayBits { place, refusal, outcome, level, bits } = *self;
        write!(f, "refusal {refusal} {place}, outcome {outcome}, level {:?}, value {bits:016x}", level as char)
    }
}

pub fn delayed(answer: Result<Delay, Refusal>) -> DelayBits {
    let (refusal, place) = number_and_place(&answer);
    let (outcome, level, value) = match answer {
        Ok(d @ Delay::Seconds(value)) => (1, d.level() as u8, value),
        Ok(d @ Delay::Oversaturated(value)) => (2, d.level() as u8, value),
        Ok(d @ Delay::NoRed) => (3, d.level() as u8, 0.0),
        Err(_) => (0, 0, 0.0),
    };
    DelayBits::of(DelayAnswer { place, refusal, outcome, level, value })
}

pub fn figure(answer: Result<u32, Refusal>) -> Figure {
    let (refusal, place) = number_and_place(&answer);
    Figure { place, refusal, value: answer.unwrap_or(0) }
}

/// The answer for road works: with a refusal every other number is 0.
pub fn portable_answer(answer: &Result<Portable, Refusal>) -> PortableAnswer {
    let (refusal, place) = number_and_place(answer);
    let [t, l, cycle, start_1, length_1, start_2, length_2] = match answer {
        Ok(p) => {
            let [one, two] = p.greens;
            let seconds = [p.clearing_time, p.lost_time, p.cycle].map(|n| n as u16);
            [seconds[0], seconds[1], seconds[2], one.start, one.length, two.start, two.length]
        }
        Err(_) => [0; 7],
    };
    PortableAnswer {
        place,
        refusal,
        clearing_time: t,
        lost_time: l,
        cycle,
        first_start: start_1,
        first_length: length_1,
        second_start: start_2,
        second_length: length_2,
    }
}

pub fn number_and_place<T>(answer: &Result<T, Refusal>) -> (u8, usize) {
    answer.as_ref().err().map_or((0, 0), |e| (e.number, e.place))
}

/// Stops the test where library and model differ, with all that is needed to repeat it.
#[track_caller]
pub fn same<T: PartialEq + Debug>(what: &str, library: T, model: T, junction: &[u8], plan: &[u8]) {
    if library != model {
        panic!(
            "{what}\nlibrary {library:?}\nmodel   {model:?}\njunction {}\nplan {}",
            text_of(junction),
            text_of(plan)
        );
    }
}

/// Stops the test where library and model differ about road works, which are printed in the form of the stored cases.
#[track_caller]
pub fn same_works<T: PartialEq + Debug>(what: &str, library: T, model: T, works: &Works) {
    if library != model {
        let numbers = works.numbers().map(|n| n.to_string()).join(" ");
        panic!("{what}\nlibrary {library:?}\nmodel   {model:?}\nportable: {numbers}");
    }
}

// ---- hits

/// Numbers of refusals are below this; 0 stands for an answer without refusal.
const NUMBERS: usize = 41;

/// How often each answer was given.
pub struct Hits {
    names: Vec<&'static str>,
    counts: Vec<[usize; NUMBERS]>,
}

impl Hits {
    pub fn new(names: &[&'static str]) -> Hits {
        Hits { names: names.to_vec(), counts: vec![[0; NUMBERS]; names.len()] }
    }

    pub fn hit(&mut self, name: &str, refusal: u8) {
        let at = self.names.iter().position(|n| *n == name).expect("a column");
        self.counts[at][refusal as usize] += 1;
    }

    pub fn of(&self, name: &str, refusal: u8) -> usize {
        let at = self.names.iter().position(|n| *n == name).expect("a column");
        self.counts[at][refusal as usize]
    }

    pub fn print(&self) {
        let heads: String = self.names.iter().map(|n| format!("{n:>17}")).collect();
        println!("{:>7}{heads}", "refusal");
        for number in 0..NUMBERS {
            if self.counts.iter().any(|c| c[number] > 0) {
                let row: String = self.counts.iter().map(|c| format!("{:>17}", c[number])).collect();
                println!("{:>7}{row}", if number == 0 { "none".to_string() } else { number.to_string() });
            }
        }
        let sums: String = self.counts.iter().map(|c| format!("{:>17}", c.iter().sum::<usize>())).collect();
        println!("{:>7}{sums}", "all");
    }

    /// Each of these answers came at least so often.
    pub fn at_least(&self, times: usize, name: &str, refusals: &[u8]) {
        for &number in refusals {
            assert!(self.of(name, number) >= times, "{name}: {number} came {} times", self.of(name, number));
        }
    }
}
