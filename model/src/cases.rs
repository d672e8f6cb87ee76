//! The text form of the stored test cases.
//!
//! An empty line, or one that begins with `#`, is printed as it is. `junction: HEX` is the junction file for the plan files
//! after it, and prints nothing. Any other line is a case: a word that says what is asked, a label, a colon and what is
//! asked about. The line up to the colon is printed with the answer:
//! - `read LABEL: HEX` is a junction file; `taken S Z C` with the numbers of streams, zones and counts is printed, or
//!   `refused N P`;
//! - `judge LABEL: HEX` is a plan file; `accepted` or `refused N P` is printed;
//! - `delay LABEL: STREAM HEX` is a stream's number and a plan file; `delay BITS LEVEL`, `saturation BITS F`, `no red A` or
//!   `refused N P` is printed, where BITS are the 64 bits of the number in 16 hexadecimal digits;
//! - `shift LABEL: OFFSET HEX` is an offset and a plan file; `shifted HEX` with every byte of the lent file afterwards is
//!   printed, without spaces, or `refused N P`, then `kept` where no byte of the lent file changed, else `spoilt`;
//! - `portable LABEL: STRETCH SPEED FLOW S WAITING FLOW S WAITING` is a narrowed stretch in m, a speed in km/h and, of approach 1
//!   and then of approach 2, flow, S and available waiting length in m, all decimal; `t TENTHS L TENTHS cycle C 1 START LENGTH
//!   2 START LENGTH` is printed on one line, t and L in tenths of a second, or `refused N P`;
//! - `plan LABEL: SIZE HEX` is the lent buffer's size and a junction file; the cycle, the tried count and the plan file are
//!   printed, or `refused N P`, then `kept` where the rest of the buffer is as it was.
//!
//! Bytes are in lower-case hexadecimal, with or without spaces; `*N` after a byte stands for that byte N times.

use crate::portable::Works;
use crate::{delay, judge, portable, read_junction, shift, Delay, Refusal};

/// The bytes that a text stands for.
pub fn bytes_of(text: &str) -> Vec<u8> {
    let mut bytes = vec![];
    for word in text.split(' ').filter(|w| !w.is_empty()) {
        let (pairs, times) = match word.split_once('*') {
            Some((pairs, n)) => (pairs, n.parse().expect("a number after the star")),
            None => (word, 1),
        };
        assert!(pairs.len() % 2 == 0 && !pairs.is_empty(), "whole bytes: {word}");
        for i in (0..pairs.len()).step_by(2) {
            assert!(pairs[i..i + 2].bytes().all(|c| matches!(c, b'0'..=b'9' | b'a'..=b'f')), "lower-case hex: {word}");
            bytes.push(u8::from_str_radix(&pairs[i..i + 2], 16).unwrap());
        }
        let last = *bytes.last().unwrap();
        for _ in 1..times {
            bytes.push(last);
        }
    }
    bytes
}

/// The text of these bytes, with long runs of one byte written short.
pub fn text_of(bytes: &[u8]) -> String {
    let mut text = String::new();
    let mut at = 0;
    while at < bytes.len() {
        let run = bytes[at..].iter().take_while(|&&b| b == bytes[at]).count();
        if run >= 16 {
            text += &format!(" {:02x}*{run} ", bytes[at]);
            at += run;
        } else {
            text += &format!("{:02x}", bytes[at]);
            at += 1;
        }
    }
    text.trim().to_string()
}

/// The answer in words.
pub fn answer(result: Result<(), Refusal>) -> String {
    match result {
        Ok(()) => "accepted".to_string(),
        Err(r) => format!("refused {} {}", r.number, r.place),
    }
}

/// The answers to a case file, line by line. A word that is not known stops the program.
pub fn run(stdin: &str) -> String {
    let mut out = String::new();
    let mut junction = vec![];
    for line in stdin.lines() {
        if line.is_empty() || line.starts_with('#') {
            out += &format!("{line}\n");
        } else if let Some(hex) = line.strip_prefix("junction:") {
            junction = bytes_of(hex);
        } else {
            let (head, text) = line.split_once(':').expect("a colon");
            out += &format!("{head}: {}\n", case(head, text, &junction));
        }
    }
    out
}

/// The answer to a case, whose first word says what is asked.
fn case(head: &str, text: &str, junction: &[u8]) -> String {
    match head.split_once(' ') {
        Some(("read", _)) => read(&bytes_of(text)),
        Some(("judge", _)) => answer(judge(junction, &bytes_of(text))),
        Some(("delay", _)) => delayed(text, junction),
        Some(("shift", _)) => shifted(text, junction),
        Some(("portable", _)) => worked_at(text),
        Some(("plan", _)) => planned(text),
        _ => panic!("not known: {head}"),
    }
}

/// The reader's answer in words.
fn read(junction: &[u8]) -> String {
    match read_junction(junction) {
        Ok(j) => format!("taken {} {} {}", j.streams.len(), j.zones.len(), j.counts.len()),
        Err(r) => answer(Err(r)),
    }
}

/// The delay's answer in words.
fn delayed(text: &str, junction: &[u8]) -> String {
    let (stream, plan) = number_and_file(text);
    match delay(junction, &plan, stream) {
        Ok(d @ Delay::Seconds(value)) => format!("delay {:016x} {}", value.to_bits(), d.level()),
        Ok(d @ Delay::Oversaturated(value)) => format!("saturation {:016x} {}", value.to_bits(), d.level()),
        Ok(d @ Delay::NoRed) => format!("no red {}", d.level()),
        Err(r) => answer(Err(r)),
    }
}

/// The shift's answer in words, with the lent file afterwards or what became of it.
fn shifted(text: &str, junction: &[u8]) -> String {
    let (offset, plan) = number_and_file(text);
    let mut lent = plan.clone();
    match shift(junction, &mut lent, offset) {
        Ok(()) => format!("shifted {}", hex_of(&lent)),
        Err(r) => format!("{} {}", answer(Err(r)), if lent == plan { "kept" } else { "spoilt" }),
    }
}

/// The answer for road works in words.
fn worked_at(text: &str) -> String {
    match portable(&works_of(text)) {
        Ok(p) => {
            let [one, two] = p.greens;
            let greens = format!("1 {} {} 2 {} {}", one.start, one.length, two.start, two.length);
            format!("t {} L {} cycle {} {greens}", p.clearing_time, p.lost_time, p.cycle)
        }
        Err(r) => answer(Err(r)),
    }
}

/// The numbers of road works.
fn works_of(text: &str) -> Works {
    let numbers: Vec<usize> = text.split(' ').filter(|w| !w.is_empty()).map(|w| w.parse().expect("a number")).collect();
    Works::of(numbers.try_into().expect("eight numbers"))
}

/// Every byte in two hexadecimal digits.
fn hex_of(bytes: &[u8]) -> String {
    bytes.iter().map(|b| format!("{b:02x}")).collect()
}

/// The number of a case, a stream's, an offset or the size of the lent buffer, and the file after it.
fn number_and_file(text: &str) -> (usize, Vec<u8>) {
    let text = text.strip_prefix(' ').unwrap_or(text);
    let (number, hex) = text.split_once(' ').unwrap_or((text, ""));
    (number.parse().expect("a number"), bytes_of(hex))
}

/// The planner's answer in words, with what became of the buffer, which is filled with 0xa5 before.
fn planned(text: &str) -> String {
    let (size, junction) = number_and_file(text);
    let mut buffer = vec![0xa5; size];
    let (words, written) = match crate::work_out(&junction, &mut buffer) {
        Ok(w) => {
            let length = w.plan.to_file().len();
            (format!("cycle {} tried {} plan {}", w.cycle, w.tried, hex_of(&buffer[..length])), length)
        }
        Err(r) => (answer(Err(r)), 0),
    };
    let kept = buffer[written..].iter().all(|&b| b == 0xa5);
    format!("{words} {}", if kept { "kept" } else { "spoilt" })
}
