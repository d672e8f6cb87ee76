//! The plan file: questions 11 to 13.

use crate::junction::{two, Junction};
use crate::{refuse, Refusal};

#[derive(Clone, PartialEq, Eq, Debug)]
pub struct Plan {
    pub cycle: u16,
    /// One for each stream, in order.
    pub greens: Vec<Green>,
}

#[derive(Clone, Copy, PartialEq, Eq, Debug)]
pub struct Green {
    pub start: u16,
    pub length: u16,
}

/// Reads a plan file for a junction that is taken already.
pub fn read_plan(file: &[u8], junction: &Junction) -> Result<Plan, Refusal> {
    let mut plan = Plan { cycle: 0, greens: vec![] };
    let mut at = 0;
    // Field 0 is the cycle, field n the green of stream n.
    for number in 0..=junction.streams.len() {
        // The end of the file where a field is due: 12 at the file length.
        if at == file.len() {
            return refuse(12, at);
        }
        // 11: does the field fit?
        if file.len() - at < 3 {
            return refuse(11, at);
        }
        let length = two(file, at + 1) as usize;
        if file.len() - at - 3 < length {
            return refuse(11, at);
        }
        let body = &file[at + 3..at + 3 + length];
        if number == 0 {
            // 12: is it the expected tag and length? 13: is the number in range?
            if file[at] != 0x11 || length != 2 {
                return refuse(12, at);
            }
            plan.cycle = two(body, 0);
            if plan.cycle < 1 || plan.cycle > 180 {
                return refuse(13, at);
            }
        } else {
            if file[at] != 0x12 || length != 5 || body[0] as usize != number {
                return refuse(12, at);
            }
            let green = Green { start: two(body, 1), length: two(body, 3) };
            if green.start >= plan.cycle || green.length < 1 || green.length > plan.cycle {
                return refuse(13, at);
            }
            plan.greens.push(green);
        }
        at += 3 + length;
    }
    // Nothing stands after the last field.
    if at < file.len() {
        return refuse(12, at);
    }
    Ok(plan)
}

impl Plan {
    /// The green of this stream, counted from 1.
    pub fn green(&self, stream: usize) -> Green {
        self.greens[stream - 1]
    }

    /// The plan file: 5 + 8 x streams bytes.
    pub fn to_file(&self) -> Vec<u8> {
        let mut file = vec![0x11, 0, 2];
        file.extend(self.cycle.to_be_bytes());
        for (i, green) in self.greens.iter().enumerate() {
            file.extend([0x12, 0, 5, i as u8 + 1]);
            file.extend(green.start.to_be_bytes());
            file.extend(green.length.to_be_bytes());
        }
        file
    }
}
