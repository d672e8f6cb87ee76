//! Plan files, questions 11 to 13, and the rules 15 to 17.
use super::figures::{load, need, Conflict, Conflicts, Load};
use super::reading::{number, Junction};
use super::{refuse, Refusal};

#[derive(Clone, Copy, Default)]
pub struct Green {
    pub start: u16,
    pub length: u16,
}

/// Flow x cycle at most S x (length + 1).
pub fn enough_capacity(load: &Load, cycle: u16, green: Green) -> bool {
    load.flow as u64 * cycle as u64 <= load.saturation as u64 * (green.length as u64 + 1)
}

/// Do two greens keep the entries apart, both ways round the cycle?
pub fn zone_clear(c: &Conflict, cycle: u16, a: Green, b: Green) -> bool {
    let off = if a.start <= b.start { b.start - a.start } else { b.start + cycle - a.start } as u32;
    a.length as u32 + c.atob as u32 <= off && off + b.length as u32 + c.btoa as u32 <= cycle as u32
}

fn read_plan(file: &[u8], streams: usize) -> Result<(u16, [Green; 16]), Refusal> {
    let mut greens = [Green::default(); 16];
    let mut cycle = 0;
    let mut at = 0;
    for n in 0..=streams {
        if at == file.len() {
            return refuse(12, at);
        }
        if file.len() - at < 3 {
            return refuse(11, at);
        }
        let length = number(file, at + 1) as usize;
        if file.len() - at - 3 < length {
            return refuse(11, at);
        }
        let body = &file[at + 3..at + 3 + length];
        if n == 0 {
            if file[at] != 0x11 || length != 2 {
                return refuse(12, at);
            }
            cycle = number(body, 0);
            if !(1..=180).contains(&cycle) {
                return refuse(13, at);
            }
        } else {
            if file[at] != 0x12 || length != 5 || body[0] as usize != n {
                return refuse(12, at);
            }
            let green = Green { start: number(body, 1), length: number(body, 3) };
            if green.start >= cycle || green.length < 1 || green.length > cycle {
                return refuse(13, at);
            }
            greens[n - 1] = green;
        }
        at += 3 + length;
    }
    if at < file.len() {
        return refuse(12, at);
    }
    Ok((cycle, greens))
}

#[inline(never)]
pub fn judge(junction: &[u8], plan: &[u8]) -> Result<(), Refusal> {
    let j = Junction::read(junction)?;
    let (cycle, greens) = read_plan(plan, j.streams().len())?;
    for (i, s) in j.streams().iter().enumerate() {
        if greens[i].length < need(&s.kind, cycle) {
            return refuse(15, i + 1);
        }
    }
    for i in 0..j.streams().len() {
        if !enough_capacity(&load(&j, i), cycle, greens[i]) {
            return refuse(16, i + 1);
        }
    }
    for (i, c) in Conflicts::new(&j).all().iter().enumerate() {
        if !zone_clear(c, cycle, greens[c.a], greens[c.b]) {
            return refuse(17, i + 1);
        }
    }
    Ok(())
}
