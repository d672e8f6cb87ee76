//! Working out a plan: questions 21 to 23.
use super::figures::{loads, need, Conflicts, Load};
use super::judging::{enough_capacity, zone_clear, Green};
use super::reading::{Junction, Kind};
use super::{refuse, Refusal};

#[derive(Clone, Copy, Default)]
struct Phase {
    cars: bool,
    ratio: u32,
    intergreen: u16,
    need: u16,
}

struct Phases {
    of: [Phase; 6],
    count: usize,
}

impl Phases {
    fn new(j: &Junction, conflicts: &Conflicts, loads: &[Load; 16]) -> Phases {
        let count = j.streams().iter().map(|s| s.phase).max().unwrap_or(0) as usize;
        let mut phases = Phases { of: [Phase { intergreen: 1, ..Phase::default() }; 6], count };
        for (s, load) in j.streams().iter().zip(loads) {
            let phase = &mut phases.of[s.phase as usize - 1];
            phase.cars |= s.is_car();
            phase.ratio = phase.ratio.max(load.ratio);
        }
        for c in conflicts.all() {
            let (f, g) = (j.streams()[c.a].phase as usize - 1, j.streams()[c.b].phase as usize - 1);
            if (f + 1) % count == g {
                phases.of[f].intergreen = phases.of[f].intergreen.max(c.atob);
            }
            if (g + 1) % count == f {
                phases.of[g].intergreen = phases.of[g].intergreen.max(c.btoa);
            }
        }
        phases
    }

    fn of(&self) -> &[Phase] {
        &self.of[..self.count]
    }

    /// The largest need of each phase at a cycle.
    fn set_needs(&mut self, j: &Junction, cycle: u16) {
        for phase in &mut self.of {
            phase.need = 0;
        }
        for s in j.streams() {
            let phase = &mut self.of[s.phase as usize - 1];
            phase.need = phase.need.max(need(&s.kind, cycle));
        }
    }

    fn ratios(&self) -> u64 {
        self.of().iter().map(|p| p.ratio as u64).sum()
    }

    fn lost(&self) -> u64 {
        self.of().iter().map(|p| if p.cars { p.intergreen - 1 } else { p.need + p.intergreen } as u64).sum()
    }

    /// The greens of the phases at a length, or nothing where it is below the lost time or a green is below 1.
    fn greens(&self, t: u16) -> Option<[Green; 6]> {
        let (lost, ratios) = (self.lost(), self.ratios());
        let seconds = (t as u64).checked_sub(lost)?;
        let shares = self.of().iter().map(|p| p.ratio as u64 * seconds / ratios);
        let mut left = seconds - shares.sum::<u64>();
        let mut greens = [Green::default(); 6];
        let mut start = 0;
        for (p, green) in self.of().iter().zip(&mut greens) {
            let length = if p.cars {
                let extra = left.min(1);
                left -= extra;
                (p.ratio as u64 * seconds / ratios + extra).saturating_sub(1)
            } else {
                p.need as u64
            };
            if length < 1 {
                return None;
            }
            *green = Green { start, length: length as u16 };
            start += length as u16 + p.intergreen;
        }
        Some(greens)
    }
}

/// T0, or 181 where it is above 180.
fn first_length(slow: bool, ratios: u64, lost: u64) -> u16 {
    let free = 10_000 - ratios;
    (1..181)
        .find(|&t| {
            let t = t as u64;
            if slow { t * t * free >= 1_200_000 * lost } else { t * free >= 15_000 * lost + 50_000 }
        })
        .unwrap_or(181)
}

/// The cycle and how many lengths were tried.
#[inline(never)]
pub fn work_out(junction: &[u8], out: &mut [u8]) -> Result<(u16, u16), Refusal> {
    let j = Junction::read(junction)?;
    let conflicts = Conflicts::new(&j);
    let loads = loads(&j);
    let mut phases = Phases::new(&j, &conflicts, &loads);
    if phases.ratios() >= 10_000 {
        return refuse(21, 0);
    }
    let slow = j.streams().iter().any(|s| match s.kind {
        Kind::Tram(_) | Kind::Pedestrian(_) | Kind::Island(_) => true,
        Kind::Car(_) | Kind::Cyclist { .. } => false,
    });
    phases.set_needs(&j, 0);
    let first = first_length(slow, phases.ratios(), phases.lost());

    let mut greens = [Green::default(); 16];
    let mut t = first;
    let cycle = 'search: loop {
        if t > 180 {
            return refuse(22, 0);
        }
        let tried = t;
        t += 1;
        phases.set_needs(&j, tried);
        let Some(of_phases) = phases.greens(tried) else { continue 'search };
        for (green, s) in greens.iter_mut().zip(j.streams()) {
            *green = of_phases[s.phase as usize - 1];
        }
        for (green, s) in greens.iter().zip(j.streams()) {
            if green.length < need(&s.kind, tried) {
                continue 'search;
            }
        }
        for (green, load) in greens.iter().zip(&loads[..j.streams().len()]) {
            if !enough_capacity(load, tried, *green) {
                continue 'search;
            }
        }
        for c in conflicts.all() {
            if !zone_clear(c, tried, greens[c.a], greens[c.b]) {
                continue 'search;
            }
        }
        break tried;
    };

    let size = 5 + 8 * j.streams().len();
    if out.len() < size {
        return refuse(23, 0);
    }
    out[..3].copy_from_slice(&[0x11, 0, 2]);
    out[3..5].copy_from_slice(&cycle.to_be_bytes());
    for (i, field) in out[5..size].chunks_exact_mut(8).enumerate() {
        field[..4].copy_from_slice(&[0x12, 0, 5, i as u8 + 1]);
        field[4..6].copy_from_slice(&greens[i].start.to_be_bytes());
        field[6..8].copy_from_slice(&greens[i].length.to_be_bytes());
    }
    Ok((cycle, cycle - first + 1))
}
