//! "Delay and level of service" (request 2026-05), in f64: every operation is rounded once, in the order written.

use crate::annex::saturation;
use crate::judge::judge;
use crate::junction::{read_junction, Junction, Kind};
use crate::plan::{read_plan, Plan};
use crate::{refuse, Refusal};

/// The figures travel together. A, B and d mean something only where g and u are below 1.
#[derive(Clone, Copy, PartialEq, Debug)]
pub struct Figures {
    pub g: f64,
    pub u: f64,
    pub a: f64,
    pub b: f64,
    pub d: f64,
}

/// The answer about a car of an accepted plan.
#[derive(Clone, Copy, PartialEq, Debug)]
pub enum Delay {
    /// The delay d, in s.
    Seconds(f64),
    /// The saturation u, which is 1 or more.
    Oversaturated(f64),
    NoRed,
}

/// The greatest delay of each level but the last.
pub const LEVELS: [(f64, char); 5] = [(25.0, 'A'), (35.0, 'B'), (50.0, 'C'), (70.0, 'D'), (100.0, 'E')];

/// The delay of a stream: the judge's refusal where the plan is not accepted; after that 9, place the stream asked for, where it
/// is no car or does not exist.
pub fn delay(junction_file: &[u8], plan_file: &[u8], stream: usize) -> Result<Delay, Refusal> {
    judge(junction_file, plan_file)?;
    let junction = read_junction(junction_file)?;
    let plan = read_plan(plan_file, &junction)?;
    delay_when_accepted(&junction, &plan, stream)
}

/// The same for a plan that the judge has accepted.
pub fn delay_when_accepted(junction: &Junction, plan: &Plan, stream: usize) -> Result<Delay, Refusal> {
    if stream < 1 || stream > junction.streams.len() {
        return refuse(9, stream);
    }
    match &junction.stream(stream).kind {
        Kind::Car(car) => {
            let flow = junction.flow(stream).expect("question 9");
            Ok(figures(plan.green(stream).length, plan.cycle, flow, saturation(car)).delay())
        }
        Kind::Tram(_) | Kind::Pedestrian(_) | Kind::Cyclist(_) | Kind::Island(_) => refuse(9, stream),
    }
}

/// The figures of a green of this length in a cycle C, with this flow and S.
pub fn figures(length: u16, cycle: u16, flow: u16, s: i64) -> Figures {
    let (length, c, flow, s) = (length as f64, cycle as f64, flow as f64, s as f64);
    let g = (length + 1.0) / c;
    let u = flow / (g * s);
    let a = ((1.0 - g) * (1.0 - g)) / (2.0 * (1.0 - g * u));
    let b = (u * u) / (2.0 * (1.0 - u));
    let d = 0.9 * (c * a + (3600.0 * b) / flow);
    Figures { g, u, a, b, d }
}

impl Figures {
    /// "No red" is tested first, then the saturation.
    pub fn delay(self) -> Delay {
        if self.g >= 1.0 {
            Delay::NoRed
        } else if self.u >= 1.0 {
            Delay::Oversaturated(self.u)
        } else {
            Delay::Seconds(self.d)
        }
    }
}

impl Delay {
    /// The level of service, A to F.
    pub fn level(self) -> char {
        match self {
            Delay::Seconds(d) => LEVELS.iter().find(|level| d <= level.0).map_or('F', |level| level.1),
            Delay::Oversaturated(_) => 'F',
            Delay::NoRed => 'A',
        }
    }
}
