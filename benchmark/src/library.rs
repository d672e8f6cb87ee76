//! The library's C entries for reading, judging and working out.
use crate::calls::Program;
use crate::plain::{Held, Refusal};
use givendra_sys::{givendra_judge, givendra_read_junction, givendra_work_out};

pub struct Library;

fn unless_refused<T>(number: u8, place: usize, answer: T) -> Result<T, Refusal> {
    if number == 0 { Ok(answer) } else { Err(Refusal { number, place }) }
}

impl Program for Library {
    fn read(junction: &[u8]) -> Result<Held, Refusal> {
        let a = unsafe { givendra_read_junction(junction.as_ptr(), junction.len()) };
        let held = Held { design_day: a.design_day, period: a.period, streams: a.streams, zones: a.zones, counts: a.counts };
        unless_refused(a.refusal, a.place, held)
    }

    fn work_out(junction: &[u8], buffer: &mut [u8]) -> Result<(u16, u16), Refusal> {
        let a = unsafe { givendra_work_out(junction.as_ptr(), junction.len(), buffer.as_mut_ptr(), buffer.len()) };
        unless_refused(a.refusal, a.place, (a.cycle, a.tried))
    }

    fn judge(junction: &[u8], plan: &[u8]) -> Result<(), Refusal> {
        let a = unsafe { givendra_judge(junction.as_ptr(), junction.len(), plan.as_ptr(), plan.len()) };
        unless_refused(a.refusal, a.place, ())
    }
}
