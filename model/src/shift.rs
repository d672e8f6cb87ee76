//! "Offsets along a street" (request 2026-06): one offset is added to every start of a plan file, modulo C.

use crate::junction::{read_junction, Junction};
use crate::plan::read_plan;
use crate::{refuse, Refusal};

/// Shifts a plan file in place: questions 1 to 9, 11 to 13, then 24. The rules 15 to 17 are not asked. A refusal changes no
/// byte.
pub fn shift(junction_file: &[u8], plan_file: &mut [u8], offset: usize) -> Result<(), Refusal> {
    let junction = read_junction(junction_file)?;
    shift_for(&junction, plan_file, offset)
}

/// The same for a junction that is taken already.
pub fn shift_for(junction: &Junction, plan_file: &mut [u8], offset: usize) -> Result<(), Refusal> {
    let plan = read_plan(plan_file, junction)?;
    let cycle = plan.cycle as usize;
    // 24: is the offset below C?
    if offset >= cycle {
        return refuse(24, 0);
    }
    for (i, green) in plan.greens.iter().enumerate() {
        let start = (green.start as usize + offset) % cycle;
        let at = start_of(i + 1);
        plan_file[at..at + 2].copy_from_slice(&(start as u16).to_be_bytes());
    }
    Ok(())
}

/// Where the two bytes of this stream's start stand in a plan file: after field 11, the fields 12 of the streams before, and
/// tag, length and stream number of its own.
pub fn start_of(stream: usize) -> usize {
    5 + 8 * (stream - 1) + 4
}
