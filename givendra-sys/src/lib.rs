//! The C library for Rust: `include/givendra.h`, which says what each function answers, declared once for the tests and the benchmark.

pub const GIVENDRA_RELEASE: u32 = 2;

#[repr(C)]
#[derive(Clone, Copy, PartialEq, Eq, Debug)]
pub struct JudgeAnswer {
    pub place: usize,
    pub refusal: u8,
}

#[repr(C)]
#[derive(Clone, Copy, PartialEq, Eq, Debug)]
pub struct PlanAnswer {
    pub place: usize,
    pub refusal: u8,
    pub cycle: u16,
    pub tried: u16,
    pub size: usize,
}

#[repr(C)]
#[derive(Clone, Copy, PartialEq, Eq, Debug)]
pub struct JunctionAnswer {
    pub place: usize,
    pub refusal: u8,
    pub design_day: u16,
    pub period: u8,
    pub streams: usize,
    pub zones: usize,
    pub counts: usize,
}

#[repr(C)]
#[derive(Clone, Copy, PartialEq, Eq, Debug)]
pub struct Figure {
    pub place: usize,
    pub refusal: u8,
    pub value: u32,
}

#[repr(C)]
#[derive(Clone, Copy, PartialEq, Eq, Debug)]
pub struct CountRecord {
    pub stream: u8,
    pub count_day: u16,
    pub file_day: u16,
    pub flow: u16,
    pub period: u8,
}

#[repr(C)]
#[derive(Clone, Copy, PartialEq, Debug)]
pub struct DelayAnswer {
    pub place: usize,
    pub refusal: u8,
    pub outcome: u8,
    pub level: u8,
    pub value: f64,
}

#[repr(C)]
#[derive(Clone, Copy, PartialEq, Eq, Debug)]
pub struct Approach {
    pub flow: usize,
    pub saturation: usize,
    pub waiting: usize,
}

#[repr(C)]
#[derive(Clone, Copy, PartialEq, Eq, Debug)]
pub struct PortableAnswer {
    pub place: usize,
    pub refusal: u8,
    pub clearing_time: u16,
    pub lost_time: u16,
    pub cycle: u16,
    pub first_start: u16,
    pub first_length: u16,
    pub second_start: u16,
    pub second_length: u16,
}

// Not bundled: only a program that calls the library needs it, so tests that do not are linked without it.
#[link(name = "givendra", kind = "static", modifiers = "-bundle")]
extern "C" {
    pub fn givendra_release() -> u32;
    pub fn givendra_judge(junction: *const u8, junction_length: usize, plan: *const u8, plan_length: usize) -> JudgeAnswer;
    pub fn givendra_work_out(junction: *const u8, junction_length: usize, buffer: *mut u8, buffer_length: usize) -> PlanAnswer;
    pub fn givendra_read_junction(junction: *const u8, junction_length: usize) -> JunctionAnswer;
    pub fn givendra_intergreen(junction: *const u8, junction_length: usize, from: usize, to: usize) -> Figure;
    pub fn givendra_need(junction: *const u8, junction_length: usize, stream: usize, cycle: u16) -> Figure;
    pub fn givendra_saturation_flow(junction: *const u8, junction_length: usize, stream: usize) -> Figure;
    pub fn givendra_flow_ratio(junction: *const u8, junction_length: usize, stream: usize) -> Figure;
    pub fn givendra_delay(junction: *const u8, junction_length: usize, plan: *const u8, plan_length: usize, stream: usize) -> DelayAnswer;
    pub fn givendra_shift(junction: *const u8, junction_length: usize, plan: *mut u8, plan_length: usize, offset: usize) -> JudgeAnswer;
    pub fn givendra_newest_count(list: *const CountRecord, list_length: usize, stream: usize, design_day: u16, period: usize) -> Figure;
    pub fn givendra_portable(stretch: usize, speed: usize, first: Approach, second: Approach) -> PortableAnswer;
}
