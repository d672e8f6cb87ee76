//! Library and plain Rust give the same answers, and those that the model states.
use crate::calls::Program;
use crate::library::Library;
use crate::plain::{Plain, Refusal};
use crate::sets::{Case, Set, Task};
use crate::ROOM;
use model::cases::text_of;
use model::faults::{aimed_at, faulty};
use model::generate::{any_plan, rich_junction};
use model::random::Random;

// ---- the same answers

fn assert_same_junction(file: &[u8]) {
    assert_eq!(Library::read(file), Plain::read(file), "read of {}", text_of(file));
}

fn assert_same_plan(file: &[u8]) {
    for size in [0, 20, 36, ROOM, ROOM + 9] {
        let (mut a, mut b) = (vec![0x5a; size], vec![0x5a; size]);
        assert_eq!(Library::work_out(file, &mut a), Plain::work_out(file, &mut b), "work_out of {}", text_of(file));
        assert_eq!(a, b, "the plan of {}", text_of(file));
    }
}

fn assert_same_verdict(junction: &[u8], plan: &[u8]) {
    let texts = || (text_of(junction), text_of(plan));
    assert_eq!(Library::judge(junction, plan), Plain::judge(junction, plan), "judge of {:?}", texts());
}

/// Files that are neither counted nor timed, most of them refused.
pub fn assert_same_refusals(r: &mut Random, files: usize) {
    for number in (1..=9).cycle().take(files) {
        let file = aimed_at(r, number);
        assert_same_junction(&file);
        assert_same_plan(&file);
        let j = rich_junction(r);
        let plan = any_plan(r, &j).to_file();
        assert_same_verdict(&file, &plan);
        assert_same_verdict(&j.to_file(), &faulty(r, &plan, &plan));
    }
}

// ---- the stated answers

fn number<T>(answer: Result<T, Refusal>) -> u8 {
    answer.map_or_else(|refusal| refusal.number, |_| 0)
}

/// The library's refusal, and what it leaves in a buffer of zeros.
fn left_by_library(junction: &[u8]) -> (u8, [u8; ROOM]) {
    let mut left = [0; ROOM];
    let refusal = number(Library::work_out(junction, &mut left));
    (refusal, left)
}

fn stated_plan(case: &Case) -> (u8, [u8; ROOM]) {
    let mut left = [0; ROOM];
    left[..case.plan.len()].copy_from_slice(&case.plan);
    (case.refusal, left)
}

/// The library gives the stated answer to every case of a set, and plain Rust the same answers as the library.
pub fn assert_stated(set: &Set) {
    for case in &set.cases {
        let (junction, plan) = (&case.junction, &case.plan);
        match set.task {
            Task::Read => {
                assert_eq!(number(Library::read(junction)), case.refusal, "the answer to {}", text_of(junction));
                assert_same_junction(junction);
            }
            Task::WorkOut => {
                assert_eq!(left_by_library(junction), stated_plan(case), "the plan of {}", text_of(junction));
                assert_same_plan(junction);
            }
            Task::Judge => {
                let texts = || (text_of(junction), text_of(plan));
                assert_eq!(number(Library::judge(junction, plan)), case.refusal, "the verdict on {:?}", texts());
                assert_same_verdict(junction, plan);
            }
        }
    }
}
