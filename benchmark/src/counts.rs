//! Instructions of library and plain Rust, counted by callgrind. The program runs itself once more under callgrind and hands the sets over
//! in a file, since drawing them by the model would take minutes there.
use crate::calls;
use crate::library::Library;
use crate::plain::Plain;
use crate::sets::{Case, Set, Task};
use std::hint::black_box;
use std::path::{Path, PathBuf};
use std::process::{Command, Stdio};
use std::{env, fs, process, thread};

/// Instructions for all calls of a set.
#[derive(Clone, Copy)]
pub struct Count {
    pub library: u64,
    pub plain: u64,
}

/// A folder for what callgrind writes, removed with all that is in it.
struct Folder(PathBuf);

impl Folder {
    fn new() -> Result<Folder, String> {
        let path = env::temp_dir().join(format!("givendra-benchmark-{}", process::id()));
        fs::create_dir(&path).map_err(|e| format!("{}: {e}", path.display()))?;
        Ok(Folder(path))
    }
}

impl Drop for Folder {
    fn drop(&mut self) {
        let _ = fs::remove_dir_all(&self.0);
    }
}

// ---- under callgrind

/// Callgrind counts from each entry into this function to its end, and then writes the count. What stands after the call keeps the compiler
/// from leaving the function by a jump, which callgrind would not see as its end.
#[inline(never)]
fn counted(program: fn(&Set), set: &Set) {
    black_box(program)(black_box(set));
    black_box(set);
}

/// Runs every set of a file once by the library and once by plain Rust. How many instructions a copy takes goes by where it lies, and the
/// environment and the program's words move the first thread's stack: so they run in a thread, whose stack begins with a page.
pub fn run(file: &str) -> Result<(), String> {
    let sets = read_sets(&fs::read(file).map_err(|e| format!("{file}: {e}"))?);
    let run_all = || {
        for set in &sets {
            counted(calls::run::<Library>, set);
            counted(calls::run::<Plain>, set);
        }
    };
    thread::scope(|scope| scope.spawn(run_all).join()).map_err(|_| "a call failed while it was counted".to_string())
}

// ---- the file of sets

fn write_bytes(file: &mut Vec<u8>, bytes: &[u8]) {
    file.extend((bytes.len() as u32).to_le_bytes());
    file.extend(bytes);
}

fn write_sets<'a>(sets: impl Iterator<Item = &'a Set>) -> Vec<u8> {
    let mut file = vec![];
    for set in sets {
        file.push(set.task as u8);
        file.extend((set.cases.len() as u32).to_le_bytes());
        for case in &set.cases {
            write_bytes(&mut file, &case.junction);
            write_bytes(&mut file, &case.plan);
            file.push(case.refusal);
        }
    }
    file
}

fn read_byte(file: &mut &[u8]) -> u8 {
    let (&byte, rest) = file.split_first().expect("a byte");
    *file = rest;
    byte
}

fn read_number(file: &mut &[u8]) -> usize {
    let (number, rest) = file.split_first_chunk().expect("four bytes");
    *file = rest;
    u32::from_le_bytes(*number) as usize
}

fn read_bytes(file: &mut &[u8]) -> Vec<u8> {
    let length = read_number(file);
    let (bytes, rest) = file.split_at(length);
    *file = rest;
    bytes.to_vec()
}

fn read_sets(mut file: &[u8]) -> Vec<Set> {
    let mut sets = vec![];
    while !file.is_empty() {
        let task = read_byte(&mut file);
        let task = *Task::ALL.iter().find(|t| **t as u8 == task).expect("a task");
        let number = read_number(&mut file);
        let case = |_| Case { junction: read_bytes(&mut file), plan: read_bytes(&mut file), refusal: read_byte(&mut file) };
        let cases = (0..number).map(case).collect();
        sets.push(Set { row: String::new(), task, cases });
    }
    sets
}

// ---- the counts

fn run_callgrind(sets: &Path, counts: &Path) -> Result<(), String> {
    let program = env::current_exe().map_err(|e| format!("where this program is: {e}"))?;
    let function = "benchmark::counts::counted";
    let status = Command::new("valgrind")
        .args(["--tool=callgrind", "--quiet"])
        .arg(format!("--callgrind-out-file={}", counts.display()))
        .arg(format!("--toggle-collect={function}"))
        .arg(format!("--dump-after={function}"))
        .arg(program)
        .args(["counting".as_ref(), sets.as_os_str()])
        .stdout(Stdio::null())
        .status()
        .map_err(|e| format!("valgrind, which counts the instructions, does not run: {e}"))?;
    if status.success() { Ok(()) } else { Err(format!("valgrind: {status}")) }
}

/// The count of the `n`th time that the function was left.
fn read_count(counts: &Path, n: usize) -> Result<u64, String> {
    let path = format!("{}.{n}", counts.display());
    let text = fs::read_to_string(&path).map_err(|e| format!("{path}: {e}"))?;
    let count = text.lines().find_map(|line| line.strip_prefix("totals: ")).and_then(|number| number.trim().parse().ok());
    count.filter(|&count| count > 0).ok_or(format!("{path} holds no count"))
}

/// The counts of all these sets, in their order.
pub fn of_sets(sets: &[&Set]) -> Result<Vec<Count>, String> {
    let folder = Folder::new()?;
    let (file, counts) = (folder.0.join("sets"), folder.0.join("counts"));
    fs::write(&file, write_sets(sets.iter().copied())).map_err(|e| format!("{}: {e}", file.display()))?;
    run_callgrind(&file, &counts)?;
    let count = |i| Ok(Count { library: read_count(&counts, 2 * i + 1)?, plain: read_count(&counts, 2 * i + 2)? });
    (0..sets.len()).map(count).collect()
}
