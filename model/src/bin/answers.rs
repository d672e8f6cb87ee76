//! Reads a case file on standard input and prints the model's answers:
//! `cargo run --release --bin answers < ../crates/stored_cases/stdin`
use std::io::Read;

fn main() {
    let mut text = String::new();
    std::io::stdin().read_to_string(&mut text).expect("a case file");
    print!("{}", model::cases::run(&text));
}
