//! The answers stored with the cases of the crate `stored_cases` are the model's.
use model::cases::run;

/// The file `name` of the cases.
fn stored(name: &str) -> String {
    let path = format!("{}/../crates/stored_cases/{name}", env!("CARGO_MANIFEST_DIR"));
    std::fs::read_to_string(&path).unwrap_or_else(|e| panic!("{path}: {e}"))
}

#[test]
fn stored_answers() {
    let (said, wanted) = (run(&stored("stdin")), stored("stdout"));
    for (said, wanted) in said.lines().zip(wanted.lines()) {
        assert_eq!(said, wanted);
    }
    assert_eq!(said, wanted);
}

#[test]
#[should_panic(expected = "not known: ask what")]
fn unknown_word() {
    run("ask what: 00\n");
}
