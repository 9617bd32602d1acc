//! That the C header says what this crate says: numbers, sentences and version.

use crate::Reason;
use crate::records::LONGEST_TEXT;
use crate::session::{
    ANSWER_WORDS, ESTIMATE_WORDS, FIRST, FITTED_WORDS, STATE_WORDS, SUBJECT, WORDS_FOR_A_ROW,
    WORK_WORDS,
};

const HEADER: &str = include_str!("../../../include/curlewstand.h");

/// What the header defines a name as.
fn defined(name: &str) -> &'static str {
    let start = format!("#define {name} ");
    let line = HEADER.lines().find_map(|line| line.strip_prefix(&start));
    line.unwrap_or_else(|| panic!("{name} is not in the header"))
}

#[test]
fn numbers() {
    for (name, number) in [
        ("STATE_WORDS", STATE_WORDS),
        ("ANSWER_WORDS", ANSWER_WORDS),
        ("STATE_SUBJECT", SUBJECT),
        ("STATE_FIRST", FIRST),
        ("SUBJECT_RESULTS", ESTIMATE_WORDS),
        ("OBSERVATION_RESULTS", FITTED_WORDS),
        ("LONGEST_TEXT", LONGEST_TEXT),
    ] {
        let name = format!("CURLEWSTAND_{name}");
        assert_eq!(defined(&name), number.to_string(), "{name}");
    }
    let work = defined("CURLEWSTAND_WORK_WORDS(largest)");
    assert_eq!(work, format!("((size_t){WORK_WORDS} * (size_t)(largest))"));
    let cache = defined("CURLEWSTAND_CACHE_WORDS(k)");
    assert_eq!(cache, format!("((size_t){WORDS_FOR_A_ROW} * (size_t)(k))"));
}

#[test]
fn sentences() {
    for reason in Reason::all() {
        let (number, sentence) = (reason as u32, reason.sentence());
        let line = format!("    case {number}: return \"{sentence}\";");
        assert!(HEADER.lines().any(|one| one == line), "{line}");
    }
    let next = format!("    case {}: ", Reason::all().len() + 1);
    assert!(!HEADER.contains(&next), "{next}");
}

/// The version's second number is the interface's, in the name of the symbol too.
#[test]
fn version() {
    let version = env!("CARGO_PKG_VERSION");
    assert_eq!(defined("CURLEWSTAND_VERSION"), format!("\"{version}\""));
    let interface = env!("CARGO_PKG_VERSION_MINOR");
    assert_eq!(defined("CURLEWSTAND_INTERFACE"), interface);
    assert!(HEADER.contains(&format!(
        "uint32_t curlewstand_interface_{interface}(void);"
    )));
    assert_eq!(crate::ffi::curlewstand_interface_2().to_string(), interface);
}
