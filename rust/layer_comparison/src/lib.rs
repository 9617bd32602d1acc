//! What the comparisons of Curlewstand with the original share.

#[cfg(source_at_hand)]
pub mod beside;
pub mod cache_keys;
pub mod cache_sequences;
#[cfg(source_at_hand)]
pub mod cache_sessions;
pub mod cache_words;
pub mod compare;
pub mod double_double;
#[cfg(source_at_hand)]
pub mod evaluation_asked;
pub mod evaluation_draws;
pub mod evaluation_met;
pub mod evaluations;
pub mod floats;
#[cfg(source_at_hand)]
pub mod focei;
#[cfg(source_at_hand)]
pub mod focei_draws;
pub mod garbage;
pub mod garbage_checks;
pub mod garbage_draws;
pub mod garbage_memory;
pub mod guarded;
pub mod kept;
pub mod leaves;
pub mod observation_checks;
pub mod plausible;
pub mod random;
pub mod rules;
pub mod rules_2d;
pub mod rules_cache;
pub mod rules_evaluation;
#[cfg(source_at_hand)]
pub mod searches;
#[cfg(source_at_hand)]
pub mod searches_2d;
#[cfg(source_at_hand)]
pub mod session_draws;
#[cfg(source_at_hand)]
pub mod session_example;
pub mod session_memory;
pub mod session_met;
#[cfg(source_at_hand)]
pub mod session_model;
#[cfg(source_at_hand)]
pub mod session_original;
#[cfg(source_at_hand)]
pub mod session_plan;
#[cfg(source_at_hand)]
pub mod session_replay;
#[cfg(source_at_hand)]
pub mod session_rules;
#[cfg(source_at_hand)]
pub mod session_strays;
pub mod session_words;
pub mod simulators;
pub mod simulators_2d;
#[cfg(source_at_hand)]
pub mod trials;
#[cfg(source_at_hand)]
pub mod trials_2d;

/// Prints a line even from a passing test, past the capture of its output.
pub fn say(line: &str) {
    use std::io::Write;
    let _ = std::io::stderr().write_all(format!("{line}\n").as_bytes());
}
