//! A short run of sessions on both sides, and the comparison itself: a
//! difference is found, made small and told.
#![cfg(source_at_hand)]

use oracle::session::Question;
use session_comparison::counts::{Counts, CEILINGS};
use session_comparison::pair;
use session_comparison::report::report;
use session_comparison::run::{run, spoil};
use std::process::{Command, Output};

fn program(arguments: &[&str]) -> Output {
    let program = Command::new(env!("CARGO_BIN_EXE_session_comparison"))
        .args(arguments)
        .output();
    program.expect("the program runs")
}

/// What it comes to is held to, so that a comparison which no longer meets
/// something fails.
#[test]
fn a_short_run() {
    let mut counts = Counts::default();
    let ran = run(1, 900, None, &mut counts, |_| {});
    if let Err(found) = ran {
        panic!("{}", report(found.seed, &found.plan, None));
    }
    assert_eq!(counts.sessions(), 900, "{counts}");
    assert!(counts.evaluations() > 100_000, "{counts}");
    let both = counts.by_effects();
    for (of, ceiling) in both.iter().zip(CEILINGS) {
        assert!(of.finished > 100 && of.left > 5, "{counts}");
        assert!(of.strays > 50 && of.warm_starts > 50, "{counts}");
        assert!(of.found > 1_000 && of.dropped_rows > 10_000, "{counts}");
        assert!(of.largest.subjects > 50, "{counts}");
        assert!(of.largest.finished_observations > 1_000, "{counts}");
        assert!(of.largest.asked <= ceiling, "{counts}");
        assert_eq!(of.largest.kept_rows, 100_000, "{counts}");
        for number in [6, 7, 8, 9, 10, 11, 12, 13, 14, 17, 19] {
            assert!(of.refused[number] > 0, "refused {number}: {counts}");
        }
        assert!(of.setups_refused[4] > 0, "{counts}");
        assert_eq!(of.refused[15], 0, "{counts}");
    }
    // with two effects there is neither an omega nor an override to give to an objective
    let [one, two] = &both;
    assert!(one.refused[2] > 0 && one.refused[3] > 0, "{counts}");
    assert_eq!((two.refused[2], two.refused[3]), (0, 0), "{counts}");
    assert!(
        two.setups_refused[2] > 0 && two.setups_refused[3] > 0,
        "{counts}"
    );
    // the longest searches that there are
    assert_eq!(both[0].largest.asked, 73, "{counts}");
    assert_eq!(both[1].largest.asked, 6_343, "{counts}");
}

/// Each of these alters our side's replies in another place: the sign of a
/// zero time is no difference, everything else is one.
#[test]
fn what_is_altered_is_found() {
    fn time(_: usize, _: &Question, words: &mut [u64]) {
        if words.first() == Some(&0) {
            words[0] = 1 << 63;
        }
    }
    fn derivative(_: usize, _: &Question, words: &mut [u64]) {
        if let Some(word) = words.last_mut() {
            *word ^= 1;
        }
    }
    fn at_zero(_: usize, question: &Question, words: &mut [u64]) {
        if question.eta == [0.; 2] && words.len() > 2 {
            words[2] ^= 1;
        }
    }
    let differ = |alter: pair::Alter| run(1, 60, Some(alter), &mut Counts::default(), |_| {});
    assert!(differ(time).is_ok());
    assert!(differ(derivative).is_err());
    assert!(differ(at_zero).is_err());
    assert!(differ(spoil).is_err());
}

#[test]
fn a_difference_is_made_small_and_told() {
    let ran = run(1, 100, Some(spoil), &mut Counts::default(), |_| {});
    let found = ran.expect_err("a spoilt reply is a difference");
    let text = report(found.seed, &found.plan, Some(spoil));
    for part in [
        &format!("(--sessions 1 --seed {})", found.seed),
        "effects ",
        "subject 0: simulator ",
        "observation 0: output 0, row 0",
        "asks of subject 0 eta ",
        "ours is told instead",
        "then they part, at ",
        "  original: ",
        "  ours:     ",
    ] {
        assert!(text.contains(part), "{part} is missing: {text}");
    }
    assert!(!text.contains("subject 1"), "{text}");
    assert!(text.lines().count() < 400, "{text}");
}

#[test]
fn the_program_tells_what_it_was_asked() {
    let alike = program(&["--sessions", "20", "--seed", "3"]);
    let text = String::from_utf8_lossy(&alike.stdout).into_owned();
    assert!(alike.status.success(), "{text}");
    assert!(text.starts_with("20 sessions alike, "), "{text}");
    assert!(text.contains("largest: asked by one search"), "{text}");

    let spoilt = program(&["--sessions", "100", "--spoil"]);
    let text = String::from_utf8_lossy(&spoilt.stdout).into_owned();
    assert_eq!(spoilt.status.code(), Some(1), "{text}");
    assert!(text.contains("then they part, at "), "{text}");

    let wrong = program(&["--sessions", "none"]);
    assert_eq!(wrong.status.code(), Some(2));
    let text = String::from_utf8_lossy(&wrong.stderr).into_owned();
    assert!(
        text.contains("--sessions wants a number, not none"),
        "{text}"
    );
    assert!(
        text.contains("usage: session_comparison --sessions N"),
        "{text}"
    );
}
