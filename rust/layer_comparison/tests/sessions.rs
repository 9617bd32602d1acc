//! Whole sessions: the program `test_sessions` beside the original, every
//! answer of every call.
#![cfg(source_at_hand)]

use layer_comparison::random::Random;
use layer_comparison::session_draws::draw;
use layer_comparison::session_example::printed_example;
use layer_comparison::session_met::Met;
use layer_comparison::session_model::tell;
use layer_comparison::session_replay::{over_seeds, program};
use std::time::Instant;

#[test]
fn the_printed_example_is_told() {
    let told = tell(&printed_example(17));
    assert_eq!(told.expected.len(), 1 + 17 + 1);
    let first = told.expected[1].words;
    let [eta, individual] = [-4f64, oracle::libm::exp(-4.)].map(f64::to_bits);
    assert_eq!(first[..7], [0, eta, 0, individual, 0, 1, 0]);
    let last = told.expected[18].words;
    assert_eq!(last[..7], [1, 0, 1f64.to_bits(), 0, 0, 17, 17]);
    let told = tell(&printed_example(16));
    assert_eq!(told.expected[17].words[..7], [2, 6, 1, 0, 0, 16, 16]);
}

/// Reads a session's words as the program does, and counts its calls.
fn calls_in(script: &[u64]) -> u64 {
    let mut words = script.iter().copied();
    let mut next = || words.next();
    let length = next().expect("a session has a length");
    assert_eq!(length as usize + 1, script.len());
    let skip = |next: &mut dyn FnMut() -> Option<u64>, count: u64| {
        assert!((0..count).all(|_| next().is_some()), "the session goes on");
    };
    let list = |next: &mut dyn FnMut() -> Option<u64>, each: u64| {
        let count = next().expect("a list has a length");
        skip(next, each * count);
    };
    skip(&mut next, 13 + 4);
    list(&mut next, 1);
    list(&mut next, 5);
    let mut calls = 0;
    while let Some(act) = next() {
        calls += (act <= 3) as u64;
        match act {
            0 | 3 => {}
            1 => skip(&mut next, 5),
            2 | 4 | 7 => list(&mut next, 1),
            5 => skip(&mut next, 4),
            6 => skip(&mut next, 13),
            8 => list(&mut next, 5),
            9 => skip(&mut next, 2),
            _ => panic!("there is no act {act}"),
        }
    }
    calls
}

#[test]
fn scripts_have_a_call_for_each_answer() {
    for seed in 0..2_000 {
        let told = tell(&draw(&mut Random::new(seed)));
        assert_eq!(calls_in(&told.script), told.expected.len() as u64, "{seed}");
    }
}

/// More than the sessions that are asked for.
const SESSIONS: u64 = 104_000;

#[test]
fn sessions_beside_the_original() {
    let begun = Instant::now();
    let program = program("test_sessions");
    let half = SESSIONS / 2;
    let met = std::thread::scope(|scope| {
        let other = scope.spawn(|| over_seeds(&program, half..SESSIONS));
        let mut met = over_seeds(&program, 0..half);
        met.add(
            &other
                .join()
                .unwrap_or_else(|why| std::panic::resume_unwind(why)),
        );
        met
    });
    layer_comparison::say(&format!("sessions: {met:?}, {:.1?}", begun.elapsed()));
    hold(&met);
}

/// Every number that a session can come to is met. 15 is none of them: before
/// 48 halvings are over the bracket is narrower than any tolerance.
fn hold(met: &Met) {
    assert!(met.sessions >= 100_000, "{met:?}");
    let numbers = (1..20).filter(|number| *number != 15);
    met.hold_refusals(20, &numbers.collect::<Vec<_>>());
    assert_eq!(met.refused[15], 0, "{met:?}");
    met.hold(5_000, OFTEN);
    met.hold(200, SELDOM);
    met.hold(20, &["finished without a question at the limit"]);
}

const OFTEN: &[&str] = &[
    "finished with one effect",
    "finished with two effects",
    "modes won by a later start",
    "evictions",
    "subjects with more than K rows",
    "refused after subjects that passed",
    "warm starts set",
    "more rows kept than K",
    "objectives left",
    "sessions begun anew",
    "setups refused between objectives",
    "objectives refused amid another",
    "objectives refused between others",
    "replies refused and given again",
    "replies that none awaited",
    "failures refused and given again",
    "failures that none awaited",
    "replies just within the budget",
    "kept words just enough",
    "work words just enough",
    "warm words just enough",
    "results just enough",
    "K 1",
    "width 1",
];

const SELDOM: &[&str] = &[
    "finished without a question",
    "subjects with kept points",
    "finished with the last evaluation",
    "no evaluation allowed",
    "12 of a row",
    "12 of a sum",
    "17 by a side",
    "17 by a time",
    "failures",
    "replies that are not whole rows",
    "empty replies",
    "replies a row over the budget",
    "sessions begun anew amid an objective",
    "setups refused amid an objective",
    "the largest bound of eta",
    "the least bound of eta",
    "the largest omega",
    "the least omega",
    "width 64",
];
