//! Runs whole sessions on both sides, Curlewstand's and the original's, and
//! tells what they came to; or, where the two part, a session as small as can
//! be that shows it.
//!
//!     session_comparison --sessions N [--seed S]

use session_comparison::arguments::{parse, Arguments, USAGE};
use std::process::ExitCode;
#[cfg(source_at_hand)]
use std::time::{Duration, Instant};

fn main() -> ExitCode {
    match parse(std::env::args().skip(1)) {
        Ok(arguments) => compare_sessions(arguments),
        Err(why) => {
            eprintln!("session_comparison: {why}\n\n{USAGE}");
            ExitCode::from(2)
        }
    }
}

#[cfg(not(source_at_hand))]
fn compare_sessions(_: Arguments) -> ExitCode {
    eprintln!("session_comparison: the original's source was not at hand when this was built (QSPQUEST_SRC)");
    ExitCode::from(2)
}

#[cfg(source_at_hand)]
fn compare_sessions(arguments: Arguments) -> ExitCode {
    use session_comparison::counts::Counts;
    use session_comparison::pair::Alter;
    use session_comparison::report::report;
    use session_comparison::run::{run, spoil};

    let begun = Instant::now();
    let mut counts = Counts::default();
    let alter = arguments.spoil.then_some(spoil as Alter);
    let (seed, sessions) = (arguments.seed, arguments.sessions);
    let ran = run(seed, sessions, alter, &mut counts, progress());
    println!(
        "{} sessions alike, {} objectives, {} evaluations on both sides, {:.0?}\n\n{counts}",
        counts.sessions(),
        counts.objectives(),
        counts.evaluations(),
        begun.elapsed()
    );
    match ran {
        Ok(()) => ExitCode::SUCCESS,
        Err(found) => {
            println!("{}", report(found.seed, &found.plan, alter));
            ExitCode::FAILURE
        }
    }
}

/// Says every now and then how far it is.
#[cfg(source_at_hand)]
fn progress() -> impl FnMut(&session_comparison::counts::Counts) {
    let mut told = Instant::now();
    move |counts| {
        if told.elapsed() >= Duration::from_secs(20) {
            told = Instant::now();
            let (sessions, evaluations) = (counts.sessions(), counts.evaluations());
            eprintln!("{sessions} sessions alike, {evaluations} evaluations");
        }
    }
}
