//! Times whole sessions beside the original in one run. Build with `--release`;
//! `--quick` takes fewer cells and less time.
//!
//! Both sides run the same objectives on the same cohorts, one after the other
//! in turn, and must come to the same, bit by bit. What is told is the core
//! alone, for an evaluation that is asked for, kept ones included:
//!
//! - The simulator's time is measured within each objective and taken off, and
//!   so is what the clock itself takes.
//! - The original owns its replies, a Vec of rows with Vecs within: making them
//!   is the simulator's affair and taken off with it. It frees them itself;
//!   what that takes is measured apart, and taken off too.
//! - Opening a session is not timed.

#[cfg(source_at_hand)]
mod cohort;
#[cfg(source_at_hand)]
mod sides;
#[cfg(source_at_hand)]
mod stopwatch;
#[cfg(source_at_hand)]
mod table;
#[cfg(source_at_hand)]
mod timing;

#[cfg(source_at_hand)]
fn main() {
    let quick = match std::env::args().nth(1).as_deref() {
        None => false,
        Some("--quick") => true,
        Some(other) => {
            eprintln!("bench: {other}: no such option; there is --quick");
            std::process::exit(2);
        }
    };
    table::print(quick);
}

#[cfg(not(source_at_hand))]
fn main() {
    println!("bench: the original's source is not at hand, so there is nothing to time beside");
}
