//! The tables, in markdown.

use crate::cohort::Cell;
use crate::timing::{Effort, First, Nanoseconds, Shape};
use std::io::Write;
use std::time::Duration;

const ROWS: [usize; 3] = [1, 10, 1_000];
const SUBJECTS: [usize; 3] = [1, 40, 1_000];
const KEPT: [usize; 3] = [64, 1_000, 100_000];

/// Nanoseconds of a simulator beside which the core's share is told.
const SIMULATOR: f64 = 10_000.;

const COLUMNS: [&str; 10] = [
    "rows",
    "subjects",
    "K",
    "asked",
    "questions",
    "first, ns: ours / original",
    "ratio",
    "share at 10 µs: ours / original",
    "again, ns: ours / original",
    "ratio",
];

/// What a run takes on.
struct Plan {
    first: Effort,
    again: Effort,
    most_observations: usize,
}

impl Plan {
    fn new(quick: bool) -> Self {
        let effort = |milliseconds, rounds| Effort {
            time: Duration::from_millis(milliseconds),
            rounds,
        };
        if quick {
            return Plan {
                first: effort(100, 3),
                again: effort(50, 3),
                most_observations: 1_000,
            };
        }
        Plan {
            first: effort(600, 3),
            again: effort(300, 5),
            most_observations: usize::MAX,
        }
    }
}

pub fn print(quick: bool) {
    let plan = Plan::new(quick);
    for effects in [1, 2] {
        print_effects(effects, &plan);
    }
    if quick {
        println!();
        println!(
            "With --quick, cohorts of more than {} observations are left out.",
            counted(plan.most_observations)
        );
    }
}

fn print_effects(effects: usize, plan: &Plan) {
    let name = if effects == 1 { "One" } else { "Two" };
    println!("\n{name} effect{}:\n", if effects == 1 { "" } else { "s" });
    println!("| {} |", COLUMNS.join(" | "));
    println!("|{}", "---|".repeat(COLUMNS.len()));
    let mut notes = Vec::new();
    for rows in ROWS {
        for subjects in SUBJECTS {
            let cell = Cell {
                effects,
                rows,
                subjects,
                k: 0,
            };
            if !cell.is_within_domain() {
                notes.push(format!(
                    "{} rows for each of {} subjects are beyond document 01's 100,000 observations, and left out.",
                    counted(rows),
                    counted(subjects)
                ));
            } else if rows * subjects <= plan.most_observations {
                notes.extend(print_shape(&cell, plan));
            }
        }
    }
    println!();
    for note in notes {
        println!("- {note}");
    }
}

/// Prints the lines of a shape for every K. For a single subject there is a
/// note of what was taken off.
fn print_shape(cell: &Cell, plan: &Plan) -> Option<String> {
    let shape = Shape::new(cell.effects, cell.rows, cell.subjects);
    let mut last = None;
    for k in KEPT {
        let (first, mut ours, mut original) = shape.first(k, plan.first);
        let again = match first.questions * cell.rows <= k {
            true => shape.again(&mut ours, &mut original, plan.again),
            false => None,
        };
        print_line(cell, k, &first, again);
        last = Some(first);
    }
    let first = last.filter(|_| cell.subjects == 1)?;
    let clock = shape.clock();
    Some(format!(
        "Taken off for a question of {} row{}: making the reply, {} ns; freeing it, - / {} ns; the clock, {clock:.0} ns on both sides.",
        counted(cell.rows),
        if cell.rows == 1 { "" } else { "s" },
        both(first.simulator),
        counted(first.freeing.round() as usize)
    ))
}

fn print_line(cell: &Cell, k: usize, first: &First, again: Option<Nanoseconds>) {
    let again = match again {
        Some(times) => format!("{} | {}", both(times), ratio(times)),
        None => "n/a | n/a".to_string(),
    };
    println!(
        "| {} | {} | {} | {} | {} | {} | {} | {} / {} | {again} |",
        counted(cell.rows),
        counted(cell.subjects),
        counted(k),
        counted(first.asked),
        counted(first.questions),
        both(first.core),
        ratio(first.core),
        share(first, first.core.ours),
        share(first, first.core.original),
    );
    std::io::stdout().flush().expect("the table is printed");
}

fn ratio(times: Nanoseconds) -> String {
    format!("{:.2}", times.ours / times.original)
}

fn both(times: Nanoseconds) -> String {
    let [ours, original] = [times.ours, times.original].map(|time| counted(time.round() as usize));
    format!("{ours} / {original}")
}

/// The core's part of an objective beside the simulator.
fn share(first: &First, core: f64) -> String {
    let core = core * first.asked as f64;
    let part = core / (core + SIMULATOR * first.questions as f64);
    format!("{:.1} %", 100. * part)
}

/// A number with a comma between its thousands.
fn counted(number: usize) -> String {
    let digits = number.to_string();
    let mut text = String::new();
    for (place, digit) in digits.chars().enumerate() {
        if place > 0 && (digits.len() - place).is_multiple_of(3) {
            text.push(',');
        }
        text.push(digit);
    }
    text
}
