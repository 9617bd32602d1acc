//! A session on which the two sides part, for a reader: what it is given, what
//! was said so far, and what each side says then.

use crate::pair::{self, Alter};
use crate::shown::{list, shown_float};
use crate::shrink::smallest;
use layer_comparison::session_plan::{AnyModel, Plan, Subject};
use std::fmt::Write;
use std::time::Duration;

/// For how long a session is made smaller.
const WITHIN: Duration = Duration::from_secs(120);

/// Of the notes, so many from the beginning and so many from the end.
const NOTES: [usize; 2] = [60, 240];

/// The session of this seed made as small as it can be, and told.
pub fn report(seed: u64, plan: &Plan, alter: Option<Alter>) -> String {
    let parts_after = |plan: &Plan| {
        let outcome = pair::run(plan, alter);
        outcome.difference.map(|_| outcome.counts.evaluations())
    };
    let plan = smallest(plan, parts_after, WITHIN);
    let mut text = format!(
        "the two sides part in the session of seed {seed} (--sessions 1 --seed {seed})\n\
         made as small as it could be it is this:\n\n"
    );
    setup(&mut text, &plan);
    for (number, subject) in plan.subjects.iter().enumerate() {
        describe(&mut text, number, subject);
    }
    let outcome = pair::follow(&plan, alter);
    text.push_str(
        "\nwhat was said, floats with their words; a row's values, then its derivatives:\n\n",
    );
    notes(&mut text, &outcome.notes);
    match outcome.difference {
        Some(difference) => write!(
            text,
            "\nthen they part, at {}\n  original: {}\n  ours:     {}\n",
            difference.what, difference.original, difference.ours
        ),
        None => writeln!(text, "\nrun once more, they do not part"),
    }
    .unwrap();
    text
}

fn setup(text: &mut String, plan: &Plan) {
    let setup = &plan.setup;
    let omega = match setup.effects {
        1 => &setup.omega[..1],
        _ => &setup.omega[..],
    };
    let additive = setup.additive.map_or("none".into(), shown_float);
    writeln!(
        text,
        "effects {}, omega {}\neta_bound {}, gradient_tolerance {}\nwidth {}, K {}, override {additive}, output budget {}, max_evaluations {}",
        setup.effects,
        list(omega),
        shown_float(setup.eta_bound),
        shown_float(setup.gradient_tolerance),
        setup.width,
        setup.k,
        setup.output_budget,
        setup.max_evaluations
    )
    .unwrap();
}

fn describe(text: &mut String, number: usize, subject: &Subject) {
    let (kind, parameters, seed) = match subject.model {
        AnyModel::One(model) => (format!("{:?}", model.kind), model.parameters, model.seed),
        AnyModel::Two(model) => (format!("{:?}", model.kind), model.parameters, model.seed),
    };
    writeln!(
        text,
        "subject {number}: simulator {kind} of {}, seed {seed}; {} rows, clock {:?}, drift {:?}",
        list(&parameters),
        subject.rows,
        subject.clock,
        subject.drift
    )
    .unwrap();
    for (number, one) in subject.observations.iter().enumerate() {
        writeln!(
            text,
            "  observation {number}: output {}, row {}, value {}, additive {}, proportional {}",
            one.output,
            one.row,
            shown_float(one.value),
            shown_float(one.additive),
            shown_float(one.proportional)
        )
        .unwrap();
    }
}

fn notes(text: &mut String, notes: &[String]) {
    let [first, last] = NOTES;
    let left_out = notes.len().saturating_sub(first + last);
    for (number, note) in notes.iter().enumerate() {
        if left_out > 0 && number == first {
            writeln!(text, "({left_out} lines are left out here)").unwrap();
        }
        if left_out == 0 || number < first || number >= first + left_out {
            writeln!(text, "{note}").unwrap();
        }
    }
}
