//! A refusal as the answer of a subcommand.

use crate::report::{Report, Table, Value};
use crate::text;
use curlewstand::{Place, Reason, Refusal};

const COLUMNS: &[&str] = &["number", "subject", "observation", "sentence", "advice"];

/// Number, place and sentence, and what to do. The note, a label and words, is for people
/// alone.
pub fn report(refusal: &Refusal, note: (String, String)) -> Report {
    let advice = refusal.reason().map_or("", Reason::advice);
    let (subject, observation) = place(refusal.place);
    let row = vec![
        Value::Whole(refusal.number.into()),
        subject,
        observation,
        refusal.sentence().into(),
        advice.into(),
    ];
    let entries = [
        ("refused".into(), refusal.to_string()),
        ("to do".into(), advice.into()),
        note,
    ];
    Report {
        text: text::labelled(&entries),
        tables: vec![Table::one("refusal", COLUMNS, row)],
    }
}

/// Subject and observation.
fn place(place: Place) -> (Value, Value) {
    match place {
        Place::Nowhere => (Value::Nothing, Value::Nothing),
        Place::Subject(subject) => (subject.into(), Value::Nothing),
        Place::Observation {
            subject,
            observation,
        } => (subject.into(), observation.into()),
    }
}
