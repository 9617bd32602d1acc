//! Where the two sides part: what was looked at, and what each side has there.

use crate::expected::{Expected, Results};
use crate::shown::words;
use curlewstand::{Session, Tally};
use std::fmt::{Debug, Display};

#[derive(Clone, Debug)]
pub struct Difference {
    pub what: String,
    pub original: String,
    pub ours: String,
}

pub fn parted(what: impl Display, original: String, ours: String) -> Difference {
    Difference {
        what: what.to_string(),
        original,
        ours,
    }
}

pub fn same<T: PartialEq + Display>(
    what: impl Display,
    original: T,
    ours: T,
) -> Result<(), Difference> {
    if original == ours {
        return Ok(());
    }
    Err(parted(what, original.to_string(), ours.to_string()))
}

pub fn same_as<T: PartialEq + Debug>(
    what: impl Display,
    original: &T,
    ours: &T,
) -> Result<(), Difference> {
    if original == ours {
        return Ok(());
    }
    Err(parted(what, format!("{original:x?}"), format!("{ours:x?}")))
}

pub fn same_tally(
    what: impl Display,
    expected: &Expected,
    ours: &Session,
) -> Result<(), Difference> {
    let [original, ours] = [expected.tally(), ours.tally()];
    if original == ours {
        return Ok(());
    }
    let shown = |tally: Tally| {
        format!(
            "evaluations {}, kept rows {}",
            tally.calls, tally.cached_rows
        )
    };
    Err(parted(what, shown(original), shown(ours)))
}

pub fn same_results(original: &Results, ours: &Results) -> Result<(), Difference> {
    let estimates = original.estimates.iter().zip(&ours.estimates);
    for (subject, (original, ours)) in estimates.enumerate() {
        if original != ours {
            let what = format!("eta, second eta and nll of subject {subject}");
            return Err(parted(what, words(original), words(ours)));
        }
    }
    let fitted = original.fitted.iter().zip(&ours.fitted);
    for (number, (original, ours)) in fitted.enumerate() {
        if original != ours {
            let what =
                format!("population and individual prediction of observation {number} of all");
            return Err(parted(what, words(original), words(ours)));
        }
    }
    let lengths = |results: &Results| (results.estimates.len(), results.fitted.len());
    same_as("lengths of the results", &lengths(original), &lengths(ours))
}
