//! What the objectives of a session have taken of the simulator.

use crate::{Place, Refusal};
use std::fmt;

/// How an objective ended.
///
///     use curlewstand::End;
///
///     assert_eq!(End::Finished(-3.5).to_string(), "finished at -3.5");
#[derive(Clone, Copy, Debug, PartialEq)]
pub enum End {
    /// It has not: a reply is awaited.
    Awaiting,
    /// With its value.
    Finished(f64),
    /// With a refusal.
    Refused(Refusal),
}

impl fmt::Display for End {
    fn fmt(&self, f: &mut fmt::Formatter<'_>) -> fmt::Result {
        match self {
            End::Awaiting => f.write_str("awaits a reply"),
            End::Finished(objective) => write!(f, "finished at {objective}"),
            End::Refused(refusal) => write!(f, "refused: {refusal}"),
        }
    }
}

/// One objective: what was booked for it, and what it took.
///
///     use curlewstand::{End, Entry};
///
///     let entry = Entry { subjects: 40, taken: 680, booked: 3280, end: End::Finished(-7.5) };
///     assert_eq!(entry.to_string(), "40 subjects, 680 taken, 3,280 booked, finished at -7.5");
#[derive(Clone, Copy, Debug, PartialEq)]
pub struct Entry {
    /// How many subjects it is of.
    pub subjects: usize,
    /// The evaluations that it took: those that the tally counts.
    pub taken: u32,
    /// The most that it could take: the ceiling for each subject.
    pub booked: u64,
    /// How it ended.
    pub end: End,
}

impl fmt::Display for Entry {
    fn fmt(&self, f: &mut fmt::Formatter<'_>) -> fmt::Result {
        let [subjects, taken, booked] =
            [self.subjects as u64, u64::from(self.taken), self.booked].map(grouped);
        let end = self.end;
        write!(
            f,
            "{subjects} subjects, {taken} taken, {booked} booked, {end}"
        )
    }
}

/// All objectives that a session has begun, in order, those before a
/// [`restart`](crate::Session::restart) among them. As text it has a line for each and
/// a line for all; [`csv`](Ledger::csv) has the same as a table.
///
///     use curlewstand::*;
///
///     let one = Observation { output: 0, row: 0, value: 1.2, additive: 1., proportional: 0. };
///     let mut session = Session::new(Setup::one_effect(100), &[vec![one]]).unwrap();
///     let objective = session.objective(OneEffect::new(1., 1.), |question, rows| {
///         rows.push(0., Side::Post, &[(question.individual[0], [1.])])
///     });
///     let ledger = session.ledger();
///     assert_eq!(ledger.entries()[0].end, End::Finished(objective.unwrap()));
///     assert_eq!(ledger.booked(), 82);
///     assert!(ledger.to_string().ends_with(&format!("1 objective, {} taken, 82 booked", ledger.taken())));
#[derive(Clone, Debug, Default, PartialEq)]
pub struct Ledger {
    entries: Vec<Entry>,
}

impl Ledger {
    /// An objective is begun.
    pub(crate) fn begin(&mut self, entry: Entry) {
        self.entries.push(entry);
    }

    /// What is known by now of the objective that was begun last.
    pub(crate) fn note(&mut self, taken: u32, end: End) {
        if let Some(entry) = self.entries.last_mut() {
            (entry.taken, entry.end) = (taken, end);
        }
    }

    /// The objectives.
    ///
    ///     # use curlewstand::Ledger;
    ///     assert!(Ledger::default().entries().is_empty());
    pub fn entries(&self) -> &[Entry] {
        &self.entries
    }

    /// The evaluations that all objectives took.
    ///
    ///     # use curlewstand::Ledger;
    ///     assert_eq!(Ledger::default().taken(), 0);
    pub fn taken(&self) -> u64 {
        self.entries.iter().map(|one| u64::from(one.taken)).sum()
    }

    /// The most that they could take.
    ///
    ///     # use curlewstand::Ledger;
    ///     assert_eq!(Ledger::default().booked(), 0);
    pub fn booked(&self) -> u64 {
        self.entries.iter().map(|one| one.booked).sum()
    }

    /// The line for all objectives.
    ///
    ///     # use curlewstand::Ledger;
    ///     assert_eq!(Ledger::default().total(), "0 objectives, 0 taken, 0 booked");
    pub fn total(&self) -> String {
        let number = self.entries.len();
        let [taken, booked] = [self.taken(), self.booked()].map(grouped);
        let plural = if number == 1 { "" } else { "s" };
        format!("{number} objective{plural}, {taken} taken, {booked} booked")
    }

    /// A table with a line for each objective, for a spreadsheet: its number, counted
    /// from 1, the subjects, what it took and what was booked, how it ended, and its
    /// value or the refusal's number and place.
    ///
    ///     # use curlewstand::Ledger;
    ///     let head = "objective,subjects,taken,booked,end,value,refusal,subject,observation\n";
    ///     assert_eq!(Ledger::default().csv(), head);
    pub fn csv(&self) -> String {
        let head = "objective,subjects,taken,booked,end,value,refusal,subject,observation\n";
        let line = |(number, entry): (usize, &Entry)| {
            let Entry {
                subjects,
                taken,
                booked,
                end,
            } = entry;
            let end = csv_end(end);
            format!("{},{subjects},{taken},{booked},{end}\n", number + 1)
        };
        let lines = self.entries.iter().enumerate().map(line);
        std::iter::once(head.into()).chain(lines).collect()
    }
}

/// The last five columns.
fn csv_end(end: &End) -> String {
    match *end {
        End::Awaiting => "awaiting,,,,".into(),
        End::Finished(objective) => format!("finished,{objective},,,"),
        End::Refused(Refusal { number, place }) => {
            let place = match place {
                Place::Nowhere => ",".into(),
                Place::Subject(subject) => format!("{subject},"),
                Place::Observation {
                    subject,
                    observation,
                } => format!("{subject},{observation}"),
            };
            format!("refused,,{number},{place}")
        }
    }
}

impl fmt::Display for Ledger {
    fn fmt(&self, f: &mut fmt::Formatter<'_>) -> fmt::Result {
        for (number, entry) in self.entries.iter().enumerate() {
            writeln!(f, "objective {}: {entry}", number + 1)?;
        }
        f.write_str(&self.total())
    }
}

/// A number with its thousands apart, as people read evaluations.
///
///     assert_eq!(curlewstand::grouped(656_000), "656,000");
pub fn grouped(number: u64) -> String {
    let digits = number.to_string();
    let mut text = String::new();
    for (at, digit) in digits.chars().enumerate() {
        if at > 0 && (digits.len() - at).is_multiple_of(3) {
            text.push(',');
        }
        text.push(digit);
    }
    text
}

#[cfg(test)]
mod tests {
    use super::*;

    #[test]
    fn thousands() {
        let numbers = [0, 999, 1000, 656_000, 1_234_567].map(grouped);
        assert_eq!(numbers, ["0", "999", "1,000", "656,000", "1,234,567"]);
    }

    #[test]
    fn every_end_in_the_table() {
        let place = Place::Observation {
            subject: 3,
            observation: 1,
        };
        let ends = [
            End::Awaiting,
            End::Finished(-1.5),
            End::Refused(Refusal { number: 11, place }),
            End::Refused(Refusal {
                number: 8,
                place: Place::Subject(2),
            }),
            End::Refused(Refusal {
                number: 18,
                place: Place::Nowhere,
            }),
        ];
        let mut ledger = Ledger::default();
        for end in ends {
            ledger.begin(Entry {
                subjects: 40,
                taken: 0,
                booked: 3280,
                end: End::Awaiting,
            });
            ledger.note(680, end);
        }
        let csv = ledger.csv();
        let lines: Vec<&str> = csv.lines().skip(1).collect();
        assert_eq!(
            lines,
            [
                "1,40,680,3280,awaiting,,,,",
                "2,40,680,3280,finished,-1.5,,,",
                "3,40,680,3280,refused,,11,3,1",
                "4,40,680,3280,refused,,8,2,",
                "5,40,680,3280,refused,,18,,",
            ]
        );
        assert_eq!(ledger.total(), "5 objectives, 3,400 taken, 16,400 booked");
    }
}
