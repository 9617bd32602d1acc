//! Document 01's program as a function: a file of records is fitted by the proved core,
//! its simulator included.

use crate::{Fitted, Place, Refusal, ffi};

/// The bytes of the longest text.
pub(crate) const LONGEST_TEXT: usize = 30_267;

/// What the fit of a file of records came to, see [`fit_records`].
#[derive(Clone, Debug, PartialEq)]
pub struct RecordsFit {
    /// -2 log likelihood without the observations' log 2π.
    pub objective: f64,
    /// The evaluations that were taken.
    pub taken: u32,
    /// Each subject's eta at its mode.
    pub etas: Vec<f64>,
    /// Each record's predictions.
    pub fitted: Vec<FittedRecord>,
    /// 1 - ((sum of eta²) / n) / omega, with n subjects and omega 1.
    pub shrinkage: f64,
}

/// A record's predictions.
#[derive(Clone, Copy, Debug, PartialEq)]
pub struct FittedRecord {
    /// Its subject, counted from 0.
    pub subject: usize,
    /// Its number within its subject, counted from 0.
    pub observation: usize,
    /// The predictions at eta zero and at the mode.
    pub predictions: Fitted,
}

/// Fits a file of records as the program `focei` does: 48 bytes each, little-endian,
/// subject and a reserved word that is 0 (32 bits each), then value, additive and
/// proportional deviation, base and slope; the simulator predicts base + slope · exp(eta).
/// Refused are what is no file of records (20), and what a session refuses.
///
///     use curlewstand::fit_records;
///
///     // one subject, measured once: value 0, deviation 1, a model that predicts 0
///     let mut record = [0; 48];
///     record[16..24].copy_from_slice(&1f64.to_le_bytes());
///     let fit = fit_records(&record)?;
///     assert_eq!((fit.objective, fit.taken, fit.shrinkage), (0., 17, 1.));
///     assert_eq!(fit.etas, [0.]);
///     assert_eq!(fit_records(&record[1..]).unwrap_err().number, 20);
///     # Ok::<(), curlewstand::Refusal>(())
pub fn fit_records(records: &[u8]) -> Result<RecordsFit, Refusal> {
    read(&fit_records_text(records)).expect("the text is as document 01 has it")
}

/// The text that the program `focei` prints of a file of records, byte by byte: floats
/// are the 16 hexadecimal digits of their bits.
///
///     assert_eq!(curlewstand::fit_records_text(b""), "R 1 - -\n");
pub fn fit_records_text(records: &[u8]) -> String {
    ffi::require_interface();
    let mut text = vec![0; LONGEST_TEXT];
    let length = unsafe {
        ffi::curlewstand_fit(
            records.as_ptr(),
            records.len(),
            text.as_mut_ptr(),
            text.len(),
        )
    };
    text.truncate(length);
    String::from_utf8(text).expect("the text is of letters, digits and blanks")
}

/// What a text of the program says. Nothing where it is none.
fn read(text: &str) -> Option<Result<RecordsFit, Refusal>> {
    let (mut first, mut last) = (None, None);
    let (mut etas, mut fitted) = (Vec::new(), Vec::new());
    for line in text.lines() {
        let words: Vec<&str> = line.split(' ').collect();
        match words[..] {
            ["O", objective, taken] => first = Some((float(objective)?, taken.parse().ok()?)),
            ["S", _, eta] => etas.push(float(eta)?),
            ["F", subject, observation, population, individual] => fitted.push(FittedRecord {
                subject: subject.parse().ok()?,
                observation: observation.parse().ok()?,
                predictions: Fitted {
                    population: float(population)?,
                    individual: float(individual)?,
                },
            }),
            ["H", shrinkage] => last = Some(float(shrinkage)?),
            ["R", number, subject, observation] => {
                return Some(Err(refusal(number, subject, observation)?));
            }
            _ => return None,
        }
    }
    let ((objective, taken), shrinkage) = (first?, last?);
    Some(Ok(RecordsFit {
        objective,
        taken,
        etas,
        fitted,
        shrinkage,
    }))
}

fn float(digits: &str) -> Option<f64> {
    u64::from_str_radix(digits, 16).ok().map(f64::from_bits)
}

fn refusal(number: &str, subject: &str, observation: &str) -> Option<Refusal> {
    let place = match (subject, observation) {
        ("-", "-") => Place::Nowhere,
        (subject, "-") => Place::Subject(subject.parse().ok()?),
        (subject, observation) => Place::Observation {
            subject: subject.parse().ok()?,
            observation: observation.parse().ok()?,
        },
    };
    let number = number.parse().ok()?;
    Some(Refusal { number, place })
}
