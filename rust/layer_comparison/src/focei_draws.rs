//! Random files of records: lines with noise, and files that are damaged.

use crate::focei::{Record, MOST_RECORDS, RECORD};
use crate::plausible::subnormal;
use crate::random::Random;

/// What was done to a file.
#[derive(Clone, Copy, Debug, PartialEq, Eq, PartialOrd, Ord)]
pub enum Kind {
    Plain,
    /// Many subjects of one record.
    Many,
    /// One subject with more records than are kept.
    Large,
    /// As many records as there may be, and one more.
    Most,
    TooMany,
    /// Not whole records.
    Cut,
    Reserved,
    /// A subject left out, or back to one before.
    Jump,
    /// A float of a special kind in some place.
    Special,
    /// Any bits in all floats.
    Noise,
    /// Searches that take long.
    Steep,
    /// Likelihoods whose sum, or twice it, is beyond all floats.
    Overflow,
}

pub const KINDS: [Kind; 17] = [
    Kind::Plain,
    Kind::Plain,
    Kind::Plain,
    Kind::Plain,
    Kind::Many,
    Kind::Large,
    Kind::Most,
    Kind::TooMany,
    Kind::Cut,
    Kind::Reserved,
    Kind::Jump,
    Kind::Special,
    Kind::Special,
    Kind::Special,
    Kind::Noise,
    Kind::Steep,
    Kind::Overflow,
];

pub fn draw(random: &mut Random, kind: Kind) -> Vec<u8> {
    let mut records = match kind {
        Kind::Many => subjects(random, 40, 1),
        Kind::Large => subjects(random, 2, 80),
        Kind::Most => exactly(random, MOST_RECORDS),
        Kind::TooMany => exactly(random, MOST_RECORDS + 1),
        Kind::Steep => steep(random),
        Kind::Overflow => overflow(random),
        _ => subjects(random, 4, 5),
    };
    damage(random, kind, &mut records);
    let mut bytes: Vec<u8> = records.iter().flat_map(Record::bytes).collect();
    if kind == Kind::Cut {
        let less = 1 + random.below(RECORD as u64 - 1) as usize;
        match random.coin() {
            true => bytes.truncate(bytes.len() - less),
            false => bytes.resize(bytes.len() + less, 0),
        }
    }
    bytes
}

/// Up to so many subjects with up to so many records each.
fn subjects(random: &mut Random, most: u64, most_records: u64) -> Vec<Record> {
    let rough = random.below(4) == 0;
    let mut records = Vec::new();
    for subject in 0..1 + random.below(most) {
        let eta = random.uniform(-1., 1.);
        for _ in 0..1 + random.below(most_records) {
            records.push(record(random, subject as u32, eta, rough));
        }
    }
    records.truncate(MOST_RECORDS);
    records
}

fn exactly(random: &mut Random, count: usize) -> Vec<Record> {
    let per_subject = random.pick(&[1, 2, 7, 64, 65, 300]);
    (0..count)
        .map(|number| record(random, (number / per_subject) as u32, 0.25, false))
        .collect()
}

/// A value about a line at some eta; a rough one has a line of any slope and
/// deviations that go with the prediction.
fn record(random: &mut Random, subject: u32, eta: f64, rough: bool) -> Record {
    let [mut base, mut slope] = [0., random.uniform(0.5, 2.)];
    let [mut additive, mut proportional] = [random.uniform(0.3, 1.), 0.];
    if rough {
        base = random.uniform(-2., 2.);
        slope = random.uniform(-3., 3.);
        additive *= random.pick(&[0., 0.1, 1.]);
        proportional = random.uniform(0.01, 0.5);
    }
    let prediction = base + slope * eta.exp();
    let noise = random.uniform(-1., 1.) * (additive + proportional * prediction);
    Record {
        subject,
        reserved: 0,
        floats: [prediction + noise, additive, proportional, base, slope],
    }
}

/// Many subjects whose likelihood has a sharp peak: a tiny deviation, or one
/// that goes with a prediction which passes through zero at the mode. There
/// secant steps gain little, and halvings must follow them.
fn steep(random: &mut Random) -> Vec<Record> {
    let count = random.pick(&[60, MOST_RECORDS]);
    let tiny = random.pick(&[1e-3, 1e-6, 1e-9, 1e-12]);
    let through_zero = random.coin();
    (0..count)
        .map(|subject| {
            let floats = match through_zero {
                true => [0., tiny, 0.5, -random.uniform(0.3, 1.1), 1.],
                false => [random.uniform(0.1, 20.), tiny, 0., 0., 1.],
            };
            Record {
                subject: subject as u32,
                reserved: 0,
                floats,
            }
        })
        .collect()
}

/// A subject of lines, and one of two or three flat records far from their
/// values.
fn overflow(random: &mut Random) -> Vec<Record> {
    let mut records = vec![record(random, 0, 0.25, false)];
    let subject = random.pick(&[0, 1]);
    let flat = Record {
        subject,
        reserved: 0,
        floats: [random.pick(&[0.9e154, 1.3e154]), 1., 0., 0., 0.],
    };
    records.extend(vec![flat; random.pick(&[1, 2, 3])]);
    records
}

fn damage(random: &mut Random, kind: Kind, records: &mut [Record]) {
    let Some(last) = records.len().checked_sub(1) else {
        return;
    };
    let at = random.below(last as u64 + 1) as usize;
    match kind {
        Kind::Reserved => records[at].reserved = random.pick(&[1, 1 << 31, u32::MAX]),
        Kind::Jump => jump(random, &mut records[at..], at == 0),
        Kind::Special => {
            for _ in 0..random.pick(&[1, 1, 1, 2]) {
                let at = random.below(last as u64 + 1) as usize;
                let place = random.below(5) as usize;
                records[at].floats[place] = special(random);
            }
        }
        Kind::Noise => {
            let from = random.pick(&[0, 3, 3]);
            for x in records.iter_mut().flat_map(|one| &mut one.floats[from..]) {
                *x = f64::from_bits(random.word());
            }
        }
        _ => {}
    }
}

/// From a record on, all subjects or just its own.
fn jump(random: &mut Random, records: &mut [Record], is_first: bool) {
    let by = random.pick(&[1, 2, 2, 1 << 20, u32::MAX]);
    let alone = random.coin() && !is_first;
    let count = if alone { 1 } else { records.len() };
    for record in &mut records[..count] {
        record.subject = record.subject.wrapping_add(by);
    }
}

fn special(random: &mut Random) -> f64 {
    let tiny = subnormal(random);
    random.pick(&[
        f64::NAN,
        f64::INFINITY,
        f64::NEG_INFINITY,
        0.,
        -0.,
        tiny,
        -tiny,
        5e-324,
        f64::MIN_POSITIVE,
        1e-160,
        1e154,
        1.3e154,
        1e200,
        -1e300,
        f64::MAX,
        -1.,
    ])
}
