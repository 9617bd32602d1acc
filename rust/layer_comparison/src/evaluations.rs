//! Evaluations by Curlewstand beside their definitions in plain Rust and, where
//! it can be asked, beside the original.

use crate::compare::{shown, simpler_than, simplest, word_of, Simpler};
use crate::guarded::Guarded;
use crate::rules_evaluation::{self, subject, Evaluated, Reply};
use std::fmt::Write;
use test_exports::cache::{CachedTerms, ROW_WORDS};
use test_exports::evaluation::{self, Observation, RefusedEvaluation, OUT_WORDS};
use test_exports::ffi::{curlewstand_evaluate, Question};

/// What is lent to a call.
#[derive(Clone, Debug)]
pub struct Lent {
    pub observations: Vec<Observation>,
    pub question: Question,
    pub reply: Vec<u64>,
    pub work: Vec<u64>,
    pub out: Vec<u64>,
}

/// What the original found: the words of the sums and the rows, or a refusal,
/// which leaves no rows.
pub struct Asked {
    pub end: Result<[u64; 7], RefusedEvaluation>,
    pub rows: Option<Vec<[u64; ROW_WORDS]>>,
}

/// Puts the same to the original, which some of what can be lent cannot be.
pub type Ask<'a> = &'a dyn Fn(&Lent) -> Option<Asked>;

/// What stands after the observations that are lent, which no call may read.
const DECOY: Observation = Observation {
    output: 0,
    row: 0,
    value: 1.,
    additive: 1.,
    proportional: 0.,
};

impl Lent {
    pub fn reply(&self) -> Reply<'_> {
        Reply::of(&self.reply, &self.question)
    }

    pub fn subject(&self) -> &[Observation] {
        subject(&self.observations, &self.question)
    }

    /// The call with all words between guards, those it only reads included.
    fn ours(&self) -> (u32, Guarded, Guarded) {
        let observations = [&self.observations[..], &[DECOY; 2]].concat();
        let mut reply = Guarded::new(&self.reply);
        let reply = reply.lent();
        let [mut work, mut out] = [&self.work, &self.out].map(|words| Guarded::new(words));
        let number = unsafe {
            curlewstand_evaluate(
                observations.as_ptr(),
                self.observations.len(),
                self.question,
                reply.as_ptr(),
                reply.len(),
                work.lent().as_mut_ptr(),
                self.work.len(),
                out.lent().as_mut_ptr(),
                self.out.len(),
            )
        };
        (number, work, out)
    }

    fn defined(&self, evaluated: &Evaluated) -> (u32, Guarded, Guarded) {
        let [mut work, mut out] = [&self.work, &self.out].map(|words| Guarded::new(words));
        let number = evaluated.write(self.question.block, work.lent(), out.lent());
        (number, work, out)
    }

    /// The safe function, with room for every row and nothing else.
    fn typed(&self, rows: usize) -> (Result<[u64; 7], RefusedEvaluation>, Vec<u64>) {
        let given = &self.question;
        let question = evaluation::Question {
            observations: given.from..given.to,
            individual: [given.individual, given.individual_2],
            additive: given.has_additive.then_some(given.additive),
            width: given.width,
            effects: given.effects,
            output_budget: given.output_budget,
            block: 0,
        };
        let mut work = vec![0; ROW_WORDS * rows];
        let sums = evaluation::evaluate(&self.observations, &question, &self.reply, &mut work);
        (sums.map(|sums| CachedTerms::from(sums).words()), work)
    }
}

/// What is defined, or where one of the sides differs from it.
fn compared(lent: &Lent, ask: Ask) -> Result<(Evaluated, bool), String> {
    let evaluated = rules_evaluation::evaluated(&lent.observations, &lent.question, &lent.reply);
    let (number, work, out) = lent.ours();
    let (defined, defined_work, defined_out) = lent.defined(&evaluated);
    if number != defined {
        return Err(format!("ours answers {number}, defined {defined}"));
    }
    if let Some(unlike) = out.first_unlike(&defined_out) {
        return Err(format!("out {unlike}"));
    }
    if let Some(unlike) = work.first_unlike(&defined_work) {
        return Err(format!("work {unlike}"));
    }
    let (end, rows) = lent.typed(evaluated.rows.len());
    if end != evaluated.end() || rows != evaluated.rows.as_flattened() {
        let end = end_text(&end);
        return Err(format!("the safe function gives {end} and {rows:x?}"));
    }
    let asked = ask(lent);
    if let Some(asked) = &asked {
        beside(&evaluated, asked)?;
    }
    Ok((evaluated, asked.is_some()))
}

/// A time that is not a number may be any such word on the original's side.
fn beside(evaluated: &Evaluated, asked: &Asked) -> Result<(), String> {
    let end = evaluated.end();
    if end != asked.end {
        let [end, asked] = [&end, &asked.end].map(end_text);
        return Err(format!("defined {end}, original {asked}"));
    }
    let words = |rows: &[[u64; ROW_WORDS]]| -> Vec<u64> {
        let words = rows.as_flattened().iter();
        words.map(|word| word_of(f64::from_bits(*word))).collect()
    };
    match &asked.rows {
        Some(rows) if words(rows) != words(&evaluated.rows) => {
            Err(format!("defined {:x?}, original {rows:x?}", evaluated.rows))
        }
        _ => Ok(()),
    }
}

fn end_text(end: &Result<[u64; 7], RefusedEvaluation>) -> String {
    match end {
        Ok(sums) => format!("{sums:x?}"),
        Err(refusal) => format!("{refusal:?}"),
    }
}

/// Compares one call. Gives what is defined, and whether the original was
/// asked; or a text about the simplest call that still shows a difference.
pub fn compare(lent: &Lent, ask: Ask) -> Result<(Evaluated, bool), String> {
    compared(lent, ask).map_err(|_| {
        let lent = simplest(lent, simpler, |lent| compared(lent, ask).is_err());
        let unlike = compared(&lent, ask).unwrap_err();
        format!("an evaluation differs: {unlike}\n{}", told(&lent))
    })
}

/// Calls simpler than this one in one place each: with less lent, then with
/// simpler numbers.
fn simpler(lent: &Lent) -> Simpler<'_, Lent> {
    let of_subject = (lent.subject().len() < lent.observations.len()).then(|| alone(lent));
    let fewer = (0..lent.observations.len()).map(|one| {
        changed(lent, |lent| {
            lent.observations.remove(one);
            lent.question.to = lent.question.to.saturating_sub(1);
        })
    });
    let rows = (0..lent.reply().rows).filter_map(|row| without_row(lent, row));
    let width = lent.question.width.min(1_000) as usize;
    let outputs = (0..width).filter_map(|output| without_output(lent, output));
    let own = lent
        .question
        .has_additive
        .then(|| changed(lent, |lent| lent.question.has_additive = false));
    let less = of_subject
        .into_iter()
        .chain(fewer)
        .chain(rows)
        .chain(outputs);
    Box::new(less.chain(own).chain(simpler_numbers(lent)))
}

fn changed(lent: &Lent, change: impl FnOnce(&mut Lent)) -> Lent {
    let mut changed = lent.clone();
    change(&mut changed);
    changed
}

/// The subject's observations alone, with just the words that are written.
fn alone(lent: &Lent) -> Lent {
    let observations = lent.subject().to_vec();
    let count = observations.len();
    let (from, to) = (0, count);
    Lent {
        observations,
        question: Question {
            from,
            to,
            block: 0,
            ..lent.question
        },
        reply: lent.reply.clone(),
        work: vec![!0; ROW_WORDS * count],
        out: vec![!0; OUT_WORDS],
    }
}

/// The call without a row that no observation asks for.
fn without_row(lent: &Lent, row: usize) -> Option<Lent> {
    let Reply {
        row_words, rows, ..
    } = lent.reply();
    if lent.observations.iter().any(|one| one.row == row) {
        return None;
    }
    Some(changed(lent, |lent| {
        lent.reply.drain(row * row_words..(row + 1) * row_words);
        for one in &mut lent.observations {
            // what is beyond the last stays so
            one.row -= (row < one.row && one.row <= rows) as usize;
        }
    }))
}

/// The call without an output that no observation asks for.
fn without_output(lent: &Lent, output: usize) -> Option<Lent> {
    let reply = lent.reply();
    if lent.observations.iter().any(|one| one.output == output) || reply.words_left_over() != 0 {
        return None;
    }
    let width = lent.question.width as usize;
    let stays = |word: usize| word < 2 || (word - 2) % width != output;
    let words = lent.reply.iter().enumerate();
    let words = words.filter(|(place, _)| stays(place % reply.row_words));
    let words = words.map(|(_, word)| *word).collect();
    Some(changed(lent, |lent| {
        lent.reply = words;
        for one in &mut lent.observations {
            one.output -= (one.output > output) as usize;
        }
        lent.question.width -= 1;
    }))
}

/// The same call with one of its rows' numbers, words or floats simpler.
fn simpler_numbers(lent: &Lent) -> impl Iterator<Item = Lent> + '_ {
    let rows = lent
        .observations
        .iter()
        .enumerate()
        .flat_map(|(number, one)| {
            let simple = [0, one.row / 2].into_iter().filter(|row| *row < one.row);
            simple.map(move |row| (number, row))
        });
    let rows = rows.map(|(number, row)| changed(lent, |lent| lent.observations[number].row = row));
    let words = lent
        .reply
        .iter()
        .enumerate()
        .flat_map(move |(place, word)| {
            let simple = simpler_than(f64::from_bits(*word)).into_iter();
            simple.map(move |x| changed(lent, |lent| lent.reply[place] = x.to_bits()))
        });
    let floats: Vec<f64> = floats_mut(&mut lent.clone())
        .into_iter()
        .map(|x| *x)
        .collect();
    let floats = floats.into_iter().enumerate().flat_map(move |(place, x)| {
        let simple = simpler_than(x).into_iter();
        simple.map(move |x| changed(lent, |lent| *floats_mut(lent)[place] = x))
    });
    rows.chain(words).chain(floats)
}

fn floats_mut(lent: &mut Lent) -> Vec<&mut f64> {
    let question = &mut lent.question;
    let mut floats = vec![
        &mut question.individual,
        &mut question.individual_2,
        &mut question.additive,
    ];
    for one in &mut lent.observations {
        floats.extend([&mut one.value, &mut one.additive, &mut one.proportional]);
    }
    floats
}

fn told(lent: &Lent) -> String {
    let mut text = format!("  {:?}\n", lent.question);
    let floats =
        |floats: &[f64]| -> Vec<String> { floats.iter().map(|x| shown(x.to_bits())).collect() };
    let given = &lent.question;
    let of_question = [given.individual, given.individual_2, given.additive];
    writeln!(text, "  individual, additive {:?}", floats(&of_question)).unwrap();
    for (number, one) in lent.observations.iter().enumerate() {
        let of_one = floats(&[one.value, one.additive, one.proportional]);
        let Observation { output, row, .. } = one;
        writeln!(text, "  {number:2} output {output} row {row:x} {of_one:?}").unwrap();
    }
    for (number, row) in lent.reply.chunks(lent.reply().row_words).enumerate() {
        let words: Vec<String> = row.iter().map(|word| shown(*word)).collect();
        writeln!(text, "  row {number:2} {words:?}").unwrap();
    }
    let [work, out] = [lent.work.len(), lent.out.len()];
    writeln!(text, "  {work} work words, {out} words of out").unwrap();
    text
}
