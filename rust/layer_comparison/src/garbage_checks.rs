//! What must hold after any call, whatever words were lent to it.

use crate::compare::word_of;
use crate::garbage_memory::*;

/// The words of a state and of an answer.
pub const STATE_WORDS: usize = 44;
pub const ANSWER_WORDS: usize = 5;
/// Places in the state: whether it awaits, omega, whether there is an override, the
/// subject, its first observation, the sum of the squares of eta, the cache's
/// positions, how many effects its search has, and of a search with one effect the
/// stage, the count and the fall.
pub const AWAITS: usize = 0;
pub const OMEGA: usize = 3;
pub const HAS_ADDITIVE: usize = 4;
pub const SUBJECT: usize = 8;
pub const FIRST: usize = 9;
pub const ETA_SQUARES: usize = 13;
pub const POSITIONS: std::ops::Range<usize> = 14..18;
pub const EFFECTS: usize = 18;
pub const STAGE: usize = 19;
pub const COUNT: usize = 20;
const FALL: usize = 26;

/// What a call came to.
#[derive(Clone, Copy, Debug, PartialEq, Eq)]
pub enum End {
    Opened,
    Asked,
    Finished,
    Refused(u32),
    Shrunk(bool),
}

type Held = Result<(), String>;

fn hold(holds: bool, what: impl FnOnce() -> String) -> Held {
    if holds {
        Ok(())
    } else {
        Err(what())
    }
}

/// Holds a call to all that must be so after it, and says what it came to.
pub fn ended(call: Call, number: u32, before: &Memory, after: &Memory) -> Result<End, String> {
    guards(after)?;
    for (at, name) in NAMES.iter().enumerate() {
        hold(
            call.writes().contains(&at) || is_same(before, after, at),
            || format!("{name} was written, which {call:?} only reads"),
        )?;
    }
    if call == Call::Shrinkage {
        return shrunk(number, before, after);
    }
    hold(number <= 19, || format!("the number is {number}"))?;
    beyond(before, after)?;
    tallied(call, number, before, after)?;
    kept(number, before, after)?;
    match number {
        0 => accepted(call, after),
        1..=5 | 19 => unaltered(number, before, after),
        _ => over(number, after),
    }
}

fn guards(after: &Memory) -> Held {
    for (one, name) in after.lent.iter().zip(NAMES) {
        hold(one.stands(), || {
            format!("a guard beside {name} was written")
        })?;
    }
    Ok(())
}

/// Whether these words are as they were; of a tally its two numbers.
pub fn is_same(before: &Memory, after: &Memory, at: usize) -> bool {
    if at == TALLY {
        return before.tally() == after.tally();
    }
    before.words(at) == after.words(at)
}

/// Words beyond the state's and the answer's own stay.
fn beyond(before: &Memory, after: &Memory) -> Held {
    for (at, own) in [(STATE, STATE_WORDS), (ANSWER, ANSWER_WORDS)] {
        let [was, is] = [before, after].map(|memory| memory.words(at).get(own..));
        hold(was == is, || {
            format!("{} was written beyond its end", NAMES[at])
        })?;
    }
    Ok(())
}

/// Evaluations rise by one at most, and never above the limit.
fn tallied(call: Call, number: u32, before: &Memory, after: &Memory) -> Held {
    let ((was, _), (is, kept)) = (before.tally(), after.tally());
    if call == Call::Setup && number == 0 {
        return hold((is, kept) == (0, 0), || {
            format!("the tally is {is}, {kept}")
        });
    }
    let most = before.setup.max_evaluations;
    let has_risen = is == was.wrapping_add(1) && was < most && is <= most;
    hold(is == was || has_risen, || {
        format!("evaluations went from {was} to {is}, at most {most}")
    })
}

/// No more rows are kept than K, whatever the words say.
fn kept(number: u32, before: &Memory, after: &Memory) -> Held {
    let (k, (_, kept)) = (before.setup.k as u64, after.tally());
    let is_accepted = !matches!(number, 1..=5 | 19);
    hold(!is_accepted || kept <= k, || {
        format!("{kept} rows are kept, K is {k}")
    })
}

/// As many of the answer's words as are lent.
fn answers(after: &Memory, words: &[u64]) -> Held {
    let answer = after.words(ANSWER);
    let lent = answer.len().min(words.len());
    hold(answer[..lent] == words[..lent], || {
        format!("the answer is {answer:x?}, not {words:x?}")
    })
}

/// 1 to 5 and 19: nothing but the answer is written, and of these only 4 has a place.
fn unaltered(number: u32, before: &Memory, after: &Memory) -> Result<End, String> {
    for (at, name) in NAMES.iter().enumerate() {
        hold(at == ANSWER || is_same(before, after, at), || {
            format!("{name} was altered by a refusal with {number}")
        })?;
    }
    if number == 4 {
        answers(after, &[2, 4, 2])?;
    } else {
        answers(after, &[2, number.into(), 0, 0, 0])?;
    }
    Ok(End::Refused(number))
}

/// 6 to 18: the objective is over, and the work words are cleared.
fn over(number: u32, after: &Memory) -> Result<End, String> {
    let subject = after.words(STATE)[SUBJECT];
    match number {
        18 => answers(after, &[2, 18, 0, 0, 0])?,
        10 | 11 => answers(after, &[2, number.into(), 2, subject])?,
        12 if after.words(ANSWER).get(2) == Some(&2) => answers(after, &[2, 12, 2, subject])?,
        _ => answers(after, &[2, number.into(), 1, subject, 0])?,
    }
    idle(after)?;
    Ok(End::Refused(number))
}

fn idle(after: &Memory) -> Held {
    let awaits = after.words(STATE)[AWAITS];
    hold(awaits == 0, || format!("word 0 of the state is {awaits}"))?;
    hold(after.words(WORK).iter().all(|word| *word == 0), || {
        "work words are not zero".into()
    })
}

/// A question, an end, or a session that was opened.
fn accepted(call: Call, after: &Memory) -> Result<End, String> {
    if call == Call::Setup {
        for at in [CACHE, WORK, WARM] {
            let is_clear = after.words(at).iter().all(|word| *word == 0);
            hold(is_clear, || format!("{} is not zero", NAMES[at]))?;
        }
        answers(after, &[1, 0, 0, 0, 0])?;
        idle(after)?;
        return Ok(End::Opened);
    }
    hold(call != Call::Failure, || {
        "a failure was accepted with 0".into()
    })?;
    let answer = after.words(ANSWER);
    if after.words(STATE)[AWAITS] == 1 {
        answers(after, &[0])?;
        return Ok(End::Asked);
    }
    // any word, but a finite one
    let objective = answer.get(1).copied().unwrap_or(0);
    let is_finite = f64::from_bits(objective).is_finite();
    hold(is_finite, || format!("the objective is {objective:x}"))?;
    answers(after, &[1, objective, 0, 0, 0])?;
    idle(after)?;
    Ok(End::Finished)
}

/// The shrinkage, where these words tell one: document 01's expression, and before it
/// what the header says of when there is none.
pub fn told_shrinkage(memory: &Memory) -> Option<f64> {
    let (state, subjects) = (memory.words(STATE), memory.subjects());
    let has_ended = memory.words(ANSWER).first() == Some(&1);
    if !has_ended || state.len() < STATE_WORDS || !(1..=4096).contains(&subjects) {
        return None;
    }
    let is_one_effect = state[EFFECTS] == 1 && state[HAS_ADDITIVE] <= 1 && state[FALL] <= 1;
    let has_mode = matches!(state[STAGE], 2 | 3) && state[COUNT] <= u32::MAX.into();
    let is_last = state[SUBJECT] == subjects as u64 - 1;
    if !is_one_effect || !has_mode || !is_last || state[AWAITS] != 0 {
        return None;
    }
    let [squares, omega] = [ETA_SQUARES, OMEGA].map(|at| f64::from_bits(state[at]));
    Some(1. - squares / subjects as f64 / omega)
}

fn shrunk(number: u32, before: &Memory, after: &Memory) -> Result<End, String> {
    let [was, is] = [before, after].map(|memory| memory.words(SHRINKAGE)[0]);
    let (expected, wrote) = match told_shrinkage(before) {
        Some(shrinkage) => (0, word_of(shrinkage)),
        None => (19, was),
    };
    let is = if number == 0 {
        word_of(f64::from_bits(is))
    } else {
        is
    };
    hold((number, is) == (expected, wrote), || {
        format!("shrinkage: {number} and {is:x}, not {expected} and {wrote:x}")
    })?;
    Ok(End::Shrunk(number == 0))
}

/// The same call on the same words has given the same.
pub fn alike(number: u32, once: &Memory, other: u32, twice: &Memory) -> Held {
    hold(number == other, || {
        format!("once {number}, and again {other}")
    })?;
    for (at, name) in NAMES.iter().enumerate() {
        hold(is_same(once, twice, at), || {
            format!("{name} is another, the second time")
        })?;
    }
    Ok(())
}
