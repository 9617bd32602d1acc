//! Runs two functions over the same inputs and stops at the first difference,
//! made as simple as can be.

use crate::floats::SIMPLE;
use crate::random::Random;
use std::fmt::Write;
use std::time::Instant;

/// An answer: a code (0, or the number of a refusal) and words.
#[derive(Clone, Copy, Debug, PartialEq, Eq)]
pub struct Answer<const WORDS: usize = 8> {
    pub code: u32,
    pub words: [u64; WORDS],
}

/// Where the codes are counted that no leaf has a meaning for: words that stand
/// for a refused search may have any number.
pub const OTHER: usize = 20;

/// Given by our side where a refused call wrote to what it was lent.
pub const TOUCHED: u32 = 99;

impl<const WORDS: usize> Answer<WORDS> {
    pub fn refused(code: u32) -> Self {
        Answer {
            code,
            words: [0; WORDS],
        }
    }

    pub fn words(words: &[u64]) -> Self {
        let mut answer = Answer::refused(0);
        answer.words[..words.len()].copy_from_slice(words);
        answer
    }

    pub fn floats(floats: &[f64]) -> Self {
        let mut answer = Answer::refused(0);
        for (word, x) in answer.words.iter_mut().zip(floats) {
            *word = word_of(*x);
        }
        answer
    }
}

/// The bits of a float, where any NaN counts as any other.
pub fn word_of(x: f64) -> u64 {
    if x.is_nan() {
        0x7ff8000000000000
    } else {
        x.to_bits()
    }
}

/// A leaf on both sides, over N words that stand for floats.
pub struct Comparison<'a, const N: usize, const WORDS: usize = 8> {
    name: &'a str,
    ours: &'a dyn Fn([f64; N]) -> Answer<WORDS>,
    theirs: &'a dyn Fn([f64; N]) -> Answer<WORDS>,
    inputs: u64,
    by_code: [u64; OTHER + 1],
    begun: Instant,
}

impl<'a, const N: usize, const WORDS: usize> Comparison<'a, N, WORDS> {
    pub fn new(
        name: &'a str,
        ours: &'a dyn Fn([f64; N]) -> Answer<WORDS>,
        theirs: &'a dyn Fn([f64; N]) -> Answer<WORDS>,
    ) -> Self {
        Comparison {
            name,
            ours,
            theirs,
            inputs: 0,
            by_code: [0; OTHER + 1],
            begun: Instant::now(),
        }
    }

    pub fn one(&mut self, input: [f64; N]) {
        let theirs = (self.theirs)(input);
        if (self.ours)(input) != theirs {
            panic!("{}", self.report(self.shrunk(input)));
        }
        self.inputs += 1;
        self.by_code[(theirs.code as usize).min(OTHER)] += 1;
    }

    /// Every combination of the floats given for each argument.
    pub fn cross(&mut self, lists: [&[f64]; N]) {
        let mut at = [0; N];
        loop {
            self.one(std::array::from_fn(|argument| {
                lists[argument][at[argument]]
            }));
            let mut argument = 0;
            while argument < N && at[argument] + 1 == lists[argument].len() {
                at[argument] = 0;
                argument += 1;
            }
            if argument == N {
                return;
            }
            at[argument] += 1;
        }
    }

    pub fn random(&mut self, seed: u64, count: u64, mut draw: impl FnMut(&mut Random) -> [f64; N]) {
        let mut random = Random::new(seed);
        for _ in 0..count {
            let input = draw(&mut random);
            self.one(input);
        }
    }

    pub fn bits(&mut self, seed: u64, count: u64) {
        self.random(seed, count, |random| {
            std::array::from_fn(|_| f64::from_bits(random.word()))
        });
    }

    /// Each argument a class, or a float near one, or random bits.
    pub fn mixture(&mut self, seed: u64, count: u64, classes: &[f64]) {
        self.random(seed, count, |random| {
            std::array::from_fn(|_| match random.below(4) {
                0 => f64::from_bits(random.word()),
                1 => f64::from_bits(random.pick(classes).to_bits() ^ random.below(16)),
                _ => random.pick(classes),
            })
        });
    }

    /// Tells what was compared, and holds it to have met at least five million
    /// inputs and every one of the codes.
    pub fn done(self, codes: &[u32]) {
        self.done_with(5_000_000, codes);
    }

    /// The same with another number of inputs.
    pub fn done_with(self, fewest: u64, codes: &[u32]) {
        let mut line = format!("{}: {} inputs alike", self.name, self.inputs);
        for code in codes {
            let met = self.by_code[*code as usize];
            assert!(met > 0, "{}: no input was answered {code}", self.name);
            if codes.len() > 1 {
                write!(line, ", {met} answered {code}").unwrap();
            }
        }
        assert!(self.inputs >= fewest, "{line}: too few");
        crate::say(&format!("{line}, {:.1?}", self.begun.elapsed()));
    }

    /// The input made simpler, argument by argument, as long as the two sides
    /// still differ.
    fn shrunk(&self, mut input: [f64; N]) -> [f64; N] {
        loop {
            let before = input.map(f64::to_bits);
            for argument in 0..N {
                for simpler in simpler_than(input[argument]) {
                    let mut trial = input;
                    trial[argument] = simpler;
                    if (self.ours)(trial) != (self.theirs)(trial) {
                        input = trial;
                        break;
                    }
                }
            }
            if before == input.map(f64::to_bits) {
                return input;
            }
        }
    }

    fn report(&self, input: [f64; N]) -> String {
        let mut text = format!("{} differs on the two sides\n", self.name);
        for (argument, x) in input.iter().enumerate() {
            writeln!(text, "  input {argument:2}  {:016x}  {x:e}", x.to_bits()).unwrap();
        }
        for (side, answer) in [
            ("ours", (self.ours)(input)),
            ("theirs", (self.theirs)(input)),
        ] {
            write!(text, "  {side:6} code {}", answer.code).unwrap();
            for word in answer.words {
                write!(text, " {word:016x}").unwrap();
            }
            text.push('\n');
        }
        if (self.ours)(input).code == TOUCHED {
            text.push_str("  ours wrote to its answer although it refused\n");
        }
        text
    }
}

/// A word with the float that it stands for.
pub fn shown(word: u64) -> String {
    format!("{word:016x} {:e}", f64::from_bits(word))
}

/// Inputs simpler than one, the simplest first, each made only when it is wanted.
pub type Simpler<'a, T> = Box<dyn Iterator<Item = T> + 'a>;

/// The input made simpler as long as it still differs.
pub fn simplest<T: Clone>(
    input: &T,
    simpler: impl Fn(&T) -> Simpler<'_, T>,
    differs: impl Fn(&T) -> bool,
) -> T {
    let mut input = input.clone();
    loop {
        let Some(simpler) = simpler(&input).find(&differs) else {
            return input;
        };
        input = simpler;
    }
}

/// Floats simpler than the one given, the simplest first: those that stand
/// before it in the list of simple ones, else all of them, then its own value
/// with fewer digits, its size without its sign, and an exponent nearer to 0.
pub fn simpler_than(x: f64) -> Vec<f64> {
    let place = SIMPLE.iter().position(|one| one.to_bits() == x.to_bits());
    let mut simpler = SIMPLE[..place.unwrap_or(SIMPLE.len())].to_vec();
    if place.is_some() || !x.is_finite() {
        return simpler;
    }
    if x < 0. {
        simpler.push(-x);
    }
    for kept in [0, 1, 2, 4, 8, 16, 24, 32, 40, 48] {
        let cut = f64::from_bits(x.to_bits() & (!0 << (52 - kept)));
        if cut.to_bits() != x.to_bits() {
            simpler.push(cut);
        }
    }
    let exponent = (x.to_bits() >> 52 & 0x7ff) as i64;
    for step in [256, 64, 16, 4, 1] {
        let nearer = exponent + step * (1023 - exponent).signum();
        if (nearer - 1023).signum() * (exponent - 1023).signum() > 0 {
            let rest = x.to_bits() & !(0x7ff << 52);
            simpler.push(f64::from_bits(rest | (nearer as u64) << 52));
        }
    }
    simpler
}
