//! Writes inputs and the original's answers to two files, for a replay with
//! no Rust at hand. Every line is 139 bytes: an operation in two decimal
//! digits, then eight words of 16 hexadecimal digits, each after a space.
//!
//!     record INPUTS ANSWERS
//!
//! | operation | input | answer |
//! |---|---|---|
//! | 00 | a word | the word of its float |
//! | 01 is_finite, 02 abs, 05 log, 06 exp | x | one word |
//! | 03 max | a, b | one word |
//! | 04 clamp | x, low, high | one word |
//! | 07 determinant | the matrix by rows | one word |
//! | 08 inverse_positive | the matrix by rows | 1, det, the inverse by rows; or 0 |
//! | 09 product | the matrix by rows, the vector | two words |
//! | 10 dot | both vectors | one word |
//! | 11 row_terms | value, proportional, prediction, f_eta, additive | 0, nll, score, information; or 11; or 12 |
//! | 12 add_row to sums of zero | value, additive, proportional, prediction, both f_eta | 0, nll, score, information; or 11 |
//!
//! Every NaN in an answer is 7ff8000000000000.

use std::process::ExitCode;

#[cfg(not(source_at_hand))]
fn main() -> ExitCode {
    eprintln!("the original's source is not at hand: nothing was recorded");
    ExitCode::FAILURE
}

#[cfg(source_at_hand)]
fn main() -> ExitCode {
    let paths: Vec<String> = std::env::args().skip(1).collect();
    let [inputs, answers] = &paths[..] else {
        eprintln!("usage: record INPUTS ANSWERS");
        return ExitCode::FAILURE;
    };
    let recorded = recording::all();
    for (path, text) in [(inputs, &recorded.inputs), (answers, &recorded.answers)] {
        if let Err(why) = std::fs::write(path, text) {
            eprintln!("{path}: {why}");
            return ExitCode::FAILURE;
        }
    }
    println!("{} lines", recorded.lines());
    ExitCode::SUCCESS
}

#[cfg(source_at_hand)]
mod recording {
    use layer_comparison::compare::Answer;
    use layer_comparison::floats::{
        classes, exp_turns, kinds, largest_subnormal, log_turns, power, score, smallest_subnormal,
    };
    use layer_comparison::leaves::{original, rust};
    use layer_comparison::plausible;
    use layer_comparison::random::Random;
    use std::collections::{BTreeMap, BTreeSet};
    use std::fmt::Write;

    #[derive(Default)]
    pub struct Recorded {
        pub inputs: String,
        pub answers: String,
        met: BTreeSet<String>,
        by_code: BTreeMap<(u32, u32), u32>,
    }

    pub fn all() -> Recorded {
        let mut recorded = Recorded::default();
        floats(&mut recorded);
        logarithms(&mut recorded);
        exponentials(&mut recorded);
        matrices(&mut recorded);
        one_effect(&mut recorded);
        two_effects(&mut recorded);
        recorded.hold_every_refusal();
        recorded
    }

    impl Recorded {
        pub fn lines(&self) -> usize {
            self.inputs.lines().count()
        }

        /// One line, unless the same input was there before.
        fn line<const N: usize>(
            &mut self,
            operation: u32,
            input: [f64; N],
            answer: fn([f64; N]) -> Answer,
        ) {
            let line = line(operation, &input.map(f64::to_bits));
            if !self.met.insert(line.clone()) {
                return;
            }
            let answer = answer(input);
            // The leaf leaves the finiteness of the sums to its caller, while
            // the original refuses there and gives no sums to record.
            if operation == 12 && answer.code == 12 {
                return;
            }
            self.inputs.push_str(&line);
            self.answers.push_str(&answer_line(operation, answer));
            *self.by_code.entry((operation, answer.code)).or_default() += 1;
        }

        fn drawn<const N: usize>(
            &mut self,
            operation: u32,
            count: u32,
            answer: fn([f64; N]) -> Answer,
            mut draw: impl FnMut(&mut Random) -> [f64; N],
        ) {
            let mut random = Random::new(1000 + operation as u64);
            for _ in 0..count {
                self.line(operation, draw(&mut random), answer);
            }
        }

        fn hold_every_refusal(&self) {
            let mut expected: Vec<(u32, u32)> = (0..=12).map(|operation| (operation, 0)).collect();
            expected.extend([(8, 1), (11, 11), (11, 12), (12, 11)]);
            for answered in expected {
                assert!(self.by_code.contains_key(&answered), "{answered:?}");
            }
        }
    }

    fn line(operation: u32, words: &[u64]) -> String {
        let mut line = format!("{operation:02}");
        for at in 0..8 {
            write!(line, " {:016x}", words.get(at).unwrap_or(&0)).unwrap();
        }
        line.push('\n');
        assert_eq!(line.len(), 139);
        line
    }

    fn answer_line(operation: u32, answer: Answer) -> String {
        let words = answer.words;
        match (operation, answer.code) {
            (0, _) => line(0, &words[..1]),
            (8, 0) => line(8, &[&[1], &words[..5]].concat()),
            (8, _) => line(8, &[0]),
            (11 | 12, code) => line(operation, &[&[code as u64], &words[..7]].concat()),
            _ => line(operation, &words),
        }
    }

    /// Classes, floats near them, and now and then any bits.
    fn class(random: &mut Random, classes: &[f64]) -> f64 {
        match random.below(8) {
            0 => f64::from_bits(random.word()),
            1 => f64::from_bits(random.pick(classes).to_bits() ^ random.below(16)),
            _ => random.pick(classes),
        }
    }

    fn floats(recorded: &mut Recorded) {
        let leaves: [fn([f64; 1]) -> Answer; 3] = [rust::word, rust::is_finite, rust::abs];
        for (operation, answer) in (0..).zip(leaves) {
            for x in kinds() {
                recorded.line(operation, [x], answer);
            }
            for word in [
                0x7ff0000000000001,
                0x7fffffffffffffff,
                0xfff8000000000000,
                0xfff0000000000001,
                0x7fefffffffffffff,
                0xffefffffffffffff,
                0x000fffffffffffff,
                0x800fffffffffffff,
            ] {
                recorded.line(operation, [f64::from_bits(word)], answer);
            }
            recorded.drawn(operation, 60, answer, |random| {
                [f64::from_bits(random.word())]
            });
        }
        let kinds = kinds();
        let free = |[a, b]: [f64; 2]| a == 0. && b == 0. && a.to_bits() != b.to_bits();
        recorded.drawn(3, 300, rust::max, |random| loop {
            let pair = match random.below(4) {
                0 => [random.uniform(0., 9.), random.uniform(0., 9.)],
                _ => [class(random, &kinds), class(random, &kinds)],
            };
            // The sign of the larger of two unlike zeros is free.
            if !free(pair) {
                return pair;
            }
        });
        recorded.drawn(4, 400, rust::clamp, |random| match random.below(3) {
            0 => plausible::clamp(random),
            _ => std::array::from_fn(|_| class(random, &kinds)),
        });
    }

    fn logarithms(recorded: &mut Recorded) {
        for x in kinds().into_iter().chain(log_turns()) {
            recorded.line(5, [x], rust::log);
        }
        for x in [-0., -1., f64::from_bits(0xfff8000000000000)] {
            recorded.line(5, [x], rust::log);
        }
        recorded.drawn(5, 200, rust::log, |random| match random.below(8) {
            0 => [f64::from_bits(random.below(1 << 52))],
            1 => [f64::from_bits(random.word())],
            _ => plausible::log(random),
        });
    }

    fn exponentials(recorded: &mut Recorded) {
        for x in kinds() {
            recorded.line(6, [x], rust::exp);
        }
        for x in exp_turns() {
            recorded.line(6, [x], rust::exp);
        }
        recorded.drawn(6, 200, rust::exp, |random| match random.below(8) {
            0 => [f64::from_bits(random.word())],
            _ => plausible::exp(random),
        });
    }

    fn matrices(recorded: &mut Recorded) {
        let classes = classes();
        recorded.drawn(7, 200, original::determinant, |random| {
            match random.below(3) {
                0 => plausible::matrix(random),
                1 => plausible::four(random),
                _ => std::array::from_fn(|_| class(random, &classes)),
            }
        });
        let edge = 1. - 1e-12;
        for matrix in [
            // found
            [2., 0., 0., 4.],
            [1., 0.5, 0.25, 1.],
            [1., -0., 0., 1.],
            [1., 1., 1e-12, 1.],
            [power(500), 0., 0., power(500)],
            [power(-500), 0., 0., power(-500)],
            [1., f64::MAX, 0., 1.],
            // found, with entries beyond all floats
            [power(16) * smallest_subnormal(), 0., 0., power(1000)],
            [power(1000), 1., 1., power(16) * smallest_subnormal()],
            // an entry is not finite
            [f64::NAN, 0., 0., 1.],
            [1., f64::INFINITY, 0., 1.],
            [1., 0., f64::NEG_INFINITY, 1.],
            [1., 0., 0., f64::INFINITY],
            [1., f64::NAN, 0., 1.],
            // a diagonal entry is not above zero
            [0., -1., 1., 1.],
            [-0., -1., 1., 1.],
            [-1., 2., -2., 1.],
            [1., -1., 1., 0.],
            [1., 2., -2., -1.],
            [smallest_subnormal(), 0., 0., smallest_subnormal()],
            // the determinant is not finite
            [power(600), 0., 0., power(600)],
            [1., power(600), -power(600), 1.],
            [power(600), power(600), power(600), power(600)],
            // the determinant is too small
            [1., 1., 1., 1.],
            [1., 2., 2., 1.],
            [1., edge, 1., 1.],
            [1., edge.next_up(), 1., 1.],
            [1., edge.next_down(), 1., 1.],
        ] {
            recorded.line(8, matrix, original::inverse_positive);
        }
        recorded.drawn(8, 350, original::inverse_positive, |random| {
            match random.below(4) {
                0 => std::array::from_fn(|_| class(random, &classes)),
                _ => plausible::matrix(random),
            }
        });
        recorded.drawn(9, 200, original::product, |random| match random.below(2) {
            0 => plausible::matrix_and_vector(random),
            _ => std::array::from_fn(|_| class(random, &classes)),
        });
        recorded.drawn(10, 200, original::dot, |random| match random.below(2) {
            0 => plausible::four(random),
            _ => std::array::from_fn(|_| class(random, &classes)),
        });
    }

    fn one_effect(recorded: &mut Recorded) {
        let huge = f64::MAX;
        for row in [
            // document 01's examples
            [3., 0., 1., 2., 1.],
            [4., 1., 2., 1., 0.],
            [1., 1., 0., 1., 0.],
            [1., 0., f64::INFINITY, 1., 1.],
            // the variance is not a number, not finite, zero by underflow
            [1., f64::NAN, 1., 1., 1.],
            [1., 0., 1., 1., f64::INFINITY],
            [1., 0., 1., 1., power(512)],
            [1., power(400), power(400), 1., 0.],
            [1., 0., 1., 1., 1e-170],
            [1., 0., 1., 1., largest_subnormal()],
            // the variance is the smallest there is
            [1., 0., 1., 1., power(-537)],
            [0., 0., 0., 0., power(-537)],
            // the eta sensitivity is not finite
            [1., 0., 1., f64::NAN, 1.],
            [1., 0., 1., f64::INFINITY, 1.],
            [1., 0., 1., f64::NEG_INFINITY, 1.],
            // only the likelihood, the score, the information runs over
            [1e200, 0., 0., 0., 1.],
            [f64::NAN, 0., 0., 0., 1.],
            [f64::INFINITY, 0., 0., 1., 1.],
            [1e154, 0., 0., 1e155, 1.],
            [0., 0., 0., 1e155, 1.],
            [huge, 0., -huge, 1., 1.],
            // tiny p, with and without its square
            [power(530), 1.25 * power(-538), power(530), 1., 0.],
            [power(530), power(-537), power(530), 1., 0.],
            [power(530), power(-520), power(530), 3., 0.],
            [power(511), 1e-160, power(511), 2., 1e-3],
        ] {
            recorded.line(11, row, original::row_terms);
        }
        let score = score();
        recorded.drawn(11, 550, original::row_terms, |random| {
            match random.below(4) {
                0 => std::array::from_fn(|_| class(random, &score)),
                _ => plausible::row_terms(random),
            }
        });
    }

    fn two_effects(recorded: &mut Recorded) {
        let tiny = smallest_subnormal();
        for row in [
            [3., 1., 0., 1., 2., 1.],
            [4., 0., 1., 2., 1., -1.],
            // the variance is zero, not a number, not finite
            [1., 0., 1., 0., 1., 1.],
            [1., 1e-170, 0., 1., 1., 1.],
            [1., 1., f64::NAN, 1., 1., 1.],
            [1., f64::INFINITY, 0., 1., 1., 1.],
            [1., 0., power(400), power(400), 1., 1.],
            // the prediction is not finite
            [1., 1., 0., f64::INFINITY, 1., 1.],
            [1., 1., 0., f64::NAN, 1., 1.],
            // an eta sensitivity is not finite
            [1., 1., 0., 1., f64::NAN, 1.],
            [1., 1., 0., 1., 1., f64::NAN],
            [1., 1., 0., 1., f64::INFINITY, 1.],
            [1., 1., 0., 1., 1., f64::NEG_INFINITY],
            // tiny p
            [power(530), 0., 1.25 * power(-538), power(530), 1., 2.],
            [power(530), 0., power(-537), power(530), 1., -2.],
            [power(530), 0., power(-520), power(530), 3., 0.],
            // halving a subnormal first on one side only
            [1., 1., 1., 1., 3. * tiny, 1.5],
            [1., 1., 1., 1., -1.5, 5. * tiny],
            [1., 2., 0.5, 1., 7. * tiny, -40.],
            [3., 0.5, 0.5, 2., 3. * tiny, 10.],
            // minus zero is lost in sums of zero
            [1., 1., 0., 1., 0., -0.],
            [2., 1., 0., 1., -0., 0.],
        ] {
            recorded.line(12, row, original::add_row);
        }
        let score = score();
        recorded.drawn(12, 700, original::add_row, |random| match random.below(5) {
            0 => std::array::from_fn(|_| class(random, &score)),
            _ => plausible::add_row(random),
        });
    }
}
