//! Writes a script of short sessions and its answers to two files of 64-bit
//! little-endian words, for a replay with no Rust at hand.
//!
//!     record_sessions SCRIPT ANSWERS
//!
//! The answers are the original's. What document 01 leaves free, whether work
//! and kept words are zero in the midst of an objective, is taken from the
//! program `test_sessions`, after all else was found to be the same.

use std::process::ExitCode;

#[cfg(not(source_at_hand))]
fn main() -> ExitCode {
    eprintln!("the original's source is not at hand: nothing was recorded");
    ExitCode::FAILURE
}

#[cfg(source_at_hand)]
fn main() -> ExitCode {
    let paths: Vec<String> = std::env::args().skip(1).collect();
    let [script, answers] = &paths[..] else {
        eprintln!("usage: record_sessions SCRIPT ANSWERS");
        return ExitCode::FAILURE;
    };
    let recorded = recording::all();
    for (path, words) in [(script, &recorded.script), (answers, &recorded.answers)] {
        let bytes: Vec<u8> = words.iter().flat_map(|word| word.to_le_bytes()).collect();
        if let Err(why) = std::fs::write(path, bytes) {
            eprintln!("{path}: {why}");
            return ExitCode::FAILURE;
        }
    }
    println!("{} sessions, {:?}", recorded.sessions, recorded.met);
    ExitCode::SUCCESS
}

#[cfg(source_at_hand)]
mod recording {
    use layer_comparison::random::Random;
    use layer_comparison::session_draws::draw;
    use layer_comparison::session_example::printed_example;
    use layer_comparison::session_met::Met;
    use layer_comparison::session_model::{tell, Told};
    use layer_comparison::session_replay::{answered, program};
    use std::collections::{BTreeMap, BTreeSet};

    /// How many words either file has at most.
    const MOST_WORDS: usize = 36_000;

    /// Sessions that the record is chosen from.
    const SEEDS: u64 = 20_000;

    /// Sessions of a kind, so many, that have no more than so many words.
    const SHORT: [(&str, usize, usize); 4] = [
        ("finished with one effect", 50, 350),
        ("finished with two effects", 20, 450),
        ("refused after subjects that passed", 5, 600),
        ("", 300, 150),
    ];

    #[derive(Default)]
    pub struct Recorded {
        pub script: Vec<u64>,
        pub answers: Vec<u64>,
        pub sessions: usize,
        pub met: Met,
    }

    /// Document 01's example with 17 evaluations and with 16; for each thing that
    /// is met the shortest session that meets it; then other short ones.
    pub fn all() -> Recorded {
        let mut recorded = Recorded::default();
        for most in [17, 16] {
            recorded.take(&tell(&printed_example(most)));
        }
        for seed in shortest() {
            recorded.take(&told(seed));
        }
        for (number, (name, count, most)) in SHORT.into_iter().enumerate() {
            let seeds = SEEDS * (number as u64 + 1)..;
            let short = seeds.map(told).filter(|told| {
                words(told) <= most && (name.is_empty() || told.met.counts.contains_key(name))
            });
            short.take(count).for_each(|told| recorded.take(&told));
        }
        let numbers = (1..20).filter(|number| *number != 15);
        recorded.met.hold_refusals(1, &numbers.collect::<Vec<_>>());
        recorded
    }

    fn told(seed: u64) -> Told {
        tell(&draw(&mut Random::new(seed)))
    }

    fn words(told: &Told) -> usize {
        told.script.len().max(10 * told.expected.len())
    }

    /// Without a seed twice, in their order.
    fn shortest() -> Vec<u64> {
        let mut by_name: BTreeMap<String, (usize, u64)> = BTreeMap::new();
        for seed in 0..SEEDS {
            let told = told(seed);
            let refused = told.met.refused.iter().enumerate();
            let numbers = refused.filter(|(_, count)| **count > 0);
            let names = told.met.counts.keys().map(|name| name.to_string());
            let names = names.chain(numbers.map(|(number, _)| number.to_string()));
            for name in names {
                let best = by_name.entry(name).or_insert((usize::MAX, seed));
                *best = (*best).min((words(&told), seed));
            }
        }
        let seeds: BTreeSet<u64> = by_name.values().map(|(_, seed)| *seed).collect();
        seeds.into_iter().collect()
    }

    impl Recorded {
        /// Unless there is no room for it.
        fn take(&mut self, told: &Told) {
            let more = 10 * told.expected.len();
            let script = self.script.len() + told.script.len();
            if script.max(self.answers.len() + more) > MOST_WORDS {
                return;
            }
            let answers = answered(&program("test_sessions"), told);
            self.script.extend(&told.script);
            self.answers
                .extend(answers.expect("the program answers as the original"));
            self.sessions += 1;
            self.met.add(&told.met);
        }
    }
}
