//! The two-effect search: its rules step by step beside plain Rust, and whole
//! searches beside the original's `mode`, bit by bit.

use layer_comparison::compare::Comparison;
use layer_comparison::leaves::{ours, plain, MODE};
use layer_comparison::plausible;
use layer_comparison::rules::NO_SEARCH;
use layer_comparison::rules_2d::{FOUND, HALTED, START, TRIAL};
use std::cell::RefCell;

#[test]
fn requests_of_any_search() {
    let mut comparison = Comparison::new(
        "mode_2d_request",
        &ours::mode_2d_request,
        &plain::mode_2d_request,
    );
    comparison.random(101, 5_000_000, plausible::search_2d);
    comparison.done(&[0, MODE, 13, 14, 16, NO_SEARCH]);
}

/// Searches of any state come to every stage.
#[test]
fn advances_of_any_search() {
    let stages = RefCell::new([0; HALTED as usize + 17]);
    let counted = |input| {
        let answer = plain::mode_2d_advance(input);
        if let Some(count) = stages.borrow_mut().get_mut(answer.words[0] as usize) {
            *count += 1;
        }
        answer
    };
    let mut comparison = Comparison::new("mode_2d_advance", &ours::mode_2d_advance, &counted);
    comparison.random(102, 5_000_000, plausible::search_2d_step);
    comparison.done(&[0, NO_SEARCH]);
    for stage in [START, TRIAL, FOUND, HALTED + 13, HALTED + 14, HALTED + 16] {
        let count = stages.borrow()[stage as usize];
        assert!(count > 10_000, "stage {stage}: {count}");
    }
}

#[test]
fn start_writes_every_word() {
    let mut words = [!0; 25];
    unsafe { test_exports::ffi::curlewstand_mode_2d_start(&mut words) };
    assert_eq!(words, [0; 25]);
}

#[cfg(source_at_hand)]
mod beside_the_original {
    use layer_comparison::beside::{difference, over_kinds, End, Tally, Trial};
    use layer_comparison::floats::power;
    use layer_comparison::searches_2d::{Trial2, TwoEffectsMet};
    use layer_comparison::simulators_2d::{Kind2, Model2};
    use layer_comparison::trials::unit_observations;
    use layer_comparison::trials_2d::{draw, scripted, warmed, AMPLE};
    use oracle::session::Observed;

    /// The most points that a search asks for: zero, and from each of six
    /// starts 22 trials in each of 48 rounds.
    const LONGEST: usize = 1 + 6 * (1 + 48 * 22);

    /// Where there is a mode, the search is done again with a warm start at it
    /// or about it.
    fn searches(kinds: &[(Kind2, u64)], first_seed: u64) -> Tally<TwoEffectsMet> {
        over_kinds(kinds, first_seed, |tally, random, kind| {
            let trial = draw(random, kind);
            if let Some(words) = tally.compare(&trial) {
                let mode = [words[0], words[1]].map(f64::from_bits);
                tally.compare(&warmed(random, &trial, mode));
            }
        })
    }

    fn hold_all_ends(tally: &Tally<TwoEffectsMet>) {
        let met = &tally.met;
        assert!(tally.modes > 1_000, "{tally:?}");
        assert!(met.modes_won_later > 1_000, "{tally:?}");
        assert!(met.modes_with_candidates_apart > 100, "{tally:?}");
        assert!(met.ties > 100, "{tally:?}");
        for number in [6, 7, 11, 13, 14, 16] {
            assert!(tally.refused.0[number] > 50, "{tally:?}");
        }
        assert!(met.large_norms > 1_000, "{tally:?}");
        assert!(met.at_the_bound > 100, "{tally:?}");
        assert!(met.singular_first > 100, "{tally:?}");
        assert!(met.singular_later > 100, "{tally:?}");
        assert!(met.passed_same > 1_000, "{tally:?}");
        assert!(met.passed_no_fall > 1_000, "{tally:?}");
        assert!(met.nan_warm_starts > 20, "{tally:?}");
        assert!(met.asked.fewest() > 1_000, "{tally:?}");
        assert!(met.taken.fewest() > 500, "{tally:?}");
        assert!(met.rounds.fewest() > 500, "{tally:?}");
        assert!(met.through_all_rounds > 100, "{tally:?}");
        assert!(tally.longest <= LONGEST);
    }

    #[test]
    fn searches_with_models() {
        let kinds = Kind2::ALL.into_iter().filter(|kind| !kind.lays_down());
        let kinds: Vec<(Kind2, u64)> = kinds.map(|kind| (kind, 8_000)).collect();
        let tally = searches(&kinds, 110);
        layer_comparison::say(&tally.line("models, two effects"));
        assert!(tally.searches >= 64_000);
        for number in [8, 9, 10, 12] {
            assert!(tally.refused.0[number] > 100, "{tally:?}");
        }
        hold_all_ends(&tally);
    }

    #[test]
    fn searches_laid_down() {
        let kinds = [
            (Kind2::Rough, 12_000),
            (Kind2::Levels, 9_000),
            (Kind2::Moody, 9_000),
            (Kind2::Stubborn, 400),
        ];
        let tally = searches(&kinds, 120);
        layer_comparison::say(&tally.line("laid down, two effects"));
        assert!(tally.searches >= 30_400);
        assert_eq!(tally.longest, LONGEST);
        hold_all_ends(&tally);
    }

    /// Both sides alike; what the one search met.
    fn alone(trial: &Trial2) -> Tally<TwoEffectsMet> {
        let mut tally = Tally::default();
        tally.compare(trial);
        tally
    }

    /// Each round refuses all trials but that of one reduction; with an odd
    /// seed the last round of a start refuses that one too.
    #[test]
    fn the_longest_search() {
        for (reduction, seed) in (0..22).map(|reduction| (reduction, 0)).chain([(21, 1)]) {
            let tally = alone(&scripted(reduction, 1e-4, 1e-8, seed));
            let trials = reduction as usize + 1;
            assert_eq!(tally.longest, 1 + 6 * (1 + 48 * trials));
            assert_eq!(tally.modes, 1);
            let taken = 6 * (48 - seed);
            assert_eq!(tally.met.taken.0[reduction as usize], taken);
            assert_eq!(tally.met.taken.0.iter().sum::<u64>(), taken);
        }
        let mut longest = scripted(21, 1e-4, 1e-8, 0);
        assert_eq!(longest.original().evaluations, LONGEST);
        assert_eq!(longest.ours(|_| {}).evaluations, LONGEST);
        longest.max_evaluations = LONGEST;
        assert_eq!(alone(&longest).modes, 1);
        longest.max_evaluations -= 1;
        assert_eq!(alone(&longest).refused.0[6], 1);
    }

    /// The prediction is a everywhere, and is said to rise by b with the first
    /// eta in the first row and by c with the second in the second row.
    fn slope(parameters: [f64; 3], observations: Vec<Observed>) -> Trial2 {
        Trial2 {
            eta_bound: 8.,
            omega: [1., 0., 1.],
            warm: [0.; 2],
            theta: [1.; 2],
            max_evaluations: AMPLE,
            observations,
            model: Model2 {
                kind: Kind2::Slope,
                parameters,
                seed: 0,
            },
        }
    }

    /// The prior is so weak that every start is its own candidate. Those at
    /// (h, 0) and (-h, 0) are more than 1e-3 apart, but each is within it of the
    /// best, which is the first.
    #[test]
    fn candidates_are_compared_with_the_best_alone() {
        let mut trial = slope([0.; 3], unit_observations([0.]));
        trial.omega = [power(20), 0., power(20)];
        trial.eta_bound = 0.0015;
        let met = alone(&trial).met;
        assert_eq!(met.modes_with_candidates_apart, 1);
        assert_eq!(met.modes_won_later, 0);
        let run = trial.ours(|_| {});
        assert_eq!(run.evaluations, 7);
        assert!(matches!(run.end, End::Mode(words) if words[..2] == [0, 0]));
        // farther from the best
        trial.eta_bound = 0.0025;
        assert_eq!(alone(&trial).refused.0[14], 1);
        // a first candidate at one side is best only until the second
        trial.eta_bound = 0.0015;
        trial.warm = [-0.0007, 0.];
        let met = alone(&trial).met;
        assert_eq!(met.modes_with_candidates_apart, 1);
        assert_eq!(met.modes_won_later, 1);
    }

    /// The first two candidates stay so near to zero that the prior is lost in
    /// the likelihood, which is the same for all: the first is the mode.
    #[test]
    fn the_earlier_is_kept_at_a_tie() {
        let met = alone(&scripted(0, 1e-4, 1e-8, 0)).met;
        assert_eq!((met.ties, met.modes_won_later), (1, 0));
    }

    /// A warm start that is no number is asked for, and its evaluation refused.
    #[test]
    fn a_warm_start_that_is_nan() {
        let mut trial = slope([0.; 3], unit_observations([0.]));
        for warm in [[f64::NAN, 0.], [0., f64::NAN], [f64::INFINITY, 0.]] {
            trial.warm = warm;
            assert_eq!(difference(&trial), None);
            let run = trial.ours(|_| {});
            assert_eq!((run.asked.len(), run.evaluations), (1, 2));
            assert_eq!(run.end, End::Refused(7));
        }
    }

    /// The warm start's first eta is -0. The score against it is so small that
    /// its step is lost, which makes 0 of it, and the step of the other is lost
    /// in the other: all trials are the current point.
    #[test]
    fn a_trial_that_is_the_current_point_but_for_a_sign() {
        let mut trial = slope([0., 1e-320, 1e9], unit_observations([1., 0.]));
        trial.omega = [power(-20), 0., 1.];
        trial.warm = [-0., 1.];
        let tally = alone(&trial);
        assert_eq!(tally.met.passed_by_zero, 22);
        assert_eq!((tally.longest, tally.refused.0[13]), (2, 1));
    }

    /// Rows with so large residuals that the scores come near the largest
    /// float, while the information stays small.
    fn steep(b: f64, c: f64) -> Trial2 {
        let mut observations = unit_observations([1.2e154; 2]);
        for one in &mut observations {
            (one.additive, one.proportional) = (0., 1.);
        }
        slope([1., b, c], observations)
    }

    /// One effect would fall without end and the other rise: the fall foreseen
    /// is infinity less infinity. Each such trial is asked for, none is taken.
    #[test]
    fn a_fall_that_is_nan() {
        let mut trial = steep(1., 0.25);
        trial.omega = [1., -0.99, 1.];
        let tally = alone(&trial);
        assert_eq!(tally.met.nan_falls, 22);
        assert_eq!(tally.met.taken.0, [0; 22]);
        assert_eq!((tally.longest, tally.refused.0[13]), (24, 1));
    }

    /// The Newton step itself is infinity less infinity: no clamp mends the
    /// point, and its evaluation is refused.
    #[test]
    fn a_step_that_is_nan() {
        let mut trial = steep(1. / 64., 1. / 64.);
        trial.omega = [power(20), -0.999 * power(20), power(20)];
        assert_eq!(difference(&trial), None);
        let run = trial.ours(|_| {});
        assert_eq!((run.asked.len(), run.evaluations), (2, 3));
        assert_eq!(run.end, End::Refused(7));
    }
}
