//! The one-effect search: its rules step by step beside plain Rust, and whole
//! searches beside the original's `mode`, bit by bit.

use layer_comparison::compare::Comparison;
use layer_comparison::floats::classes;
use layer_comparison::leaves::{ours, plain, rust, MODE};
use layer_comparison::plausible;
use layer_comparison::rules::NO_SEARCH;

#[test]
fn eta_tolerance() {
    let mut comparison =
        Comparison::new("eta_tolerance", &ours::eta_tolerance, &rust::eta_tolerance);
    comparison.cross([&classes()]);
    comparison.mixture(81, 1_000_000, &classes());
    comparison.bits(82, 2_000_000);
    comparison.random(83, 3_000_000, plausible::gradient_tolerance);
    comparison.done(&[0]);
}

#[test]
fn requests_of_any_search() {
    let mut comparison = Comparison::new("mode_request", &ours::mode_request, &plain::mode_request);
    comparison.random(84, 5_000_000, plausible::search);
    comparison.done(&[0, MODE, 13, 14, 15, NO_SEARCH]);
}

#[test]
fn advances_of_any_search() {
    let mut comparison = Comparison::new("mode_advance", &ours::mode_advance, &plain::mode_advance);
    comparison.random(85, 5_000_000, plausible::search_step);
    comparison.done(&[0, NO_SEARCH]);
}

#[test]
fn start_writes_every_word() {
    let mut words = [!0; 20];
    unsafe { test_exports::ffi::curlewstand_mode_start(&mut words) };
    assert_eq!(words, [0; 20]);
}

#[cfg(source_at_hand)]
mod beside_the_original {
    use layer_comparison::beside::{difference, over_kinds, End, Tally, Trial as _};
    use layer_comparison::floats::power;
    use layer_comparison::searches::{OneEffectMet, Trial};
    use layer_comparison::simulators::{Kind, Model};
    use layer_comparison::trials;

    /// The most points that a search within the domain asks for, short of the
    /// 82 that its loops allow: 17 on the grid, the warm start, 16 secant steps
    /// that each leave nine tenths of the widest cell's 2, and then only 39
    /// halvings to come to the least tolerance of 1e-12. So 15, which follows
    /// 48 halvings, is never met.
    const LONGEST: usize = 73;

    /// Where there is a mode, the search is done again with warm starts about
    /// its cell.
    fn searches(lays_down_the_score: bool, first_seed: u64) -> Tally<OneEffectMet> {
        let kinds = Kind::ALL.into_iter();
        let kinds = kinds.filter(|kind| kind.lays_down_the_score() == lays_down_the_score);
        let kinds: Vec<(Kind, u64)> = kinds.map(|kind| (kind, 19_000)).collect();
        over_kinds(&kinds, first_seed, |tally, random, kind| {
            let trial = trials::draw(random, kind);
            if let Some(words) = tally.compare(&trial) {
                let mode = f64::from_bits(words[0]);
                for _ in 0..2 {
                    tally.compare(&trials::warmed(random, &trial, mode));
                }
            }
        })
    }

    fn hold_all_ends(tally: &Tally<OneEffectMet>) {
        let met = &tally.met;
        assert!(met.modes_by_score > 1_000, "{tally:?}");
        assert!(met.modes_by_width > 100, "{tally:?}");
        assert!(met.modes_outside > 100, "{tally:?}");
        for number in [6, 7, 11, 13, 14] {
            assert!(tally.refused.0[number] > 20, "{tally:?}");
        }
        assert!(met.warm_trials > 1_000, "{tally:?}");
        assert!(met.warm_though_settled > 100, "{tally:?}");
        assert!(met.halving > 1_000, "{tally:?}");
        assert_eq!(tally.refused.0[15], 0);
        assert!(tally.longest <= LONGEST);
    }

    #[test]
    fn searches_with_models() {
        let tally = searches(false, 90);
        layer_comparison::say(&tally.line("models"));
        assert!(tally.searches >= 130_000);
        hold_all_ends(&tally);
    }

    #[test]
    fn searches_with_scores_laid_down() {
        let tally = searches(true, 97);
        layer_comparison::say(&tally.line("scores laid down"));
        assert!(tally.searches >= 70_000);
        assert!(tally.met.ties > 100);
        hold_all_ends(&tally);
    }

    /// A score that jumps from -a to b at c, in the widest domain there is.
    fn step(a: f64, b: f64, c: f64, values: &[f64]) -> Trial {
        let model = Model {
            kind: Kind::Step,
            parameters: [a, b, c],
            seed: 1,
        };
        Trial {
            eta_bound: 16.,
            omega: power(20),
            gradient_tolerance: 1e-9,
            warm: 0.,
            theta: 1.,
            additive_sd: None,
            max_evaluations: 200,
            observations: trials::score_observations(values),
            model,
        }
    }

    /// The jump lies near the right end of its cell and the score is small to
    /// its left, so that each secant step is held off the left end and takes
    /// off but a tenth of the bracket; the warm start takes off next to nothing.
    #[test]
    fn the_longest_search() {
        let mut trial = step(1., 1e10, 3.999, &[1.]);
        trial.warm = 2f64.next_up();
        assert_eq!(difference(&trial), None);
        assert_eq!(trial.original().evaluations, LONGEST);
        assert_eq!(trial.ours(|_| {}).evaluations, LONGEST);
        // without the warm start, and with the widest tolerance
        trial.warm = 2.;
        assert_eq!(trial.ours(|_| {}).evaluations, LONGEST - 1);
        trial.gradient_tolerance = 1.;
        assert_eq!(difference(&trial), None);
        assert_eq!(trial.ours(|_| {}).evaluations, LONGEST - 14);
    }

    /// Scores so large that the secant is infinity over infinity: the point is
    /// NaN, no clamp mends it, and the evaluation is refused.
    #[test]
    fn a_secant_that_is_nan() {
        let trial = step(0.8 * f64::MAX, 0.8 * f64::MAX, 3., &[1.2e154; 2]);
        assert_eq!(difference(&trial), None);
        let run = trial.original();
        assert_eq!(run.end, End::Refused(7));
        assert_eq!((run.asked.len(), run.evaluations), (17, 18));
    }
}
