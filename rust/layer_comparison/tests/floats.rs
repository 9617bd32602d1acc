//! The functions on floats, and `log` and `exp`, bit by bit. None of them
//! needs the original's source.

use layer_comparison::compare::Comparison;
use layer_comparison::floats::{classes, exp_turns, kinds, log_turns};
use layer_comparison::leaves::{ours, rust};
use layer_comparison::plausible;

#[test]
fn words() {
    let mut comparison = Comparison::new("from_word and to_word", &ours::word, &rust::word);
    comparison.cross([&classes()]);
    comparison.mixture(1, 1_000_000, &classes());
    comparison.bits(2, 5_000_000);
    comparison.done(&[0]);
}

#[test]
fn is_finite() {
    let mut comparison = Comparison::new("is_finite", &ours::is_finite, &rust::is_finite);
    comparison.cross([&classes()]);
    comparison.mixture(3, 1_000_000, &classes());
    comparison.bits(4, 5_000_000);
    comparison.done(&[0]);
}

#[test]
fn abs() {
    let mut comparison = Comparison::new("abs", &ours::abs, &rust::abs);
    comparison.cross([&classes()]);
    comparison.mixture(5, 1_000_000, &classes());
    comparison.bits(6, 5_000_000);
    comparison.done(&[0]);
}

#[test]
fn max() {
    let mut comparison = Comparison::new("max", &ours::max, &rust::max);
    let classes = classes();
    comparison.cross([&classes, &classes]);
    comparison.mixture(7, 3_000_000, &classes);
    comparison.bits(8, 3_000_000);
    comparison.random(9, 2_000_000, |random| {
        [random.uniform(0., 10.), random.uniform(0., 10.)]
    });
    comparison.done(&[0]);
}

#[test]
fn clamp() {
    let mut comparison = Comparison::new("clamp", &ours::clamp, &rust::clamp);
    let (classes, kinds) = (classes(), kinds());
    comparison.cross([&classes, &kinds, &kinds]);
    comparison.mixture(10, 3_000_000, &classes);
    comparison.bits(11, 3_000_000);
    comparison.random(12, 3_000_000, plausible::clamp);
    comparison.done(&[0]);
}

#[test]
fn log() {
    let mut comparison = Comparison::new("log", &ours::log, &rust::log);
    comparison.cross([&classes()]);
    comparison.mixture(13, 1_000_000, &log_turns());
    comparison.bits(14, 3_000_000);
    comparison.random(15, 6_000_000, plausible::log);
    comparison.random(16, 1_000_000, |random| {
        [f64::from_bits(random.below(1 << 52))]
    });
    comparison.done(&[0]);
}

#[test]
fn exp() {
    let mut comparison = Comparison::new("exp", &ours::exp, &rust::exp);
    comparison.cross([&classes()]);
    comparison.mixture(17, 2_000_000, &exp_turns());
    comparison.bits(18, 1_000_000);
    comparison.random(19, 8_000_000, plausible::exp);
    comparison.done(&[0]);
}
