//! The two by two matrix functions beside the original's, bit by bit.
#![cfg(source_at_hand)]

use layer_comparison::compare::Comparison;
use layer_comparison::floats::{classes, dozen, kinds};
use layer_comparison::leaves::{original, ours, NO_INVERSE};
use layer_comparison::plausible;

#[test]
fn determinant() {
    let mut comparison = Comparison::new("determinant", &ours::determinant, &original::determinant);
    let kinds = kinds();
    comparison.cross([&kinds; 4].map(|list| &list[..]));
    comparison.mixture(31, 1_000_000, &classes());
    comparison.bits(32, 1_000_000);
    comparison.random(33, 1_000_000, plausible::four);
    comparison.random(34, 2_000_000, plausible::matrix);
    comparison.done(&[0]);
}

#[test]
fn inverse_positive() {
    let mut comparison = Comparison::new(
        "inverse_positive",
        &ours::inverse_positive,
        &original::inverse_positive,
    );
    let kinds = kinds();
    comparison.cross([&kinds; 4].map(|list| &list[..]));
    comparison.mixture(35, 1_000_000, &classes());
    comparison.bits(36, 1_000_000);
    comparison.random(37, 4_000_000, plausible::matrix);
    comparison.done(&[0, NO_INVERSE]);
}

#[test]
fn product() {
    let mut comparison = Comparison::new("product", &ours::product, &original::product);
    let dozen = dozen();
    comparison.cross([&dozen; 6].map(|list| &list[..]));
    comparison.mixture(38, 1_000_000, &classes());
    comparison.bits(39, 1_000_000);
    comparison.random(40, 2_000_000, plausible::matrix_and_vector);
    comparison.done(&[0]);
}

#[test]
fn dot() {
    let mut comparison = Comparison::new("dot", &ours::dot, &original::dot);
    let kinds = kinds();
    comparison.cross([&kinds; 4].map(|list| &list[..]));
    comparison.mixture(41, 1_000_000, &classes());
    comparison.bits(42, 1_000_000);
    comparison.random(43, 2_000_000, plausible::four);
    comparison.done(&[0]);
}
