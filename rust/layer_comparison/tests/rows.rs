//! The rows of the likelihood beside the original's, bit by bit.
#![cfg(source_at_hand)]

use layer_comparison::compare::Comparison;
use layer_comparison::floats::{classes, dozen, score};
use layer_comparison::leaves::{original, ours};
use layer_comparison::plausible;

#[test]
fn row_terms() {
    let mut comparison = Comparison::new("row_terms", &ours::row_terms, &original::row_terms);
    let score = score();
    comparison.cross([&score; 5].map(|list| &list[..]));
    comparison.mixture(51, 1_000_000, &classes());
    comparison.bits(52, 1_000_000);
    comparison.random(53, 6_000_000, plausible::row_terms);
    comparison.done(&[0, 11, 12]);
}

#[test]
fn add_row() {
    let mut comparison = Comparison::new("add_row", &ours::add_row, &original::add_row);
    let dozen = dozen();
    comparison.cross([&dozen; 6].map(|list| &list[..]));
    comparison.mixture(54, 500_000, &classes());
    comparison.bits(55, 200_000);
    comparison.random(56, 3_000_000, plausible::add_row);
    comparison.done(&[0, 11, 12]);
}

#[test]
fn add_two_rows() {
    let mut comparison = Comparison::new(
        "add_row after add_row",
        &ours::add_two_rows,
        &original::add_two_rows,
    );
    comparison.mixture(57, 1_000_000, &score());
    comparison.random(58, 4_000_000, plausible::add_two_rows);
    comparison.done(&[0, 11, 12]);
}
