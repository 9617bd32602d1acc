//! Document 01's marked facts about the leaves, asked of the original.
#![cfg(source_at_hand)]

use oracle::session::Row2;
use oracle::{determinant, dot, inverse_positive, product, row_terms, Rows2};

#[test]
fn marked_rows() {
    // (value 3, f 1, f_eta 2, a 1, p 0)
    let terms = row_terms(3., 0., 1., 2., 1.).unwrap();
    assert_eq!(terms[1..], [-4., 4.]);
    // (4, 2, 1, 0, 1)
    let terms = row_terms(4., 1., 2., 1., 0.).unwrap();
    assert_eq!(terms[1..], [-0.5, 0.75]);
    assert_eq!(row_terms(1., 1., 0., 1., 0.), Err(11));
    assert_eq!(row_terms(1., 0., f64::INFINITY, 1., 1.), Err(11));
    assert_eq!(row_terms(1e200, 0., 0., 1., 1.), Err(12));
}

#[test]
fn marked_matrices() {
    let (inverse, det) = inverse_positive([[2., 0.], [0., 4.]]).unwrap();
    let words = inverse.map(|row| row.map(f64::to_bits));
    assert_eq!(
        words,
        [[0.5, -0.], [-0., 0.25]].map(|row: [f64; 2]| row.map(f64::to_bits))
    );
    assert_eq!(det, 8.);
    assert!(inverse_positive([[1., 1.], [1., 1.]]).is_none());
    assert_eq!(determinant([[1., 2.], [3., 4.]]), -2.);
    assert_eq!(product([[1., 2.], [3., 4.]], [5., 6.]), [17., 39.]);
    assert_eq!(dot([1., 2.], [3., 4.]), 11.);
}

fn row(value: f64, additive: f64, proportional: f64, prediction: f64) -> Row2 {
    Row2 {
        value,
        additive,
        proportional,
        prediction,
        f_eta: [2., 1.],
    }
}

#[test]
fn rows_of_two_effects() {
    let mut rows = Rows2::new();
    let sums = rows.sums(&[row(3., 1., 0., 1.)]).unwrap();
    assert_eq!(sums.score, [-4., -2.]);
    assert_eq!(sums.information, [[4., 2.], [2., 1.]]);
    // Nothing is kept: another row gets its own sums.
    let sums = rows
        .sums(&[row(3., 1., 0., 1.), row(3., 1., 0., 1.)])
        .unwrap();
    assert_eq!(sums.score, [-8., -4.]);
    assert_eq!(rows.sums(&[row(1., 0., 1., 0.)]), Err(11));
    assert_eq!(rows.sums(&[row(1., 1., 0., f64::INFINITY)]), Err(11));
    assert_eq!(rows.sums(&[row(1e200, 1., 0., 1.)]), Err(12));
}

/// Tiny p tells the two files' factors apart: `2·(p·p)` loses what `2·p·p`
/// still has.
#[test]
fn the_two_files_part_at_tiny_p() {
    let p = 1.25 * 2f64.powi(-538);
    let prediction = 2f64.powi(530);
    let one = row_terms(prediction, p, prediction, 1., 0.).unwrap();
    let two = Rows2::new()
        .sums(&[Row2 {
            value: prediction,
            additive: 0.,
            proportional: p,
            prediction,
            f_eta: [1., 0.],
        }])
        .unwrap();
    assert_eq!(one[0], two.nll);
    assert_eq!(one[1], 0.);
    assert!(two.score[0] > 0.);
}

/// The information is not always symmetric: a half is taken of one effect's
/// factor first, and half of a subnormal may be rounded.
#[test]
fn information_may_depend_on_the_order_of_the_effects() {
    let sums = Rows2::new()
        .sums(&[Row2 {
            value: 1.,
            additive: 1.,
            proportional: 1.,
            prediction: 1.,
            f_eta: [3. * f64::from_bits(1), 1.5],
        }])
        .unwrap();
    assert_eq!(sums.information[0][1].to_bits(), 5);
    assert_eq!(sums.information[1][0].to_bits(), 4);
}
