//! Document 01's marked facts about the leaves and the rules of the search, and
//! what it says of kept evaluations and of evaluations, through the safe
//! functions.

use test_exports::cache::{Cache, CacheKey, CachedTerms};
use test_exports::evaluation::{
    self, Observation, Place, Question, check_observations, evaluate, individual_values,
};
use test_exports::mode::{Conditional, Request, Search, Settings, eta_tolerance};
use test_exports::mode_2d::{Conditional2, Request2, Search2, Settings2};
use test_exports::*;

#[test]
fn floats() {
    assert_eq!(from_word(0x3ff0000000000000), 1.);
    assert_eq!(to_word(-f64::NAN), 0x7ff8000000000000);
    assert_eq!(to_word(-0.), 1 << 63);
    assert!(is_finite(f64::MAX) && !is_finite(f64::INFINITY) && !is_finite(f64::NAN));
    assert_eq!(to_word(abs(-0.)), 0);
    assert_eq!(max(f64::NAN, 1.), 1.);
    assert_eq!(clamp(5., -1., 4.), 4.);
    assert_eq!(to_word(exp(0.)), to_word(1.));
    assert_eq!(to_word(log(1.)), 0);
}

#[test]
fn matrices() {
    let (inverse, det) = inverse_positive([[2., 0.], [0., 4.]]).unwrap();
    assert_eq!(
        inverse.map(|row| row.map(to_word)),
        [[0.5, -0.], [-0., 0.25]].map(|row| row.map(to_word))
    );
    assert_eq!(det, 8.);
    assert_eq!(inverse_positive([[1., 1.], [1., 1.]]), None);
    assert_eq!(determinant([[1., 2.], [3., 4.]]), -2.);
    assert_eq!(product([[1., 2.], [3., 4.]], [5., 6.]), [17., 39.]);
    assert_eq!(dot([1., 2.], [3., 4.]), 11.);
}

#[test]
fn rows() {
    let terms = row_terms(3., 0., 1., 2., 1.).unwrap();
    assert_eq!((terms.score, terms.information), (-4., 4.));
    let terms = row_terms(4., 1., 2., 1., 0.).unwrap();
    assert_eq!((terms.score, terms.information), (-0.5, 0.75));
    assert_eq!(row_terms(1., 1., 0., 1., 0.), Err(RefusedWith(11)));
    assert_eq!(
        row_terms(1., 0., f64::INFINITY, 1., 1.),
        Err(RefusedWith(11))
    );
    assert_eq!(row_terms(1e200, 0., 0., 1., 1.), Err(RefusedWith(12)));

    let mut sums = Sums::default();
    add_row(3., 1., 0., 1., [2., 1.], &mut sums).unwrap();
    assert_eq!(sums.score, [-4., -2.]);
    assert_eq!(sums.information, [[4., 2.], [2., 1.]]);
    let before = sums;
    let refused = add_row(1., 0., 1., 0., [1., 1.], &mut sums);
    assert_eq!(refused, Err(RefusedWith(11)));
    assert_eq!(sums, before);
}

#[test]
fn searches() {
    assert_eq!(eta_tolerance(1e-3), 1e-8);
    assert_eq!(eta_tolerance(1e-9), 1e-12);

    let settings = Settings {
        eta_bound: 4.,
        omega: 1.,
        tolerance: eta_tolerance(1e-4),
        warm: 0.,
    };
    // the example with nothing but the prior: the grid, and its middle
    let mut search = Search::start();
    let mut points = Vec::new();
    while let Request::Point(eta) = search.request(&settings) {
        points.push(eta);
        let at = Conditional {
            eta,
            nll: 0.5,
            score: eta,
            information: 0.,
        };
        search.advance(&settings, &at);
    }
    assert_eq!(points.len(), 17);
    assert_eq!([points[0], points[8], points[16]], [-4., 0., 4.]);
    assert_eq!(search.request(&settings), Request::Mode);
    assert_eq!(search.best().eta, 0.);
    assert_eq!(search.best().nll, 0.5);
}

#[test]
fn refused_searches() {
    let settings = Settings {
        eta_bound: 4.,
        omega: 1.,
        tolerance: 1e-8,
        warm: 0.,
    };
    let refused = |score: fn(f64) -> f64| {
        let mut search = Search::start();
        while let Request::Point(eta) = search.request(&settings) {
            let at = Conditional {
                eta,
                nll: 0.,
                score: score(eta),
                information: 0.,
            };
            search.advance(&settings, &at);
        }
        search.request(&settings)
    };
    assert_eq!(refused(|_| 1.), Request::Refused(RefusedWith(13)));
    assert_eq!(refused(|_| -1.), Request::Refused(RefusedWith(13)));
    let falling = |eta: f64| if eta.abs() < 1. { -eta } else { eta };
    assert_eq!(refused(falling), Request::Refused(RefusedWith(14)));
}

/// A search where every evaluation gives the same: its points and its end.
fn alike_everywhere(
    settings: &Settings2,
    score: [f64; 2],
    information: [[f64; 2]; 2],
) -> (Vec<[f64; 2]>, Search2) {
    let mut search = Search2::start();
    let mut points = Vec::new();
    while let Request2::Point(eta) = search.request(settings) {
        points.push(eta);
        let at = Conditional2 {
            eta,
            nll: 0.,
            score,
            information,
        };
        search.advance(settings, &at);
    }
    (points, search)
}

/// Nothing but the prior: from each of the starts off zero one Newton step
/// leads to zero.
#[test]
fn two_effect_searches() {
    let settings = Settings2 {
        eta_bound: 4.,
        precision: [[1., 0.], [0., 1.]],
        warm: [0.; 2],
    };
    let (points, search) = alike_everywhere(&settings, [0.; 2], [[0.; 2]; 2]);
    let [zero, right, left] = [[0., 0.], [2., 0.], [-2., 0.]];
    let [up, down] = [[0., 2.], [0., -2.]];
    assert_eq!(
        points,
        [
            zero, zero, zero, right, zero, left, zero, up, zero, down, zero
        ]
    );
    assert_eq!(search.request(&settings), Request2::Mode);
    assert_eq!(search.best().eta, zero);
}

#[test]
fn refused_two_effect_searches() {
    let settings = Settings2 {
        eta_bound: 4.,
        precision: [[1e-6, 0.], [0., 1e-6]],
        warm: [0.; 2],
    };
    let refused = |score: f64, information: f64| {
        let (points, search) = alike_everywhere(&settings, [score; 2], [[information; 2]; 2]);
        (points.len(), search.request(&settings))
    };
    // no trial is taken, and the norm is too large
    let (points, end) = refused(1., 0.);
    assert_eq!((points, end), (2 + 22, Request2::Refused(RefusedWith(13))));
    // a norm small enough ends the rounds at each start, far from the first
    let (points, end) = refused(0., 0.);
    assert_eq!((points, end), (4, Request2::Refused(RefusedWith(14))));
    // the information hides the prior
    let (points, end) = refused(1., 1e9);
    assert_eq!((points, end), (2, Request2::Refused(RefusedWith(16))));
}

fn observation(row: usize, value: f64, additive: f64, proportional: f64) -> Observation {
    Observation {
        output: 0,
        row,
        value,
        additive,
        proportional,
    }
}

/// About the whole list, with unit individual values and room for every row.
fn question(effects: u32) -> Question {
    Question {
        observations: 0..usize::MAX,
        individual: [1.; 2],
        additive: None,
        width: 1,
        effects,
        output_budget: u32::MAX,
        block: 0,
    }
}

/// Rows at time 0 before the dose, of a prediction and its derivatives.
fn reply<const N: usize>(rows: &[[f64; N]]) -> Vec<u64> {
    let words = |row: &[f64; N]| [&[0., 0.], &row[..]].concat();
    rows.iter().flat_map(words).map(to_word).collect()
}

fn refused<T>(number: u32, observation: Option<usize>) -> Result<T, evaluation::RefusedEvaluation> {
    Err(evaluation::RefusedEvaluation {
        number,
        observation,
    })
}

/// Whether there are sums.
fn end(
    observations: &[Observation],
    question: &Question,
    reply: &[u64],
) -> Result<(), evaluation::RefusedEvaluation> {
    evaluate(observations, question, reply, &mut []).map(|_| ())
}

#[test]
fn individual_parameters() {
    assert_eq!(individual_values([2., 0.], [0., 9.], 1), Ok([2., 0.]));
    assert_eq!(individual_values([2., 3.], [0., -0.], 2), Ok([2., 3.]));
    for theta in [0., -1., f64::INFINITY, f64::NAN] {
        assert_eq!(individual_values([theta, 1.], [0.; 2], 1), refused(7, None));
        assert_eq!(individual_values([1., theta], [0.; 2], 2), refused(7, None));
    }
    // `exp` has no value beyond 16
    assert!(individual_values([1., 0.], [16., 0.], 1).is_ok());
    assert!(individual_values([1., 0.], [16f64.next_up(), 0.], 1).is_err());
}

#[test]
fn sound_observations() {
    let sound = observation(0, 1., 1., 0.);
    let mut list = [sound; 5];
    assert_eq!(check_observations(&list, 1, &[2, 3]), Ok(()));
    let unsound = [
        Observation { output: 1, ..sound },
        observation(0, f64::NAN, 1., 0.),
        observation(0, 1., -1., 1.),
        observation(0, 1., 1., f64::INFINITY),
        observation(0, 1., 0., -0.),
    ];
    for one in unsound {
        list[3] = one;
        let place = Place {
            subject: 1,
            observation: 1,
        };
        assert_eq!(check_observations(&list, 1, &[2, 3]), Err(place));
    }
}

#[test]
fn evaluations() {
    // document 01's two rows, the second with the individual value 2
    let mut asked = question(1);
    let one = [observation(0, 3., 1., 0.)];
    let sums = evaluate(&one, &asked, &reply(&[[1., 2.]]), &mut []).unwrap();
    assert_eq!((sums.score, sums.information[0]), ([-4., 0.], [4., 0.]));
    asked.individual[0] = 2.;
    let one = [observation(0, 4., 0., 1.)];
    let sums = evaluate(&one, &asked, &reply(&[[2., 0.5]]), &mut []).unwrap();
    assert_eq!((sums.score, sums.information[0]), ([-0.5, 0.], [0.75, 0.]));

    // two effects, and rows out of order
    let both = [observation(1, 3., 1., 0.), observation(0, 0., 1., 0.)];
    let mut work = [9; 7];
    let mut rows = reply(&[[0., 5., 6.], [1., 2., 1.]]);
    rows[5] = to_word(7.);
    rows[6] = 1 << 63;
    let mut asked = question(2);
    asked.block = 1;
    let sums = evaluate(&both, &asked, &rows, &mut work).unwrap();
    assert_eq!(sums.score, [-4., -2.]);
    assert_eq!(sums.information, [[29., 32.], [32., 37.]]);
    assert_eq!(work, [9, to_word(1.), to_word(7.), 1, 0, 0, 0]);
}

#[test]
fn refused_evaluations() {
    let good = observation(0, 0., 1., 0.);
    let rows = reply(&[[0., 0.], [0., 0.]]);
    let mut asked = question(1);
    assert_eq!(end(&[good], &asked, &rows), Ok(()));
    assert_eq!(end(&[good], &asked, &rows[1..]), refused(8, None));
    asked.output_budget = 4;
    assert_eq!(end(&[good], &asked, &rows), Ok(()));
    asked.output_budget = 3;
    assert_eq!(end(&[good], &asked, &rows), refused(9, None));
    asked.output_budget = 4;
    let [missing, invalid, large] = [(2, 0., 1.), (0, 0., 0.), (0, 1e200, 1.)]
        .map(|(row, value, additive)| observation(row, value, additive, 0.));
    assert_eq!(end(&[good, missing], &asked, &rows), refused(10, Some(1)));
    assert_eq!(end(&[good, invalid], &asked, &rows), refused(11, Some(1)));
    assert_eq!(end(&[good, large], &asked, &rows), refused(12, Some(1)));
    asked.additive = Some(1.);
    assert_eq!(end(&[good, invalid], &asked, &rows), Ok(()));
}

#[test]
fn sums_that_overflow() {
    let rows = reply(&[[0., 0.]]);
    let asked = question(1);
    let [good, missing] = [0, 1].map(|row| observation(row, 0., 1., 0.));
    // each of three is finite, their sum is not; a row that is missing after it
    // is told first
    let most = observation(0, 1.3e154, 1., 0.);
    assert_eq!(end(&[most; 2], &asked, &rows), Ok(()));
    assert_eq!(end(&[most; 3], &asked, &rows), refused(12, None));
    let missed = [most, most, most, missing];
    assert_eq!(end(&missed, &asked, &rows), refused(10, Some(3)));

    // with two effects no single row is refused with 12
    let large = observation(0, 1e200, 1., 0.);
    let rows = reply(&[[0., 0., 0.]]);
    let asked = question(2);
    assert_eq!(end(&[good, large], &asked, &rows), refused(12, None));
    let missed = [large, missing];
    assert_eq!(end(&missed, &asked, &rows), refused(10, Some(1)));
}

fn terms(nll: f64) -> CachedTerms {
    CachedTerms {
        nll,
        score: [1., -0.],
        information: [[2., 3.], [3., 4.]],
    }
}

#[test]
fn kept_evaluations() {
    let mut cache = Cache::new(4);
    let key = |subject| CacheKey::two_effects(subject, [1., 2.], [0., 0.5]);
    for subject in 0..3 {
        assert_eq!(cache.find(&key(subject)), None);
        cache.insert(&key(subject), &terms(subject as f64), &[[7, 8, 9]]);
    }
    let first = cache.find(&key(0)).unwrap();
    assert_eq!(cache.terms(first), terms(0.));
    // three rows want room: the two oldest go
    let rows = [[1, 2, 3], [4, 5, 6], [7, 8, 9]];
    cache.insert(&key(3), &terms(3.), &rows);
    assert_eq!((cache.entries(), cache.cached_rows()), (2, 4));
    assert_eq!([0, 1].map(|subject| cache.find(&key(subject))), [None; 2]);
    assert_eq!(cache.terms(cache.find(&key(2)).unwrap()), terms(2.));
    let mut copy = [[0; 3]; 3];
    cache.rows(cache.find(&key(3)).unwrap(), &mut copy);
    assert_eq!(copy, rows);
    // neither one with more rows than K nor one without any is kept
    let before = cache.clone();
    cache.insert(&key(4), &terms(4.), &[[0; 3]; 5]);
    cache.insert(&key(4), &terms(4.), &[]);
    assert_eq!(cache, before);
}

#[test]
fn keys_of_kept_evaluations() {
    let keys = [
        CacheKey::one_effect(0, 1., 0., None),
        CacheKey::one_effect(0, 1., -0., None),
        CacheKey::one_effect(0, 1., 0., Some(0.)),
        CacheKey::one_effect(0, 1., 0., Some(-0.)),
        CacheKey::one_effect(0, -1., 0., None),
        CacheKey::one_effect(1, 1., 0., None),
    ];
    let mut cache = Cache::new(64);
    for (number, key) in keys.iter().enumerate() {
        assert_eq!(cache.find(key), None);
        cache.insert(key, &terms(number as f64), &[[0; 3]]);
    }
    for (number, key) in keys.iter().enumerate() {
        let slot = cache.find(key).unwrap();
        assert_eq!(cache.terms(slot), terms(number as f64));
    }
}
