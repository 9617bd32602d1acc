//! Times the leaves beside the original's in one run. Build with `--release`.
//!
//! Ours are called through the C face, one call for each; the original's are
//! Rust compiled in the same run, so that the compiler may build them into the
//! loop. The row of two effects stands inside the original's `subject`: it is
//! timed there over a thousand observations of one subject, with a reply of a
//! single row, so that next to nothing but the rows is left.
//!
//! The rules of a search stand inside the original's `mode`, with the
//! evaluations. There it is timed on a search whose points are all kept, so
//! that an evaluation is a look into the cache; ours is the whole search over
//! the same points, one request and one advance for each. Both are given for
//! one point that is asked for, with one effect and with two.

use layer_comparison::random::Random;
#[cfg(source_at_hand)]
use layer_comparison::simulators::sample;
#[cfg(source_at_hand)]
use oracle::{
    session::{Observed, Question},
    OneEffect, TwoEffects,
};
#[cfg(source_at_hand)]
use std::collections::BTreeSet;
use std::hint::black_box;
use std::time::Instant;
#[cfg(source_at_hand)]
use test_exports::{
    mode::{eta_tolerance, Conditional, Request, Search, Settings},
    mode_2d::{Conditional2, Request2, Search2, Settings2},
};

const INPUTS: usize = 1024;

fn main() {
    println!("leaf                   original ns    ours ns   ours/original");
    let mut random = Random::new(71);
    let arguments = drawn(&mut random, |random| [random.magnitude(-40, 40)]);
    beside(
        "log",
        each(&arguments, |[x]| oracle::libm::log(x)),
        each(&arguments, |[x]| test_exports::log(x)),
    );
    let arguments = drawn(&mut random, |random| [random.uniform(-4., 4.)]);
    beside(
        "exp",
        each(&arguments, |[x]| oracle::libm::exp(x)),
        each(&arguments, |[x]| test_exports::exp(x)),
    );
    originals(&mut random);
}

#[cfg(not(source_at_hand))]
fn originals(_: &mut Random) {
    println!("the original's source is not at hand: its other leaves were left out");
}

#[cfg(source_at_hand)]
fn originals(random: &mut Random) {
    let rows = drawn(random, |random| {
        let value = random.uniform(0., 4.);
        let proportional = random.uniform(0., 0.3);
        let prediction = random.uniform(0., 4.);
        let f_eta = random.uniform(-2., 2.);
        [
            value,
            proportional,
            prediction,
            f_eta,
            random.uniform(0.1, 1.),
        ]
    });
    beside(
        "row_terms",
        each(&rows, |[v, p, f, g, a]| oracle::row_terms(v, p, f, g, a)),
        each(&rows, |[v, p, f, g, a]| {
            test_exports::row_terms(v, p, f, g, a)
        }),
    );
    let matrices = drawn(random, |random| {
        let [a, d] = [random.uniform(0.1, 9.), random.uniform(0.1, 9.)];
        let b = random.uniform(-0.9, 0.9) * (a * d).sqrt();
        [a, b, b, d]
    });
    beside(
        "inverse_positive",
        each(&matrices, |[a, b, c, d]| {
            oracle::inverse_positive([[a, b], [c, d]])
        }),
        each(&matrices, |[a, b, c, d]| {
            test_exports::inverse_positive([[a, b], [c, d]])
        }),
    );
    two_effects(random);
    search();
    search_2d();
}

#[cfg(source_at_hand)]
fn two_effects(random: &mut Random) {
    use oracle::session::Row2;
    let rows: Vec<Row2> = (0..INPUTS)
        .map(|_| Row2 {
            value: random.uniform(0., 4.),
            additive: random.uniform(0.1, 1.),
            proportional: random.uniform(0., 0.3),
            prediction: 2.,
            f_eta: [1.5, -0.5],
        })
        .collect();
    let mut original = oracle::Rows2::new();
    let theirs = best(|| {
        black_box(original.sums_at_one_row(black_box(&rows))).unwrap();
    });
    let ours = best(|| {
        let mut sums = test_exports::Sums::default();
        for row in black_box(&rows) {
            let f_eta = row.f_eta;
            test_exports::add_row(
                row.value,
                row.additive,
                row.proportional,
                row.prediction,
                f_eta,
                &mut sums,
            )
            .unwrap();
        }
        black_box(sums);
    });
    beside("add_row", theirs, ours);
}

#[cfg(source_at_hand)]
fn search() {
    let settings = Settings {
        eta_bound: 4.,
        omega: 0.5,
        tolerance: eta_tolerance(1e-4),
        warm: 0.,
    };
    let simulator = |question: &Question| Some(vec![sample(question.individual[0], &[1.])]);
    let kept = keeping_all(settings.eta_bound);
    let cohort = vec![vec![observed(0)]];
    let mut original = OneEffect::new(kept, cohort, Box::new(simulator));
    let mode = original.mode(0, 1., settings.omega, None).unwrap();
    let (points, best) = searched(&mut original, &settings);
    // every point was kept, and ours asks for no other
    assert_eq!(original.calls(), points.len());
    assert_eq!(best.eta, mode.best.eta[0]);
    let theirs = || {
        black_box(original.mode(0, 1., black_box(settings.omega), None)).unwrap();
    };
    let ours = || {
        let mut search = Search::start();
        let mut next = black_box(&points).iter();
        while let Request::Point(_) = search.request(black_box(&settings)) {
            search.advance(&settings, next.next().unwrap());
        }
        black_box(search.best());
    };
    beside_points("point of a search", points.len(), theirs, ours);
}

#[cfg(source_at_hand)]
fn search_2d() {
    const OMEGA: [[f64; 2]; 2] = [[0.5, 0.1], [0.1, 0.4]];
    let settings = Settings2 {
        eta_bound: 4.,
        precision: test_exports::inverse_positive(OMEGA).unwrap().0,
        warm: [0.; 2],
    };
    let simulator = |question: &Question| {
        let [x, y] = question.individual;
        Some(vec![sample(x, &[1., 0.]), sample(y, &[0., 1.])])
    };
    let kept = keeping_all(settings.eta_bound);
    let cohort = vec![vec![observed(0), observed(1)]];
    let mut original = TwoEffects::new(kept, OMEGA, cohort, Box::new(simulator)).unwrap();
    let mode = original.mode(0, [1.; 2]).unwrap();
    let (points, best) = searched_2d(&mut original, &settings);
    // every point was kept, and ours asks for no other
    let unlike: BTreeSet<_> = points.iter().map(|at| at.eta.map(f64::to_bits)).collect();
    assert_eq!(original.calls(), unlike.len());
    assert_eq!(best.eta, mode.best.eta);
    let theirs = || {
        black_box(original.mode(0, black_box([1.; 2]))).unwrap();
    };
    let ours = || {
        let mut search = Search2::start();
        let mut next = black_box(&points).iter();
        while let Request2::Point(_) = search.request(black_box(&settings)) {
            search.advance(&settings, next.next().unwrap());
        }
        black_box(search.best());
    };
    beside_points("the same, two effects", points.len(), theirs, ours);
}

/// An observation of the individual value itself.
#[cfg(source_at_hand)]
fn observed(row: usize) -> Observed {
    Observed {
        output: 0,
        row,
        value: 2.,
        additive: 0.5,
        proportional: 0.1,
    }
}

/// Room to keep every point of a search.
#[cfg(source_at_hand)]
fn keeping_all(eta_bound: f64) -> oracle::session::Settings {
    oracle::session::Settings {
        eta_bound,
        gradient_tolerance: 1e-4,
        max_evaluations: 10_000,
        kept_rows: 10_000,
        width: 1,
        output_budget: 10_000,
    }
}

/// The points of our search, evaluated by the original, and the mode.
#[cfg(source_at_hand)]
fn searched(original: &mut OneEffect, settings: &Settings) -> (Vec<Conditional>, Conditional) {
    let mut points = Vec::new();
    let mut search = Search::start();
    while let Request::Point(eta) = search.request(settings) {
        let at = original.subject(0, 1., eta, None).unwrap();
        points.push(Conditional {
            eta,
            nll: at.nll,
            score: at.score[0] + eta / settings.omega,
            information: at.information[0][0],
        });
        search.advance(settings, points.last().unwrap());
    }
    (points, search.best())
}

#[cfg(source_at_hand)]
fn searched_2d(
    original: &mut TwoEffects,
    settings: &Settings2,
) -> (Vec<Conditional2>, Conditional2) {
    let mut points = Vec::new();
    let mut search = Search2::start();
    while let Request2::Point(eta) = search.request(settings) {
        let at = original.subject(0, [1.; 2], eta).unwrap();
        points.push(Conditional2 {
            eta,
            nll: at.nll,
            score: at.score,
            information: at.information,
        });
        search.advance(settings, points.last().unwrap());
    }
    (points, search.best())
}

/// Times whole searches of so many points on both sides, for one point.
#[cfg(source_at_hand)]
fn beside_points(name: &str, points: usize, mut theirs: impl FnMut(), mut ours: impl FnMut()) {
    const SEARCHES: usize = 20;
    let timed = |search: &mut dyn FnMut()| {
        best_of(SEARCHES * points, || {
            for _ in 0..SEARCHES {
                search();
            }
        })
    };
    beside(name, timed(&mut theirs), timed(&mut ours));
}

fn drawn<const N: usize>(
    random: &mut Random,
    mut draw: impl FnMut(&mut Random) -> [f64; N],
) -> Vec<[f64; N]> {
    (0..INPUTS).map(|_| draw(random)).collect()
}

/// Nanoseconds for one call of the leaf.
fn each<const N: usize, T>(inputs: &[[f64; N]], leaf: impl Fn([f64; N]) -> T) -> f64 {
    best(|| {
        for input in inputs {
            black_box(leaf(black_box(*input)));
        }
    })
}

/// The shortest of many rounds over the inputs, for one of them.
fn best(round: impl FnMut()) -> f64 {
    best_of(INPUTS, round)
}

/// The shortest of many rounds, divided by what is in a round.
fn best_of(in_a_round: usize, mut round: impl FnMut()) -> f64 {
    let mut shortest = f64::INFINITY;
    for _ in 0..2_000 {
        let begun = Instant::now();
        round();
        shortest = shortest.min(begun.elapsed().as_secs_f64());
    }
    shortest * 1e9 / in_a_round as f64
}

fn beside(leaf: &str, original: f64, ours: f64) {
    println!(
        "{leaf:22} {original:11.1} {ours:10.1} {:15.2}",
        ours / original
    );
}
