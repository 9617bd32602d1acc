//! Random inputs of the sizes that a fit meets, and of the sizes at which its
//! arithmetic runs over or under.

use crate::floats::{power, EXP_TURNS, LOG_TURNS};
use crate::random::Random;

/// A proportional deviation: none, usual, or so tiny that its square is lost.
fn proportional(random: &mut Random) -> f64 {
    match random.below(4) {
        0 => 0.,
        1 => random.magnitude(-540, -505),
        _ => random.uniform(0., 0.6),
    }
}

fn additive(random: &mut Random) -> f64 {
    match random.below(4) {
        0 => 0.,
        1 => random.magnitude(-20, 4),
        _ => random.uniform(0., 3.),
    }
}

pub fn subnormal(random: &mut Random) -> f64 {
    let bits = 1 << random.below(53);
    f64::from_bits(random.below(bits))
}

fn value(random: &mut Random) -> f64 {
    random.uniform(-5., 100.)
}

/// Value, proportional, prediction, f_eta and additive of a usual row. With a
/// tiny proportional deviation the prediction is large, so that the variance
/// is not lost with it.
fn usual(random: &mut Random) -> [f64; 5] {
    let proportional = proportional(random);
    let additive = additive(random);
    let tiny = 0. < proportional && proportional < 1e-100;
    let prediction = if tiny && random.below(8) != 0 {
        random.magnitude(480, 1000)
    } else {
        value(random)
    };
    let measured = match random.below(4) {
        0 => prediction,
        1 => prediction * random.uniform(0.5, 1.5),
        _ => value(random),
    };
    let size = random.magnitude(-10, 10);
    let f_eta = random.signed(size);
    [measured, proportional, prediction, f_eta, additive]
}

/// A row whose numbers are of very unlike sizes.
fn unlike(random: &mut Random) -> [f64; 5] {
    let mut row = std::array::from_fn(|_| {
        let size = random.magnitude(-300, 300);
        if random.below(8) == 0 {
            0.
        } else {
            size
        }
    });
    for argument in [0, 2, 3] {
        row[argument] = random.signed(row[argument]);
    }
    row
}

pub fn row_terms(random: &mut Random) -> [f64; 5] {
    if random.below(4) == 0 {
        unlike(random)
    } else {
        usual(random)
    }
}

/// Value, additive, proportional, prediction and both eta sensitivities. A
/// subnormal sensitivity matters: halved, it may lose its last bit, and the
/// information then depends on the order of the effects.
pub fn add_row(random: &mut Random) -> [f64; 6] {
    let [value, proportional, prediction, first, additive] = row_terms(random);
    let second = match random.below(4) {
        0 => 0.,
        1 => {
            let size = subnormal(random);
            random.signed(size)
        }
        _ => first * random.uniform(-2., 2.),
    };
    if random.coin() {
        [value, additive, proportional, prediction, first, second]
    } else {
        [value, additive, proportional, prediction, second, first]
    }
}

pub fn add_two_rows(random: &mut Random) -> [f64; 12] {
    let first = add_row(random);
    let second = add_row(random);
    std::array::from_fn(|argument| {
        if argument < 6 {
            first[argument]
        } else {
            second[argument - 6]
        }
    })
}

/// A symmetric matrix that has an inverse, or whose determinant is at the
/// edge of having one, or any matrix.
pub fn matrix(random: &mut Random) -> [f64; 4] {
    let [a, d] = match random.below(8) {
        // so small that a share of 1e-12 of it is lost
        0 => [subnormal(random), random.magnitude(960, 1023)],
        1 => [random.magnitude(960, 1023), subnormal(random)],
        _ => [random.magnitude(-30, 30), random.magnitude(-30, 30)],
    };
    let geometric = (a * d).sqrt();
    let b = match random.below(4) {
        0 => random.uniform(-1., 1.) * geometric,
        1 => (1. - random.magnitude(-54, -30)) * geometric,
        2 => (1. - power(-41) * random.uniform(0.9, 1.2)) * geometric,
        _ => random.uniform(-2., 2.) * geometric,
    };
    match random.below(8) {
        0 => [-a, b, b, d],
        1 => [a, b, -b, d],
        2 => {
            let other = random.uniform(-1., 1.) * geometric;
            [a, b, other, d]
        }
        _ => [a, b, b, d],
    }
}

pub fn matrix_and_vector(random: &mut Random) -> [f64; 6] {
    let [a, b, c, d] = matrix(random);
    [a, b, c, d, random.uniform(-4., 4.), random.uniform(-4., 4.)]
}

/// Four floats for a sum of two products, often nearly cancelling.
pub fn four(random: &mut Random) -> [f64; 4] {
    let [a, b, c] = std::array::from_fn(|_| random.uniform(-100., 100.));
    let d = if random.coin() {
        a * b / c * random.uniform(0.999, 1.001)
    } else {
        random.uniform(-100., 100.)
    };
    [a, c, b, -d]
}

/// A float with one of the high words, whatever its low word.
fn with_high_word(random: &mut Random, high_words: &[u64]) -> f64 {
    let high = random.pick(high_words);
    f64::from_bits(high << 32 | random.below(1 << 32))
}

/// Variances and determinants, and floats about the turns of `log`.
pub fn log(random: &mut Random) -> [f64; 1] {
    [match random.below(5) {
        4 => with_high_word(random, LOG_TURNS),
        0 => random.uniform(0.5, 2.),
        1 => 1. + random.uniform(-1., 1.) * random.magnitude(-52, -1),
        2 => random.magnitude(-1022, 1023),
        _ => random.uniform(0., 1000.),
    }]
}

/// Etas within the bound of 16, a few beyond, and floats about the turns of
/// `exp`.
pub fn exp(random: &mut Random) -> [f64; 1] {
    [match random.below(8) {
        3 => {
            let turn = with_high_word(random, EXP_TURNS);
            random.signed(turn)
        }
        0 => {
            let size = random.magnitude(-40, 5);
            random.signed(size)
        }
        1 => {
            // near a change of k
            let turn = (random.below(24) as f64 + 0.5) * std::f64::consts::LN_2;
            let near = f64::from_bits(turn.to_bits() ^ random.below(1 << 20));
            random.signed(near)
        }
        2 => random.uniform(-1.5, 1.5),
        _ => random.uniform(-16.1, 16.1),
    }]
}

/// Both thetas, both etas and the number of effects. Thetas are mostly of a
/// fit's sizes, else often such that the value is lost at one end of the floats.
pub fn individual_values(random: &mut Random) -> [f64; 5] {
    let theta = [0; 2].map(|_| match random.below(16) {
        0 => stray(random, 1.),
        1 => random.pick(&[0., -0., -1., f64::MAX]),
        2 => subnormal(random),
        3 => random.magnitude(1000, 1023),
        4 => random.magnitude(-1022, -1000),
        _ => random.magnitude(-4, 4),
    });
    let eta = [0; 2].map(|_| exp(random)[0]);
    let effects = random.pick(&[1., 1., 1., 2., 2., 2., 2., 0., 3., 4294967295.]);
    [theta[0], theta[1], eta[0], eta[1], effects]
}

/// A point between bounds, beyond one, or at one.
pub fn clamp(random: &mut Random) -> [f64; 3] {
    let low = random.uniform(-16., 16.);
    let high = low + random.uniform(-1., 8.);
    let x = match random.below(8) {
        0 => low,
        1 => high,
        _ => random.uniform(-20., 20.),
    };
    [x, low, high]
}

/// Gradient tolerances between and about the turns at 1e-8 and 1e-4, and of
/// any size.
pub fn gradient_tolerance(random: &mut Random) -> [f64; 1] {
    [match random.below(5) {
        0 => random.magnitude(-1022, 1023),
        1 => {
            let turn: f64 = random.pick(&[1e-8, 1e-4]);
            f64::from_bits(turn.to_bits() - 64 + random.below(128))
        }
        2 => random.magnitude(-30, -10),
        _ => random.uniform(0., 2e-4),
    }]
}

/// Settings and a search in any state, as `leaves` reads them. Stages and
/// counts are mostly those of a search, floats mostly of a fit's sizes.
pub fn search(random: &mut Random) -> [f64; 24] {
    let left = random.uniform(-16., 16.);
    let right = match random.below(8) {
        0 => left,
        1 => random.uniform(-16., 16.),
        _ => left + random.magnitude(-46, 1),
    };
    let warm = match random.below(4) {
        0 => left,
        1 => right,
        _ => random.uniform(left, right),
    };
    let mut input = [0.; 24];
    input[0] = random.magnitude(-10, 4);
    input[1] = random.magnitude(-20, 20);
    input[2] = random.magnitude(-42, -24);
    input[3] = warm;
    input[4] = stage(random);
    input[5] = count(random);
    input[6] = score(random);
    input[7..11].copy_from_slice(&conditional(random));
    input[11] = fall(random);
    for (at, eta) in [(12, left), (16, right), (20, random.pick(&[left, right]))] {
        input[at..at + 4].copy_from_slice(&conditional(random));
        input[at] = eta;
    }
    with_strays(random, input)
}

/// A search and an evaluated point.
pub fn search_step(random: &mut Random) -> [f64; 28] {
    let mut input = [0.; 28];
    input[..24].copy_from_slice(&search(random));
    let at = conditional(random);
    input[24..].copy_from_slice(&with_strays(random, at));
    input
}

fn stage(random: &mut Random) -> f64 {
    match random.below(40) {
        0 => random.pick(&[4., 5., 256., 4294967296., 4294967298., 1e18]),
        _ => random.below(4) as f64,
    }
}

/// Up to a stage's last count and a little beyond, or of any size: no search
/// has one that is wider than 32 bits.
fn count(random: &mut Random) -> f64 {
    match random.below(40) {
        0 => 4294967296. + random.below(60) as f64,
        1 => random.pick(&[65536., 4294967295., 4294967296., 1e18]),
        2 => random.word() as f64,
        _ => {
            let bound = random.pick(&[2, 18, 50]);
            let counts = [14, 15, 16, 17, 47, 48, random.below(bound)];
            random.pick(&counts) as f64
        }
    }
}

fn fall(random: &mut Random) -> f64 {
    match random.below(40) {
        0 => random.pick(&[2., 3., 256., 4294967296., 4294967297., 1e18]),
        _ => random.below(2) as f64,
    }
}

/// A score of either sign and any size, often of the same size as another.
fn score(random: &mut Random) -> f64 {
    let size = match random.below(8) {
        0 => 0.,
        1 => 1.,
        2 => random.magnitude(-1022, 1023),
        3 => random.magnitude(-45, -20),
        _ => random.magnitude(-10, 10),
    };
    random.signed(size)
}

fn conditional(random: &mut Random) -> [f64; 4] {
    let information = match random.below(4) {
        0 => 0.,
        1 => random.magnitude(-60, 60),
        _ => random.magnitude(-6, 6),
    };
    let eta = random.uniform(-16., 16.);
    [eta, random.uniform(-9., 99.), score(random), information]
}

/// Settings and a two-effect search in any state, as `leaves` reads them.
/// Numbers are mostly those of a search, floats mostly such that each of the
/// tests has both answers.
pub fn search_2d(random: &mut Random) -> [f64; 32] {
    let eta_bound = match random.below(4) {
        0 => power(-10),
        _ => random.magnitude(-10, 4),
    };
    let precision = precision(random);
    let current = conditional_2d(random, eta_bound, precision);
    let mut input = [0.; 32];
    input[0] = eta_bound;
    input[1..5].copy_from_slice(&precision);
    for at in [5, 6, 20, 21] {
        input[at] = random.uniform(-eta_bound, eta_bound);
    }
    input[7] = stage_2d(random);
    input[8] = number(random, 6);
    input[9] = number(random, 48);
    input[10] = number(random, 22);
    input[11..20].copy_from_slice(&current);
    input[22] = score(random);
    input[23..].copy_from_slice(&near(random, current));
    with_strays(random, input)
}

/// A two-effect search and an evaluated point.
pub fn search_2d_step(random: &mut Random) -> [f64; 41] {
    let mut input = [0.; 41];
    input[..32].copy_from_slice(&search_2d(random));
    let current = std::array::from_fn(|at| input[11 + at]);
    let at = match random.below(4) {
        0 => near(random, current),
        _ => conditional_2d(random, input[0], std::array::from_fn(|at| input[1 + at])),
    };
    input[32..].copy_from_slice(&with_strays(random, at));
    if random.below(16) == 0 {
        // any floats at all about the four numbers
        for at in (0..7).chain(11..41) {
            input[at] = stray(random, input[at]);
        }
    }
    input
}

/// Mostly a trial; now and then a refused search, also one with a number that
/// no refusal has, or a stage beyond all numbers of 32 bits.
fn stage_2d(random: &mut Random) -> f64 {
    let largest = 4294967299.;
    match random.below(40) {
        0 => random.pick(&[largest, largest + 1., 1e18, f64::MAX]),
        1 => 4. + random.pick(&[0., 1., 2., 12., 15., 19., 4294967294.]),
        2..4 => 4. + random.pick(&[13., 14., 16.]),
        4 => 3.,
        5..7 => 0.,
        7..16 => 1.,
        _ => 2.,
    }
}

/// A number below the count of its kind, at its end or beyond, or of any size:
/// no search has one that is wider than 32 bits.
fn number(random: &mut Random, count: u64) -> f64 {
    match random.below(100) {
        0 => 4294967296. + random.below(60) as f64,
        1 => random.pick(&[65536., 4294967294., 4294967295., 4294967296., 1e18]),
        2 => random.word() as f64,
        3..25 => (count - 2 + random.below(4)) as f64,
        25..45 => random.below(2) as f64,
        _ => random.below(count) as f64,
    }
}

fn precision(random: &mut Random) -> [f64; 4] {
    match random.below(8) {
        0 => matrix(random),
        _ => {
            let [a, d] = [random.magnitude(-20, 8), random.magnitude(-20, 8)];
            let b = random.pick(&[0., 0.3, -0.9]) * (a * d).sqrt();
            [a, b, b, d]
        }
    }
}

/// A point whose norm, with the prior, is often about 1e-5 or 1e-3, and whose
/// etas are now and then at the bound.
fn conditional_2d(random: &mut Random, eta_bound: f64, precision: [f64; 4]) -> [f64; 9] {
    let eta = [0; 2].map(|_| match random.below(8) {
        0 => 0.,
        1 => random.pick(&[-1., 1.]) * (eta_bound - 1e-6 * random.pick(&[0., 1., 1., 2.])),
        _ => random.uniform(-eta_bound, eta_bound),
    });
    let size = match random.below(4) {
        0 => 1e-5 * random.pick(&[0.5, 1., 1.1]),
        1 | 2 => 1e-3 * random.pick(&[0.1, 0.9, 1., 1.1]),
        _ => random.magnitude(-20, 20),
    };
    let prior = [
        precision[0] * eta[0] + precision[1] * eta[1],
        precision[2] * eta[0] + precision[3] * eta[1],
    ];
    let [s, t] = prior.map(|prior| random.pick(&[-1., 0., 0.5, 1.]) * size - prior);
    let [a, b, c, d] = match random.below(8) {
        0 => [0.; 4],
        1 => matrix(random),
        _ => {
            let [f, g] = [random.magnitude(-12, 6), random.magnitude(-12, 6)];
            [f * f, f * g, g * f, g * g]
        }
    };
    let nll = random.pick(&[0., 1., 2., 50.]) + random.pick(&[0., 0., 1e-9, 1e-4]);
    [eta[0], eta[1], nll, s, t, a, b, c, d]
}

/// A point that is the one given but for some of its parts, or about 1e-3 off.
fn near(random: &mut Random, mut point: [f64; 9]) -> [f64; 9] {
    let way = random.pick(&[0., 0., 1e-9, 5e-4, 1e-3, 2e-3]);
    for eta in &mut point[..2] {
        *eta += random.pick(&[-1., 0., 1.]) * way;
    }
    point[2] += random.pick(&[-1., 0., 0., 1.]) * random.pick(&[1e-9, 1e-4, 1.]);
    if random.below(4) == 0 {
        let at = random.below(9) as usize;
        point[at] = random.uniform(-4., 4.);
    }
    point
}

/// Now and then a float is replaced by one of any bits or of a special kind.
fn with_strays<const N: usize>(random: &mut Random, mut input: [f64; N]) -> [f64; N] {
    while random.below(3) == 0 {
        let at = random.below(N as u64) as usize;
        input[at] = stray(random, input[at]);
    }
    input
}

/// A float of any bits, or the one given with the other sign, or one of a
/// special kind.
pub fn stray(random: &mut Random, x: f64) -> f64 {
    match random.below(3) {
        0 => f64::from_bits(random.word()),
        1 => -x,
        _ => random.pick(&STRAYS),
    }
}

const STRAYS: [f64; 9] = [
    f64::NAN,
    f64::NAN,
    f64::INFINITY,
    f64::NEG_INFINITY,
    f64::MAX,
    f64::MIN,
    0.,
    -0.,
    5e-324,
];
