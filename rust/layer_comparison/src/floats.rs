//! The classes of floats that every leaf meets before any random one.

use std::f64::consts::LN_2;

/// Simple floats first: a difference is shrunk toward the front of this list.
pub const SIMPLE: &[f64] = &[
    0., 1., 2., 0.5, 3., 4., 0.25, 10., 0.1, -0., -1., -2., -0.5, -3., 100., 1000.,
];

/// One of every kind, for leaves with four arguments.
pub fn kinds() -> Vec<f64> {
    let mut kinds = vec![
        f64::NAN,
        f64::INFINITY,
        f64::NEG_INFINITY,
        smallest_subnormal(),
        -smallest_subnormal(),
        largest_subnormal(),
        f64::MIN_POSITIVE,
        -f64::MIN_POSITIVE,
        f64::MAX,
        f64::MIN,
        1f64.next_up(),
        1f64.next_down(),
        -1f64.next_up(),
        power(-538),
        1.25 * power(-538),
        power(-525),
        power(-511),
        1e-160,
        1e-12,
        1e-6,
        1e6,
        1e12,
        power(511),
        -power(511),
        power(512),
        1e154,
        1e160,
        1e300,
        -1e300,
        0.3,
        1. / 3.,
        LN_2,
        std::f64::consts::SQRT_2,
        16.,
    ];
    kinds.extend(SIMPLE);
    kinds
}

/// A score of kinds, for leaves with five arguments.
pub fn score() -> Vec<f64> {
    vec![
        f64::NAN,
        f64::INFINITY,
        f64::NEG_INFINITY,
        0.,
        -0.,
        smallest_subnormal(),
        largest_subnormal(),
        f64::MIN_POSITIVE,
        f64::MAX,
        f64::MIN,
        1.,
        -1.,
        1f64.next_up(),
        2.,
        0.1,
        -3.,
        1.25 * power(-538),
        power(-530),
        1e-160,
        power(511),
        -1e154,
        1e160,
    ]
}

/// A dozen kinds, for leaves with six arguments.
pub fn dozen() -> Vec<f64> {
    vec![
        f64::NAN,
        f64::INFINITY,
        0.,
        -0.,
        smallest_subnormal(),
        f64::MAX,
        1.,
        -1.,
        0.1,
        -3.,
        1.25 * power(-538),
        1e-160,
        power(511),
    ]
}

/// All classes, with the places where `log` and `exp` turn and the floats
/// next to them.
pub fn classes() -> Vec<f64> {
    let mut classes = kinds();
    classes.extend([
        f64::from_bits(0x7ff0000000000001),
        f64::from_bits(0x7fffffffffffffff),
        f64::from_bits(0xfff8000000000000),
        f64::from_bits(0xfff0000000000001),
        -largest_subnormal(),
        smallest_subnormal() * 2.,
        f64::MIN_POSITIVE.next_up(),
        f64::MAX.next_down(),
        1e-155,
        1e-162,
        power(-537),
        power(-512),
        power(-1),
        power(1023),
        5.,
        7.,
        -10.,
        -16.,
    ]);
    classes.extend(log_turns());
    classes.extend(exp_turns());
    classes.sort_by_key(|x| x.to_bits());
    classes.dedup_by_key(|x| x.to_bits());
    classes
}

/// High words about the ends of the reduced argument of `log`, at several
/// powers of two, and about 1 and the smallest and largest normal numbers.
pub const LOG_TURNS: &[u64] = &[
    0x3fe6a09d, 0x3fe6a09e, 0x3fe6a09f, 0x3ff6a09d, 0x3ff6a09e, 0x3ff6a09f, 0x4006a09e, 0x0016a09e,
    0x7fe6a09e, 0x000fffff, 0x00100000, 0x3fefffff, 0x3ff00000, 0x7fefffff,
];

/// High words about 0.5·ln 2, 1.5·ln 2, 2^-28 and 16.
pub const EXP_TURNS: &[u64] = &[
    0x3fd62e41, 0x3fd62e42, 0x3fd62e43, 0x3ff0a2b1, 0x3ff0a2b2, 0x3ff0a2b3, 0x3e2fffff, 0x3e300000,
    0x3e300001, 0x402fffff, 0x40300000,
];

/// Where the reduced argument of `log` begins and ends, with neighbours.
pub fn log_turns() -> Vec<f64> {
    let mut turns = Vec::new();
    for high in LOG_TURNS {
        for low in [0, 0xffffffff] {
            turns.extend(neighbours(f64::from_bits(high << 32 | low)));
        }
    }
    turns.extend(neighbours(std::f64::consts::FRAC_1_SQRT_2));
    turns.extend(neighbours(std::f64::consts::SQRT_2));
    turns.extend(neighbours(1.));
    turns
}

/// Where `exp` changes its way, both signs, with neighbours.
pub fn exp_turns() -> Vec<f64> {
    let mut turns = Vec::new();
    for high in EXP_TURNS {
        for low in [0, 0xffffffff] {
            turns.extend(neighbours(f64::from_bits(high << 32 | low)));
        }
    }
    turns.extend(neighbours(0.5 * LN_2));
    turns.extend(neighbours(1.5 * LN_2));
    turns.extend(neighbours(power(-28)));
    turns.extend(neighbours(16.));
    for k in 1..=23 {
        turns.extend(neighbours((k as f64 - 0.5) * LN_2));
        turns.extend(neighbours(k as f64 * LN_2));
        turns.extend(neighbours((k as f64 + 0.5) * LN_2));
    }
    turns.iter().flat_map(|turn| [*turn, -*turn]).collect()
}

pub fn neighbours(x: f64) -> [f64; 3] {
    [x.next_down(), x, x.next_up()]
}

pub fn smallest_subnormal() -> f64 {
    f64::from_bits(1)
}

pub fn largest_subnormal() -> f64 {
    f64::MIN_POSITIVE.next_down()
}

/// 2^exponent, exactly.
pub fn power(exponent: i32) -> f64 {
    f64::from_bits(((exponent + 1023) as u64) << 52)
}

/// Rust's clamp, but where `low <= high` fails, which makes Rust's panic, both
/// tests are still made.
pub fn clamped(x: f64, low: f64, high: f64) -> f64 {
    if low <= high {
        x.clamp(low, high)
    } else if x < low {
        low
    } else if high < x {
        high
    } else {
        x
    }
}
