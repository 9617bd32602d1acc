//! Document 01's stand-ins for the two functions of `libm` that the source
//! calls. Both sides of every comparison use these definitions; they follow
//! musl 1.1.20's `log.c` and `exp.c` operation by operation.
// The constants stand as document 01 prints them.
#![allow(clippy::approx_constant, clippy::excessive_precision)]

const LN2_HI: f64 = 6.93147180369123816490e-01;
const LN2_LO: f64 = 1.90821492927058770002e-10;

const LG1: f64 = 6.666666666666735130e-01;
const LG2: f64 = 3.999999999940941908e-01;
const LG3: f64 = 2.857142874366239149e-01;
const LG4: f64 = 2.222219843214978396e-01;
const LG5: f64 = 1.818357216161805012e-01;
const LG6: f64 = 1.531383769920937332e-01;
const LG7: f64 = 1.479819860511658591e-01;

/// The high word of √2/2, where the reduced argument begins.
const LOG_BASE: u32 = 0x3fe6a09e;

fn high_word(x: f64) -> u32 {
    (x.to_bits() >> 32) as u32
}

pub fn log(x: f64) -> f64 {
    let mut x = x;
    let mut hx = high_word(x);
    let mut k = 0;
    if x == 0. {
        return f64::NEG_INFINITY;
    }
    if hx >> 31 != 0 {
        return f64::NAN;
    }
    if hx >= 0x7ff00000 {
        return x;
    }
    if x == 1. {
        return 0.;
    }
    if hx < 0x00100000 {
        // A subnormal is taken up by 2^54.
        k = -54;
        x *= 18014398509481984.;
        hx = high_word(x);
    }
    hx += 0x3ff00000 - LOG_BASE;
    k += (hx >> 20) as i32 - 0x3ff;
    hx = (hx & 0x000fffff) + LOG_BASE;
    x = f64::from_bits((hx as u64) << 32 | x.to_bits() & 0xffffffff);
    let f = x - 1.;
    let hfsq = 0.5 * f * f;
    let s = f / (2. + f);
    let z = s * s;
    let w = z * z;
    let t1 = w * (LG2 + w * (LG4 + w * LG6));
    let t2 = z * (LG1 + w * (LG3 + w * (LG5 + w * LG7)));
    let r = t2 + t1;
    let dk = k as f64;
    s * (hfsq + r) + dk * LN2_LO - hfsq + f + dk * LN2_HI
}

const INV_LN2: f64 = 1.44269504088896338700;

const P1: f64 = 1.66666666666666019037e-01;
const P2: f64 = -2.77777777770155933842e-03;
const P3: f64 = 6.61375632143793436117e-05;
const P4: f64 = -1.65339022054652515390e-06;
const P5: f64 = 4.13813679705723846039e-08;

/// The high words of 0.5·ln 2, 1.5·ln 2 and 2^-28.
const HALF_LN2: u32 = 0x3fd62e42;
const THREE_HALVES_LN2: u32 = 0x3ff0a2b2;
const TINY: u32 = 0x3e300000;

/// Not a number outside -16..16, both ends included.
pub fn exp(x: f64) -> f64 {
    if !(-16. ..=16.).contains(&x) {
        return f64::NAN;
    }
    let hx = high_word(x) & 0x7fffffff;
    if hx <= TINY {
        return 1. + x;
    }
    let negative = x < 0.;
    let k = if hx <= HALF_LN2 {
        0
    } else if hx < THREE_HALVES_LN2 {
        1 - 2 * negative as i32
    } else {
        (INV_LN2 * x + if negative { -0.5 } else { 0.5 }) as i32
    };
    let (hi, lo, x) = if k == 0 {
        (x, 0., x)
    } else {
        let hi = x - k as f64 * LN2_HI;
        let lo = k as f64 * LN2_LO;
        (hi, lo, hi - lo)
    };
    let xx = x * x;
    let c = x - xx * (P1 + xx * (P2 + xx * (P3 + xx * (P4 + xx * P5))));
    let y = 1. + (x * c / (2. - c) - lo + hi);
    if k == 0 {
        y
    } else {
        y * power_of_two(k)
    }
}

/// 2^k for the few k that `exp` comes to; the product with it is exact.
fn power_of_two(k: i32) -> f64 {
    f64::from_bits(((1023 + k) as u64) << 52)
}
