//! Sums of two floats, of some 100 bits: wide enough to tell by how much of a
//! last place a `log` or an `exp` is off.

use std::ops::{Add, Div, Mul, Neg, Sub};

/// `hi + lo`, where `lo` is at most half a last place of `hi`.
#[derive(Clone, Copy, Debug)]
pub struct DoubleDouble {
    pub hi: f64,
    pub lo: f64,
}

/// The rounded sum and what the rounding lost.
fn two_sum(a: f64, b: f64) -> DoubleDouble {
    let hi = a + b;
    let of_b = hi - a;
    let of_a = hi - of_b;
    DoubleDouble {
        hi,
        lo: (a - of_a) + (b - of_b),
    }
}

/// The same where `a` is not the smaller of the two.
fn quick_two_sum(a: f64, b: f64) -> DoubleDouble {
    let hi = a + b;
    DoubleDouble {
        hi,
        lo: b - (hi - a),
    }
}

/// A float as two halves of 26 bits, whose products are exact.
fn halves(a: f64) -> (f64, f64) {
    let scaled = 134217729. * a;
    let high = scaled - (scaled - a);
    (high, a - high)
}

/// The rounded product and what the rounding lost.
fn two_product(a: f64, b: f64) -> DoubleDouble {
    let hi = a * b;
    let (a1, a2) = halves(a);
    let (b1, b2) = halves(b);
    DoubleDouble {
        hi,
        lo: ((a1 * b1 - hi) + a1 * b2 + a2 * b1) + a2 * b2,
    }
}

impl From<f64> for DoubleDouble {
    fn from(hi: f64) -> Self {
        DoubleDouble { hi, lo: 0. }
    }
}

impl Add for DoubleDouble {
    type Output = Self;
    fn add(self, other: Self) -> Self {
        let high = two_sum(self.hi, other.hi);
        let low = two_sum(self.lo, other.lo);
        let sum = quick_two_sum(high.hi, high.lo + low.hi);
        quick_two_sum(sum.hi, sum.lo + low.lo)
    }
}

impl Neg for DoubleDouble {
    type Output = Self;
    fn neg(self) -> Self {
        DoubleDouble {
            hi: -self.hi,
            lo: -self.lo,
        }
    }
}

impl Sub for DoubleDouble {
    type Output = Self;
    fn sub(self, other: Self) -> Self {
        self + -other
    }
}

impl Mul for DoubleDouble {
    type Output = Self;
    fn mul(self, other: Self) -> Self {
        let product = two_product(self.hi, other.hi);
        let rest = product.lo + (self.hi * other.lo + self.lo * other.hi);
        quick_two_sum(product.hi, rest)
    }
}

impl Div for DoubleDouble {
    type Output = Self;
    fn div(self, other: Self) -> Self {
        let first = self.hi / other.hi;
        let rest = self - other * first.into();
        let second = rest.hi / other.hi;
        let rest = rest - other * second.into();
        let third = rest.hi / other.hi;
        quick_two_sum(first, second) + third.into()
    }
}

/// From decimal digits such as "0.6931".
pub fn decimal(digits: &str) -> DoubleDouble {
    let mut value = DoubleDouble::from(0.);
    let mut scale = DoubleDouble::from(1.);
    let mut after_point = false;
    for digit in digits.bytes() {
        if digit == b'.' {
            after_point = true;
            continue;
        }
        value = value * 10.0.into() + f64::from(digit - b'0').into();
        if after_point {
            scale = scale * 10.0.into();
        }
    }
    value / scale
}

/// `log` and `exp` with what they need worked out once.
pub struct Precise {
    ln2: DoubleDouble,
    /// 1/1, 1/3, 1/5, …
    odd: Vec<DoubleDouble>,
    /// 1/0!, 1/1!, 1/2!, …
    factorials: Vec<DoubleDouble>,
}

impl Precise {
    #[allow(clippy::new_without_default)]
    pub fn new() -> Self {
        let one = DoubleDouble::from(1.);
        let mut factorials = vec![one];
        for n in 1..=28 {
            factorials.push(factorials[n - 1] / (n as f64).into());
        }
        let mut precise = Precise {
            ln2: one,
            odd: (0..40).map(|n| one / f64::from(2 * n + 1).into()).collect(),
            factorials,
        };
        // ln 2 = 2 artanh(1/3)
        precise.ln2 = precise.twice_artanh(one / 3.0.into());
        precise
    }

    pub fn ln2(&self) -> DoubleDouble {
        self.ln2
    }

    /// 2·artanh s for |s| up to 1/3, by its series.
    fn twice_artanh(&self, s: DoubleDouble) -> DoubleDouble {
        let z = s * s;
        // as many terms as 110 bits need, at 1/3 and at 0.1716
        let terms = if s.hi.abs() > 0.18 { 36 } else { 23 };
        let mut sum = self.odd[terms];
        for n in (0..terms).rev() {
            sum = sum * z + self.odd[n];
        }
        s * sum * 2.0.into()
    }

    /// The logarithm of a positive finite float.
    pub fn log(&self, x: f64) -> DoubleDouble {
        let (fraction, exponent) = split(x);
        let s = (DoubleDouble::from(fraction) - 1.0.into())
            / (DoubleDouble::from(fraction) + 1.0.into());
        let log = self.twice_artanh(s);
        if exponent == 0 {
            log
        } else {
            self.ln2 * f64::from(exponent).into() + log
        }
    }

    /// e^x for arguments of a size up to a hundred.
    pub fn exp(&self, x: DoubleDouble) -> DoubleDouble {
        let k = (x.hi / self.ln2.hi).round();
        let r = x - self.ln2 * k.into();
        let mut sum = self.factorials[28];
        for n in (0..28).rev() {
            sum = sum * r + self.factorials[n];
        }
        let power = crate::floats::power(k as i32);
        DoubleDouble {
            hi: sum.hi * power,
            lo: sum.lo * power,
        }
    }
}

/// A fraction between √½ and √2 and the power of two it goes with.
fn split(x: f64) -> (f64, i32) {
    let (x, scaled) = if x < f64::MIN_POSITIVE {
        (x * crate::floats::power(54), -54)
    } else {
        (x, 0)
    };
    let exponent = (x.to_bits() >> 52) as i32 - 1023;
    let fraction = f64::from_bits(x.to_bits() & 0xfffffffffffff | 1023 << 52);
    if fraction > std::f64::consts::SQRT_2 {
        (fraction / 2., exponent + 1 + scaled)
    } else {
        (fraction, exponent + scaled)
    }
}

/// By how many units in the last place `x` is off from the exact value, where
/// the unit is that of the exact value.
pub fn units_off(x: f64, exact: DoubleDouble) -> f64 {
    let off = (DoubleDouble::from(x) - exact).hi.abs();
    let exponent = (exact.hi.abs().to_bits() >> 52) as i32 - 1023;
    off / crate::floats::power(exponent - 52)
}
