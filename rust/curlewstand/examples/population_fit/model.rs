//! The simulator: one compartment, a dose by mouth, in closed form with its
//! derivatives.
//!
//! With k = CL/V the concentration is C(t) = D·ka/V · g(k, t), where
//! g(k, t) = (e^(-k·t) - e^(-ka·t)) / (ka - k).

/// Milligrams.
pub const DOSE: f64 = 100.;
/// The absorption rate, in 1/h.
pub const KA: f64 = 1.2;

/// A concentration in mg/L, and its derivatives by clearance and by volume.
pub struct Concentration {
    pub value: f64,
    pub by_clearance: f64,
    pub by_volume: f64,
}

pub fn concentration(clearance: f64, volume: f64, time: f64) -> Concentration {
    let k = clearance / volume;
    let (g, by_k) = absorbed(k, time);
    let scale = DOSE * KA / volume;
    let value = scale * g;
    // k falls by k/V and rises by 1/V
    Concentration {
        value,
        by_clearance: scale * by_k / volume,
        by_volume: -value / volume - scale * by_k * k / volume,
    }
}

/// g, and its derivative by k. With x = (ka - k)·t these are
/// t·e^(-k·t)·(1 - e^(-x))/x and -t²·e^(-k·t)·(x - 1 + e^(-x))/x²; near x = 0, where
/// both rates are alike, by their series.
fn absorbed(k: f64, time: f64) -> (f64, f64) {
    let x = (KA - k) * time;
    let (first, second) = if x.abs() < 1e-3 {
        (
            1. - x / 2. + x * x / 6. - x * x * x / 24.,
            0.5 - x / 6. + x * x / 24. - x * x * x / 120.,
        )
    } else {
        let gone = (-x).exp_m1();
        (-gone / x, (x + gone) / (x * x))
    };
    let left = time * (-k * time).exp();
    (left * first, -left * time * second)
}

#[cfg(test)]
mod tests {
    use super::*;

    /// The derivatives are those of the values, also where k is just ka.
    #[test]
    fn derivatives() {
        for volume in [5., 30.] {
            for clearance in [0.1, 3., KA * volume, KA * volume * 1.0001, 60.] {
                for time in [0.25, 4., 24.] {
                    let at = |cl: f64, v: f64| concentration(cl, v, time).value;
                    let step = 1e-5;
                    let slope = |up: f64, down: f64, x: f64| (up - down) / (2. * step * x);
                    let found = concentration(clearance, volume, time);
                    let by_clearance = slope(
                        at(clearance * (1. + step), volume),
                        at(clearance * (1. - step), volume),
                        clearance,
                    );
                    let by_volume = slope(
                        at(clearance, volume * (1. + step)),
                        at(clearance, volume * (1. - step)),
                        volume,
                    );
                    assert!((found.by_clearance - by_clearance).abs() < 1e-6);
                    assert!((found.by_volume - by_volume).abs() < 1e-6);
                }
            }
        }
    }
}
