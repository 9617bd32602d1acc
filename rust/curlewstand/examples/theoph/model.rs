//! The simulator: one compartment and a dose by mouth, in closed form with its
//! derivatives. Dose, clearance and volume are for each kilogram of weight.
//!
//! With ke = CL/V the concentration is C(t) = D·ka/V · g, where
//! g = (e^(-ke·t) - e^(-ka·t)) / (ka - ke).

/// What the concentrations of a subject follow from, beside the dose.
#[derive(Clone, Copy, PartialEq)]
pub struct Kinetics {
    /// L/h/kg.
    pub clearance: f64,
    /// L/kg.
    pub volume: f64,
    /// The absorption rate, in 1/h.
    pub absorption: f64,
}

/// The concentration in mg/L at a time in hours, after a dose in mg/kg, and its
/// derivatives by clearance and by the absorption rate.
pub fn concentration(dose: f64, kinetics: Kinetics, time: f64) -> (f64, [f64; 2]) {
    let Kinetics {
        clearance,
        volume,
        absorption,
    } = kinetics;
    let (g, [by_elimination, by_absorption]) = absorbed(clearance / volume, absorption, time);
    let scale = dose / volume;
    (
        scale * absorption * g,
        [
            scale * absorption * by_elimination / volume,
            scale * (g + absorption * by_absorption),
        ],
    )
}

/// g, and its derivatives by both rates.
///
/// g is the same with the rates exchanged, so that it can be written with the slower
/// one, s, before the bracket, where nothing overflows: with x ≥ 0 for the difference of
/// the rates times t,
///
///     g        =  t·e^(-s·t) · (1 - e^(-x))/x
///     g by s   = -t²·e^(-s·t) · (x - 1 + e^(-x))/x²
///
/// and since a rise of both rates by h takes g to g·e^(-h·t), both derivatives come to
/// -t·g together.
fn absorbed(elimination: f64, absorption: f64, time: f64) -> (f64, [f64; 2]) {
    let slower = elimination.min(absorption);
    let (first, second) = brackets((elimination - absorption).abs() * time);
    let left = time * (-slower * time).exp();
    let g = left * first;
    let by_slower = -left * time * second;
    let by_faster = -time * g - by_slower;
    if elimination < absorption {
        (g, [by_slower, by_faster])
    } else {
        (g, [by_faster, by_slower])
    }
}

/// (1 - e^(-x))/x and (x - 1 + e^(-x))/x², near 0 by the second one's series: the first
/// is 1 less x times the second.
fn brackets(x: f64) -> (f64, f64) {
    if x < 0.1 {
        let second = (3..=11)
            .rev()
            .fold(1., |sum, n| 1. - x * sum / f64::from(n))
            / 2.;
        (1. - x * second, second)
    } else {
        let gone = (-x).exp_m1();
        (-gone / x, (x + gone) / (x * x))
    }
}

#[cfg(test)]
mod tests {
    use super::*;

    const DOSE: f64 = 4.5;

    fn at(clearance: f64, absorption: f64, time: f64) -> (f64, [f64; 2]) {
        let kinetics = Kinetics {
            clearance,
            volume: 0.5,
            absorption,
        };
        concentration(DOSE, kinetics, time)
    }

    /// Clearances and absorption rates, with the elimination rate far below, just at and
    /// far above the absorption rate; and times.
    fn grid() -> impl Iterator<Item = [f64; 3]> {
        let beside = [
            1e-3,
            0.3,
            0.9,
            1. - 1e-4,
            1. - 1e-9,
            1.,
            1. + 1e-6,
            1.2,
            40.,
        ];
        let times = [0., 0.25, 1., 4., 24.];
        beside.into_iter().flat_map(move |ratio| {
            [0.05, 1.5, 20.].into_iter().flat_map(move |absorption| {
                times.map(|time| [0.5 * ratio * absorption, absorption, time])
            })
        })
    }

    #[test]
    fn derivatives_are_those_of_the_values() {
        for [clearance, absorption, time] in grid() {
            let (value, found) = at(clearance, absorption, time);
            let step = 1e-5;
            let slope = |[up, down]: [(f64, _); 2], x: f64| (up.0 - down.0) / (2. * step * x);
            let moved = [1. + step, 1. - step];
            let differences = [
                slope(
                    moved.map(|by| at(clearance * by, absorption, time)),
                    clearance,
                ),
                slope(
                    moved.map(|by| at(clearance, absorption * by, time)),
                    absorption,
                ),
            ];
            for ((found, difference), x) in found
                .into_iter()
                .zip(differences)
                .zip([clearance, absorption])
            {
                let off = (found - difference).abs() * x;
                assert!(
                    off <= 1e-6 * value + 1e-12,
                    "{clearance} {absorption} {time}: {off}"
                );
            }
        }
    }

    /// Where the rates differ by far the closed form can be computed as it is written.
    #[test]
    fn values_are_those_of_the_closed_form() {
        for [clearance, absorption, time] in grid() {
            let elimination = clearance / 0.5;
            if (elimination / absorption - 1.).abs() < 0.05 {
                continue;
            }
            let bracket = (-elimination * time).exp() - (-absorption * time).exp();
            let scale = DOSE * absorption * elimination / (clearance * (absorption - elimination));
            let (value, _) = at(clearance, absorption, time);
            let off = (value - scale * bracket).abs();
            assert!(
                off <= 1e-12 * scale.abs(),
                "{clearance} {absorption} {time}: {off}"
            );
        }
    }

    #[test]
    fn nothing_is_there_at_the_dose() {
        assert_eq!(at(0.04, 1.5, 0.), (0., [0., 0.]));
    }
}
