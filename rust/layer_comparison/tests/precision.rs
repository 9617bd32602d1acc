//! `log` and `exp` beside values of some 100 bits: less than one unit in the
//! last place off, over their whole domains.

use layer_comparison::double_double::{decimal, units_off, DoubleDouble, Precise};
use layer_comparison::floats::{classes, exp_turns, log_turns, power};
use layer_comparison::plausible;
use layer_comparison::random::Random;

const LN_2: &str = "0.69314718055994530941723212145817656807550013436026";
const LN_10: &str = "2.30258509299404568401799145468436420760110148862877";
const E: &str = "2.71828182845904523536028747135266249775724709369996";
const E_16: &str = "8886110.5205078726367630237407814503508027198218566";
const E_MINUS_16: &str = "0.0000001125351747192591145137751790601";

/// Alike to 98 bits.
fn alike(a: DoubleDouble, b: DoubleDouble) -> bool {
    ((a - b).hi / b.hi).abs() < power(-98)
}

#[test]
fn the_wide_values_have_the_known_digits() {
    let precise = Precise::new();
    assert!(alike(precise.ln2(), decimal(LN_2)));
    assert!(alike(precise.log(10.), decimal(LN_10)));
    assert!(alike(precise.log(2.), decimal(LN_2)));
    assert!(alike(precise.exp(1.0.into()), decimal(E)));
    assert!(alike(precise.exp(16.0.into()), decimal(E_16)));
    assert!(alike(precise.exp((-16.).into()), decimal(E_MINUS_16)));
    // one series against the other
    let mut random = Random::new(61);
    for _ in 0..10_000 {
        let x = random.magnitude(-20, 20);
        let back = precise.exp(precise.log(x));
        assert!(alike(back, x.into()), "{x:e}");
    }
    // near 1 the first terms of the series are enough
    for f in [power(-45), -power(-45)] {
        let f = DoubleDouble::from(f);
        let few = f - f * f / 2.0.into() + f * f * f / 3.0.into();
        assert!(alike(precise.log((f + 1.0.into()).hi), few));
    }
}

/// The largest error over the arguments, in units of the last place, and the
/// argument it is met at.
struct Largest {
    name: &'static str,
    function: fn(f64) -> f64,
    arguments: u64,
    units: f64,
    at: f64,
}

impl Largest {
    fn of(name: &'static str, function: fn(f64) -> f64) -> Self {
        Largest {
            name,
            function,
            arguments: 0,
            units: 0.,
            at: 0.,
        }
    }

    fn take(&mut self, x: f64, exact: DoubleDouble) {
        let units = units_off((self.function)(x), exact);
        assert!(units < 1., "{}({x:e}) is {units} units off", self.name);
        self.arguments += 1;
        if units > self.units {
            self.units = units;
            self.at = x;
        }
    }

    fn done(self) {
        assert!(self.arguments >= 500_000);
        layer_comparison::say(&format!(
            "{}: at most {:.4} units in the last place off over {} arguments, met at {:016x}",
            self.name,
            self.units,
            self.arguments,
            self.at.to_bits()
        ));
    }
}

fn sample(seed: u64, count: u64, draw: fn(&mut Random) -> [f64; 1]) -> Vec<f64> {
    let mut random = Random::new(seed);
    (0..count).map(|_| draw(&mut random)[0]).collect()
}

#[test]
fn log_is_within_one_unit() {
    let precise = Precise::new();
    let mut ours = Largest::of("log", test_exports::log);
    let mut stand_in = Largest::of("log of the oracle", oracle::libm::log);
    let mut arguments = classes();
    arguments.extend(log_turns());
    arguments.extend(sample(62, 700_000, plausible::log));
    arguments.extend(sample(63, 50_000, |random| {
        [f64::from_bits(random.below(1 << 52))]
    }));
    for x in arguments {
        if x > 0. && x.is_finite() && x != 1. {
            let exact = precise.log(x);
            ours.take(x, exact);
            stand_in.take(x, exact);
        }
    }
    assert_eq!(test_exports::log(1.).to_bits(), 0);
    assert_eq!(oracle::libm::log(1.).to_bits(), 0);
    ours.done();
    stand_in.done();
}

#[test]
fn exp_is_within_one_unit() {
    let precise = Precise::new();
    let mut ours = Largest::of("exp", test_exports::exp);
    let mut stand_in = Largest::of("exp of the oracle", oracle::libm::exp);
    let mut arguments = classes();
    arguments.extend(exp_turns());
    arguments.extend(sample(64, 700_000, plausible::exp));
    for x in arguments {
        if x.abs() <= 16. {
            let exact = precise.exp(x.into());
            ours.take(x, exact);
            stand_in.take(x, exact);
        }
    }
    for exp in [test_exports::exp, oracle::libm::exp] {
        assert_eq!(exp(0.), 1.);
        assert_eq!(exp(-0.), 1.);
    }
    ours.done();
    stand_in.done();
}
